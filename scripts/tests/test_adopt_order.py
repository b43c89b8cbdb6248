"""Where C leaves an order open and a call makes it show, that is an obstacle; elsewhere it is none."""
import unittest

from support import SCRIPTS

from dejavu_tools.adopt.obstacles import ObstaclesFound
from dejavu_tools.adopt.options import Options
from dejavu_tools.adopt.translate import adopt
from dejavu_tools.adopt.words import OBSTACLES

FILE = SCRIPTS / "tests" / "obstacles" / "order.c"


class Order(unittest.TestCase):
    """The lines of a program that say of themselves whether they depend on an order."""

    def test_lines(self):
        with self.assertRaises(ObstaclesFound) as told:
            adopt([FILE], Options())
        lines = FILE.read_text().splitlines()
        expected = [number for number, line in enumerate(lines, 1) if line.endswith("/* order */")]
        self.assertEqual([obstacle.place.line for obstacle in told.exception.obstacles], expected)
        self.assertEqual({obstacle.what for obstacle in told.exception.obstacles}, {OBSTACLES["order"].what})


if __name__ == "__main__":
    unittest.main()
