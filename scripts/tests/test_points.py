"""Texts of the program `points` that are read, and what is said of broken ones."""
import unittest

from graded import POINTS
from support import InFolder

from dejavu_tools.errors import ToolError
from dejavu_tools.points import Edge, Point, read_points, text_at

ONE = "points 1\npoint 0 f 1:5 f(void)\n"

# Texts, each with what is said of it behind the file's name.
BROKEN = (
    ("", ":1: the first line isn't `points 1`"),
    ("points 2\nend 0 0\n", ":1: the first line isn't `points 1`"),
    ("refused: source syntax at 1:1\n", ": this is a refusal of `points`, and no list of points"),
    ("points 1", ": the line `end` is missing"),
    ("points 1\n", ":2: no line of points, or none that may stand here"),
    (ONE, ":3: no line of points, or none that may stand here"),
    ("points 1\npoint 1 f 1:5 f(void)\nend 1 0\n", ":2: no line of points, or none that may stand here"),
    ("points 1\npoint 00 f 1:5 f(void)\nend 1 0\n", ":2: no line of points, or none that may stand here"),
    ("points 1\npoint 0 f 1:5\nend 1 0\n", ":2: no line of points, or none that may stand here"),
    ("points 1\npoint 0 f 1 f(void)\nend 1 0\n", ":2: no line of points, or none that may stand here"),
    ("points 1\nedge 0 0 next 0\nend 0 1\n", ":2: no line of points, or none that may stand here"),
    (ONE + "edge 1 0 next 0\nend 1 1\n", ":3: no line of points, or none that may stand here"),
    (ONE + "edge 0 1 next 0\nend 1 1\n", ":3: no line of points, or none that may stand here"),
    (ONE + "edge 0 0 maybe 0\nend 1 1\n", ":3: no line of points, or none that may stand here"),
    (ONE + "edge 0 0 case 0\nend 1 1\n", ":3: no line of points, or none that may stand here"),
    (ONE + "edge 0 0 next 1\nend 1 1\n", ": edge 0 leads to point 1, and there is none"),
    (ONE + "end 1 1\n", ": there are 1 points and 0 edges, and the last line has other counts"),
    (ONE + "end 2 0\n", ": there are 1 points and 0 edges, and the last line has other counts"),
    (ONE + "end 1 0", ":3: no line of points, or none that may stand here"),
    (ONE + "end 1 0\n\n", ":3: no line of points, or none that may stand here"),
    (ONE + "end 1 0\nend 1 0\n", ":3: no line of points, or none that may stand here"),
)


class PointTexts(InFolder):
    def read(self, text):
        """What is read of a text."""
        return read_points(self.write("points", text))

    def test_points_and_edges_are_read(self):
        graph = self.read(POINTS)
        self.assertEqual(len(graph.points), 16)
        self.assertEqual([edge.number for edge in graph.edges], list(range(15)))
        self.assertEqual(
            graph.points[10],
            Point(10, "main", 11, 9, b"c == -1)", [Edge(9, "true", 11), Edge(10, "false", 12)]),
        )
        self.assertEqual(graph.points[2], Point(2, "#start", 8, 5, b"main(void)", []))

    def test_the_ways_out_of_a_switch_are_read(self):
        graph = self.read(ONE + "edge 0 0 case -2147483648 0\nedge 1 0 case 65 0\nedge 2 0 default 0\nend 1 3\n")
        self.assertEqual([edge.exit for edge in graph.edges], ["case -2147483648", "case 65", "default"])

    def test_the_text_of_a_point_has_any_bytes(self):
        for text in (b"", b"x = '\xe9';  // \x00\r", b"point 1 f 2:1 g"):
            with self.subTest(text):
                graph = self.read(b"points 1\npoint 0 f 1:5 " + text + b"\nend 1 0\n")
                self.assertEqual(graph.points[0].text, text)

    def test_broken_texts(self):
        for text, wrong in BROKEN:
            with self.subTest(text), self.assertRaises(ToolError) as caught:
                self.read(text)
            self.assertEqual(str(caught.exception), f"{self.folder / 'points'}{wrong}")

    def test_a_file_that_is_not_there(self):
        with self.assertRaises(ToolError) as caught:
            read_points(self.folder / "none")
        self.assertEqual(str(caught.exception), f"{self.folder / 'none'}: No such file or directory")


class TextAt(unittest.TestCase):
    def test_the_rest_of_a_line_without_the_white_space_at_its_end(self):
        lines = [b"int x;", b"\tx = 1; \t\r", b""]
        self.assertEqual(text_at(lines, 1, 5), b"x;")
        self.assertEqual(text_at(lines, 2, 2), b"x = 1;")
        self.assertEqual(text_at(lines, 3, 1), b"")

    def test_eighty_bytes_at_most(self):
        self.assertEqual(text_at([b"x" * 81], 1, 1), b"x" * 80)
        self.assertEqual(text_at([b"x" * 81], 1, 2), b"x" * 80)
        self.assertEqual(text_at([b"x" * 79 + b"  y"], 1, 1), b"x" * 79)

    def test_places_that_are_none(self):
        for line, column in ((0, 1), (2, 1), (1, 0), (1, 3)):
            with self.subTest((line, column)):
                self.assertIsNone(text_at([b"x"], line, column))


if __name__ == "__main__":
    unittest.main()
