"""Claims about two versions, each with one thing missing or too much, and the first break that `check` tells.

The points are 0 to 2 of #start, and of `main` its entry 3, the test 4, the outputs 5 and 6, the return 7 and the exit 8. The
edges 3 and 4 leave the test.
"""
import unittest

from made_history import digest_of, sealed
from program import Answer, Folder

OLD = "int main(void) { if (getchar()) putchar(66); else putchar(67); return 0; }"
NEW = OLD.replace("67", "68")

# The claim of the walk: every point but the changed output beside itself, and the edge that leads there.
POINTS = (0, 1, 2, 3, 4, 5, 7, 8)


def certificate(edges, points):
    """The certificate that claims these edges, and these points, each beside itself."""
    lines = ["dejavu certificate 1", f"old {digest_of(OLD)}", f"new {digest_of(NEW)}"]
    lines += [f"dangerous {len(edges)}", *(f"edge {edge}" for edge in edges)]
    lines += [f"pairs {len(points)}", *(f"pair {point} {point}" for point in points)]
    return sealed("".join(f"{line}\n" for line in lines))


class Claims(unittest.TestCase):
    def setUp(self):
        self.folder = Folder()
        self.addCleanup(self.folder.__exit__)
        self.folder.keep("old", OLD)
        self.folder.keep("new", NEW)

    def found(self, edges, points):
        """What is found of a claim."""
        self.folder.keep("claim", certificate(edges, points))
        return self.folder.answer("check", "old", "new", "claim")

    def test_the_claim_of_a_walk_is_closed(self):
        self.assertEqual(self.folder.done("certify", "old", "new"), certificate([4], POINTS))
        self.assertEqual(self.found([4], POINTS), Answer("Done", "closed pairs 8 dangerous 1\n"))

    def test_the_first_break_is_told(self):
        for what, edges, missing, line in (
            ("the start", [4], {0}, "open start"),
            ("the call of main", [4], {1}, "open pair 0 0 next"),
            ("what comes behind that call", [4], {2}, "open pair 1 1 next"),
            ("the entry of main", [4], {3}, "open pair 1 1 call"),
            ("the exit of main too, so no edge of the call is asked", [4], {2, 8}, "open pair 7 7 next"),
            ("the edge", [], set(), "open pair 4 4 false"),
        ):
            with self.subTest(without=what):
                points = [point for point in POINTS if point not in missing]
                self.assertEqual(self.found(edges, points), Answer("Open", f"{line}\n"))

    def test_no_edge_excuses_a_pair_of_other_labels(self):
        self.assertEqual(self.found([4], range(9)), Answer("Open", "open pair 6 6 label\n"))
