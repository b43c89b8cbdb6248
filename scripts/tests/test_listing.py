"""Listings, lcov traces and graphs of what tests cross, over texts made by hand."""
import unittest

from graded import FAILED, HISTORY, NONE, POINTS, SOURCE, history
from support import InFolder

LISTING = """\
 tests    line
     2       1  int grade(int mark)
             2  {
     2       3      if (mark < 5)
     1          edge 3 at 3:9 true
     1          edge 4 at 3:9 false
     1       4          return 'F';
     1       5      return 'P';
             6  }
             7
     3       8  int main(void)
             9  {
     3      10      int c = getchar();
     3      11      if (c == -1)
     1          edge 9 at 11:9 true
     2          edge 10 at 11:9 false
     1      12          return 1;
     2      13      putchar(grade(c - '0'));
     2      14      return 0;
            15  }
tests 3 lines 10 of 10 edges 15 of 15
"""

# With the test that has no input alone.
NONE_ALONE = """\
 tests    line
     0       1  int grade(int mark)
             2  {
     0       3      if (mark < 5)
     0          edge 3 at 3:9 true
     0          edge 4 at 3:9 false
     0       4          return 'F';
     0       5      return 'P';
             6  }
             7
     1       8  int main(void)
             9  {
     1      10      int c = getchar();
     1      11      if (c == -1)
     1          edge 9 at 11:9 true
     0          edge 10 at 11:9 false
     1      12          return 1;
     0      13      putchar(grade(c - '0'));
     0      14      return 0;
            15  }
tests 1 lines 4 of 10 edges 6 of 15
"""

TRACE = """\
TN:
SF:{source}
BRDA:3,4,0,{true}
BRDA:3,4,1,{false}
BRDA:11,10,0,1
BRDA:11,10,1,{other}
BRF:4
BRH:{branches}
DA:1,{other}
DA:3,{other}
DA:4,{true_line}
DA:5,{false_line}
DA:8,{tests}
DA:10,{tests}
DA:11,{tests}
DA:12,1
DA:13,{other}
DA:14,{other}
LF:10
LH:{lines}
end_of_record
"""

# A line with three points, of which the last has no way out, and a run that ended at its second point.
SHORT = b"int main(void) { putchar(65); exit(0); }\n"
SHORT_POINTS = """points 1
point 0 #start 1:5 main(void) { putchar(65); exit(0); }
edge 0 0 next 1
point 1 #start 1:5 main(void) { putchar(65); exit(0); }
edge 1 1 next 2
point 2 #start 1:5 main(void) { putchar(65); exit(0); }
point 3 main 1:5 main(void) { putchar(65); exit(0); }
edge 2 3 next 4
point 4 main 1:18 putchar(65); exit(0); }
edge 3 4 next 5
point 5 main 1:31 exit(0); }
point 6 main 1:5 main(void) { putchar(65); exit(0); }
end 7 4
"""
SHORT_LISTING = """\
 tests    line
     2       1  int main(void) { putchar(65); exit(0); }
     0          edge 1 at 1:5 next
     1          edge 3 at 1:18 next
tests 2 lines 1 of 1 edges 3 of 4
"""

QUOTED = b'int main(void) { printf("\\n"); }\n'
QUOTED_POINTS = r"""points 1
point 0 #start 1:5 main(void) { printf("\n"); }
edge 0 0 next 0
end 1 1
"""
QUOTED_GRAPH = r"""digraph points {
  node [shape=box];
  subgraph cluster_0 {
    label="#start";
    p0 [label="0  1:5\nmain(void) { printf(\"\\n\"); }"];
  }
  p0 -> p0 [label="0 next\n1"];
}
"""


class Listings(InFolder):
    def files(self, source=SOURCE, points=POINTS, told=HISTORY):
        """Writes the three files, and gives the words that name them."""
        self.write("old.c", source)
        self.write("points", points)
        self.write("history", told)
        return "history", "points", "old.c"

    def test_a_listing(self):
        self.check_answer(self.run_script("listing", *self.files()), 0, LISTING)

    def test_what_one_test_reaches(self):
        self.check_answer(self.run_script("listing", *self.files(told=history(SOURCE, 15, NONE))), 0, NONE_ALONE)

    def test_a_history_without_tests(self):
        done = self.run_script("listing", *self.files(told=history(SOURCE, 15)))
        self.assertEqual(done.stdout.decode().splitlines()[-1], "tests 0 lines 0 of 10 edges 0 of 15")
        self.assertEqual((done.returncode, done.stderr), (0, b""))

    def test_points_without_a_way_out_and_runs_that_end_at_a_point(self):
        told = history(SHORT, 4, (0, 2, 3), (0, 2))
        self.check_answer(self.run_script("listing", *self.files(SHORT, SHORT_POINTS, told)), 0, SHORT_LISTING)

    def test_a_line_that_has_unseen_characters_and_no_newline(self):
        source = b"int main(void) { } // \x1b\xff"
        points = b"points 1\npoint 0 #start 1:5 main(void) { } // \x1b\xff\nedge 0 0 next 0\nend 1 1\n"
        done = self.run_script("listing", *self.files(source, points, history(source, 1, (0,))))
        self.check_answer(
            done,
            0,
            " tests    line\n     1       1  int main(void) { } // \\x1b\\xff\ntests 1 lines 1 of 1 edges 1 of 1\n",
        )

    def test_an_lcov_trace(self):
        trace = TRACE.format(
            source=self.folder.resolve() / "old.c", true=1, false=1, other=2, branches=4, true_line=1, false_line=1,
            tests=3, lines=10,
        )
        self.check_answer(self.run_script("listing", *self.files(), "--lcov"), 0, trace)

    def test_branches_that_no_test_comes_to(self):
        trace = TRACE.format(
            source=self.folder.resolve() / "old.c", true="-", false="-", other=0, branches=1, true_line=0, false_line=0,
            tests=1, lines=4,
        )
        files = self.files(told=history(SOURCE, 15, NONE))
        self.check_answer(self.run_script("listing", *files, "--lcov"), 0, trace)

    def test_a_graph(self):
        done = self.run_script("listing", *self.files(told=history(SOURCE, 15, FAILED)), "--dot")
        lines = done.stdout.decode().splitlines()
        first = ["digraph points {", "  node [shape=box];", "  subgraph cluster_0 {", '    label="#start";']
        self.assertEqual(lines[:4], first)
        self.assertIn('    p4 [label="4  3:9\\nmark < 5)"];', lines)
        self.assertIn('    p6 [label="6  5:5\\nreturn \'P\';", style=dashed];', lines)
        self.assertIn('  p4 -> p5 [label="3 true\\n1"];', lines)
        self.assertIn('  p4 -> p6 [label="4 false\\n0", style=dashed];', lines)
        self.assertEqual(sum(" -> " in line for line in lines), 15)
        self.assertEqual(sum("subgraph" in line for line in lines), 3)
        self.assertEqual((done.returncode, done.stderr, lines[-1]), (0, b"", "}"))

    def test_a_graph_with_quotes_and_backslashes(self):
        files = self.files(QUOTED, QUOTED_POINTS, history(QUOTED, 1, (0,)))
        self.check_answer(self.run_script("listing", *files, "--dot"), 0, QUOTED_GRAPH)


class Refusals(InFolder):
    def check_refused(self, source, points, told, line):
        """What is said of three files that can't be used."""
        self.write("old.c", source)
        self.write("points", points)
        self.write("history", told)
        self.check_answer(self.run_script("listing", "history", "points", "old.c"), 2, "", f"listing: {line}\n")

    def test_a_history_of_another_source(self):
        self.check_refused(SOURCE + b"\n", POINTS, HISTORY, "history: this is a history of another source than old.c")

    def test_points_of_another_source(self):
        source = SOURCE.replace(b"mark < 5", b"mark < 6")
        line = "points: point 4 isn't one of old.c, which has another text there"
        self.check_refused(source, POINTS, history(source, 15, NONE), line)

    def test_a_history_of_other_edges(self):
        line = "points: there are 15 edges, and history tells of 14"
        self.check_refused(SOURCE, POINTS, history(SOURCE, 14, NONE), line)

    def test_a_refusal_in_place_of_points(self):
        line = "points: this is a refusal of `points`, and no list of points"
        self.check_refused(SOURCE, "refused: memory\n", HISTORY, line)

    def test_a_refusal_in_place_of_a_history(self):
        self.write("old.c", SOURCE)
        self.write("points", POINTS)
        self.write("history", "refused: memory\n")
        done = self.run_script("listing", "history", "points", "old.c")
        self.assertEqual((done.returncode, done.stdout), (2, b""))
        self.assertTrue(done.stderr.startswith(b"listing: history:1: "))

    def test_two_forms_at_once(self):
        done = self.run_script("listing", "history", "points", "old.c", "--lcov", "--dot")
        self.assertEqual((done.returncode, done.stdout), (2, b""))
        self.assertIn(b"--dot", done.stderr)

    def test_an_output_that_nobody_reads(self):
        self.write("old.c", SOURCE)
        self.write("points", POINTS)
        self.write("history", HISTORY)
        self.check_unread("listing", "history", "points", "old.c")


if __name__ == "__main__":
    unittest.main()
