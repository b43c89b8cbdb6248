"""The study of selections: mutants of small texts, and choices over coverage that is made up."""
import importlib.util
import json
import re
import sys
import unittest
from types import SimpleNamespace
from unittest.mock import MagicMock, patch

from support import TOP, InFolder  # which makes the package one that can be imported
from dejavu_tools.errors import ToolError
from dejavu_tools.study import figures, measure, plots, table
from dejavu_tools.study.choices import (
    ALL, FUNCTIONS, LINES, SELECT, Covered, Function, Span, by_functions, by_lines, choices_of, is_inside, spans_of,
)
from dejavu_tools.study.figures import CHOICES, Cost, Figures, Program, Result
from dejavu_tools.study.mutants import mutants, sample, tokens_of

HEAD = Function("a.c", "head", 2, 5)
TAIL = Function("a.c", "tail", 7, 9)
COVERED = {
    "short": Covered(frozenset({HEAD}), frozenset({("a.c", 2), ("a.c", 3)})),
    "long": Covered(frozenset({HEAD, TAIL}), frozenset({("a.c", 2), ("a.c", 3), ("a.c", 4), ("a.c", 7), ("a.c", 8)})),
}


def changed(source, operator):
    """The texts that an operator makes of a source, in the order of their places."""
    found = sorted((it for it in mutants(source) if it.operator == operator), key=lambda it: it.start)
    return [it.applied(source) for it in found]


class Operators(unittest.TestCase):
    """Each operator of mutation changes the places that it should, and no others."""

    def test_tokens_leave_out_blanks_and_comments(self):
        define, rest = "#define N 3 /* \n */ \\\n + 4", 'a += "x\\"+y" + \'"\'; // b + c\n/* d */ e->f'
        texts = [token.text for token in tokens_of(f"{define}\n{rest}")]
        self.assertEqual([define, "a", "+=", '"x\\"+y"', "+", "'\"'", ";", "e", "->", "f"], texts)

    def test_constants(self):
        self.assertEqual(["x = 10 + 0x1F;", "x = 9 + 0x20;"], changed("x = 9 + 0x1F;", "CRP"))
        made = [changed(f"x = {it};", "CRP")[0] for it in ("07u", "7UL", "0")]
        self.assertEqual(["x = 010u;", "x = 8UL;", "x = 1;"], made)
        self.assertEqual([], changed("x = 1.5 + '1' + a1; y = \"2\"; // 3", "CRP"))

    def test_constants_of_macros(self):
        self.assertEqual(["#define MOST 9 /* of 8 */\n"], changed("#define MOST 8 /* of 8 */\n", "CRP"))
        self.assertEqual([], changed('#include "a8.h"\n#if N > 8\n#endif\n', "CRP"))

    def test_arithmetic_has_two_operands(self):
        self.assertEqual(["x = a - b;"], changed("x = a + b;", "AOR"))
        self.assertEqual(["x = f(a) + -b;"], changed("x = f(a) - -b;", "AOR"))
        self.assertEqual(["x = a[1] + 1;"], changed("x = a[1] - 1;", "AOR"))
        self.assertEqual([], changed("x = -1; x += 1; x++; return -x; case -1: (int)-x; p->q;", "AOR"))

    def test_logical_connectors(self):
        self.assertEqual(["if (a || b || c)", "if (a && b && c)"], changed("if (a && b || c)", "LCR"))

    def test_relations(self):
        pairs = [("<", "<="), ("<=", "<"), (">", ">="), (">=", ">"), ("==", "!="), ("!=", "==")]
        self.assertEqual([[f"a {new} b"] for _, new in pairs], [changed(f"a {old} b", "ROR") for old, _ in pairs])
        self.assertEqual([], changed("#include <stdio.h>\na << b; a >>= b; c->d; a <<= b;", "ROR"))

    def test_negated_conditions(self):
        self.assertEqual(["if (!(f(a) && b)) c();"], changed("if (f(a) && b) c();", "OCNG"))
        self.assertEqual(["while (!(a)) ;"], changed("while (a) ;", "OCNG"))
        self.assertEqual([], changed("for (;a;) switch (b) {} f(a);", "OCNG"))

    def test_deleted_statements(self):
        body = "int f(int a) { int b = 1; b = 2; g(b); if (a) b++; else --b; while (a) break; return b; }"
        self.assertEqual(
            [
                body.replace("b = 2;", ";"),
                body.replace("g(b);", ";"),
                body.replace("b++;", ";"),
                body.replace("--b;", ";"),
                body.replace("break;", ";"),
            ],
            changed(body, "SDL"),
        )

    def test_deletion_needs_a_statement(self):
        self.assertEqual([], changed("struct s { int a; }; int b[] = { f, g }; enum { x = 1, y }; int c = 3;", "SDL"))
        self.assertEqual([], changed("int f(void) { T x; T *p; return 0; l: return 1; }", "SDL"))
        self.assertEqual([], changed("int f(int a) { return g((S){ a = 1, 2 }); }", "SDL"))

    def test_sample_takes_each_kth_of_each_operator(self):
        source = "a = 1 + 2 + 3 + 4 + 5;"
        taken = [(it.operator, it.place(source)) for it in sample(source, 2)]
        self.assertEqual([("AOR", "1:7"), ("AOR", "1:15"), ("CRP", "1:5"), ("CRP", "1:13"), ("CRP", "1:21")], taken)

    def test_places_count_lines_and_columns_from_1(self):
        source = "a;\n  b == c;\n"
        self.assertEqual(["2:5"], [it.place(source) for it in mutants(source) if it.operator == "ROR"])


class Spans(unittest.TestCase):
    """What changes is found, and in which functions it is."""

    def test_replaced_removed_and_added_lines(self):
        self.assertEqual([Span("a.c", 2, 2)], spans_of({"a.c": "1\n2\n3\n"}, {"a.c": "1\nx\n3\n"}))
        self.assertEqual([Span("a.c", 2, 3)], spans_of({"a.c": "1\n2\n3\n4\n"}, {"a.c": "1\n4\n"}))
        self.assertEqual([Span("a.c", 3, 2)], spans_of({"a.c": "1\n2\n3\n"}, {"a.c": "1\n2\nx\n3\n"}))
        self.assertEqual([], spans_of({"a.c": "1\n"}, {"a.c": "1\n"}))

    def test_added_lines_have_two_neighbours(self):
        self.assertEqual([("a.c", 2), ("a.c", 3)], Span("a.c", 3, 2).lines)
        self.assertEqual([("a.c", 3)], Span("a.c", 3, 3).lines)

    def test_a_function_has_what_is_between_its_first_line_and_its_last(self):
        rows = [((1, 1), False), ((2, 2), True), ((5, 5), True), ((6, 6), False), ((1, 9), True)]
        self.assertEqual([found for _, found in rows], [HEAD.has(Span("a.c", *lines)) for lines, _ in rows])
        self.assertFalse(HEAD.has(Span("b.c", 3, 3)))

    def test_a_function_has_lines_that_are_added_inside_it(self):
        rows = [((2, 1), False), ((3, 2), True), ((5, 4), True), ((6, 5), False)]
        self.assertEqual([found for _, found in rows], [HEAD.has(Span("a.c", *lines)) for lines, _ in rows])

    def test_a_change_is_inside_where_all_of_it_is(self):
        spans = [Span("a.c", 3, 3), Span("a.c", 8, 8)]
        self.assertTrue(is_inside(spans, [HEAD, TAIL]))
        self.assertFalse(is_inside(spans, [HEAD]))


class Choices(unittest.TestCase):
    """What each choice runs again."""

    def test_functions_and_lines(self):
        rows = [
            (Span("a.c", 3, 3), {"short", "long"}, {"short", "long"}),  # both cross it
            (Span("a.c", 4, 4), {"short", "long"}, {"long"}),  # both enter the function
            (Span("a.c", 8, 8), {"long"}, {"long"}),
            (Span("a.c", 1, 1), set(), set()),  # outside of functions no test is seen
            (Span("a.c", 5, 4), {"short", "long"}, {"long"}),  # added between lines 4 and 5
        ]
        for span, functions, lines in rows:
            self.assertEqual((functions, lines), (by_functions([span], COVERED), by_lines([span], COVERED)))

    def test_all_four(self):
        chosen = choices_of([Span("a.c", 9, 9)], COVERED, "left short\nrun long edge 7\nselected 1 of 2\n")
        self.assertEqual({"short", "long"}, chosen[ALL])
        self.assertEqual({"long"}, chosen[FUNCTIONS])
        self.assertEqual(set(), chosen[LINES])
        self.assertEqual({"long"}, chosen[SELECT])

    def test_what_gcov_tells(self):
        file = {
            "file": "a.c",
            "functions": [
                {"name": "head", "start_line": 2, "end_line": 5, "execution_count": 1},
                {"name": "tail", "start_line": 7, "end_line": 9, "execution_count": 0},
            ],
            "lines": [{"line_number": 3, "count": 2}, {"line_number": 8, "count": 0}],
        }
        functions, covered = measure.read_gcov(json.dumps({"files": [file]}) + "\n" + json.dumps({"files": []}) + "\n")
        self.assertEqual({HEAD, TAIL}, functions)
        self.assertEqual(Covered(frozenset({HEAD}), frozenset({("a.c", 3)})), covered)


    def test_what_was_found_of_a_change(self):
        lines = "1\n2\n3\n4\n5\n6\n7\n{}\n9\n"
        old = measure.Old(
            SimpleNamespace(name="p"), self.id(), {"a.c": lines.format(8)}, frozenset({HEAD, TAIL}), COVERED,
            {"short": ("exit 0", b"1"), "long": ("exit 0", b"2")}, Cost(3, 4), Cost(5, 6),
        )
        change = measure.Change("c", "ROR", {"a.c": lines.format("another")})
        after = {"short": ("exit 1", b"1"), "long": ("exit 0", b"3")}
        self.assertEqual(
            Result("p", "c", "ROR", is_inside=True, differ=2, run={ALL: 2, FUNCTIONS: 1, LINES: 1, SELECT: 2},
                   missed={ALL: 0, FUNCTIONS: 1, LINES: 1, SELECT: 0}, costs={"select": Cost(7, 8)}),
            measure.result_of(old, change, "run short edge 1\nrun long edge 7\n", after, {"select": Cost(7, 8)}),
        )
        self.assertEqual(Program("p", 2, Cost(3, 4), Cost(5, 6)), old.program)


def result(name, differ, run, missed, inside=True, program="p", costs=(Cost(10), Cost(20, 5), Cost(5))):
    """What was found of a change of a program with four tests, where `run` and `missed` are those of narrow choices."""
    return Result(program, name, "ROR", is_inside=inside, differ=differ, run=dict(zip(CHOICES, (4, *run))),
                  missed=dict(zip(CHOICES, (0, *missed))), costs=dict(zip(("adopt", "record", "select"), costs)))


RESULTS = [result("one", 1, (3, 1, 2), (0, 0, 0)), result("two", 2, (0, 1, 3), (2, 1, 0), inside=False)]
FIGURES = Figures(
    [Program("p", 4, Cost(30_000, 2_000), Cost(900, 100)), Program("q", 4, Cost(), Cost(2_000))],
    [*RESULTS, result("three", 4, (4, 4, 4), (0, 0, 0), program="q"), Result("q", "four", "CRP", figures.UNCOMPILED)],
)


def cells(lines):
    """The rows of a table in Markdown, without its head, by their first cells."""
    rows = [line.strip("| ").split(" | ") for line in lines[2:]]
    return {row[0]: row[1:] for row in rows}


class Tables(InFolder):
    """What the tables count."""

    def test_summary(self):
        self.assertEqual(
            [
                "| Choice | Tests run again | of all | Missed | Changes with a miss | Inclusiveness | Precision |",
                "| --- | ---: | ---: | ---: | ---: | ---: | ---: |",
                "| all tests | 8 | 100.0 % | 0 | 0 | 100.0 % | 0.0 % |",
                "| changed functions | 3 | 37.5 % | 2 | 1 | 33.3 % | 60.0 % |",
                "| changed lines | 2 | 25.0 % | 1 | 1 | 66.6 % | 100.0 % |",
                "| `select` | 5 | 62.5 % | 0 | 0 | 100.0 % | 60.0 % |",
            ],
            table.summary(RESULTS),
        )

    def test_groups_and_their_sum(self):
        lines = table.counted("Place", {"inside": RESULTS[:1], "elsewhere": RESULTS[1:]})
        choices = "changed functions | missed | changed lines | missed | `select` | missed"
        self.assertEqual(f"| Place | Changes | Tests | Differ | {choices} |", lines[0])
        self.assertEqual(
            [
                "| inside | 1 | 4 | 1 | 3 | 0 | 1 | 0 | 2 | 0 |",
                "| elsewhere | 1 | 4 | 2 | 0 | 2 | 1 | 1 | 3 | 0 |",
                "| together | 2 | 8 | 3 | 3 | 2 | 2 | 1 | 5 | 0 |",
            ],
            lines[2:],
        )

    def test_changes_that_were_left_out(self):
        lines = table.left_out(FIGURES)[2:]
        self.assertEqual(["| p | 2 | 2 | 0 | 0 | 0 |", "| q | 2 | 1 | 1 | 0 | 0 |", "| together | 4 | 3 | 1 | 0 | 0 |"],
                         lines)

    def test_a_share_is_never_rounded_up_to_all(self):
        self.assertEqual(["99.9 %", "100.0 %", "-"], [table.share(1999, 2000), table.share(7, 7), table.share(0, 0)])

    def test_costs_are_medians(self):
        times = [Cost(1_000, 0), Cost(2_000, 3_000), Cost(2_000_000, 1_000)]
        group = [result(str(at), 0, (0, 0, 0), (0, 0, 0), costs=(time, Cost(), Cost())) for at, time in enumerate(times)]
        self.assertEqual("2.0 + 1.0", table.in_milliseconds(table.median_cost(group, "adopt")))

    def test_a_selection_pays_from_where_the_tests_that_are_left_take_as_long_as_its_commands(self):
        # The commands take 0.01 + 0.025 + 0.005 milliseconds, and of 8 tests 3 are left: 8 / 3 of 0.04.
        self.assertAlmostEqual(0.04 * 8 / 3, table.break_even(RESULTS))
        self.assertIsNone(table.break_even(FIGURES.of_programs()["q"]))  # where all tests run again
        self.assertEqual({"p": "0.1", "q": "never"}, {name: row[-1] for name, row in cells(table.costs(FIGURES)).items()})

    def test_programs_and_their_changes_are_found(self):
        names = [(it.name, it.is_adopted, len(it.patches)) for it in measure.subjects()]
        self.assertIn(("first", False, 2), names)
        self.assertIn(("tok", True, 3), names)

    def test_a_command_that_fails_is_told(self):
        with self.assertRaisesRegex(ToolError, "/nowhere/program: No such file"):
            measure.run(["/nowhere/program"])
        with self.assertRaisesRegex(ToolError, "false ends with 1"):
            measure.wanted(["false"])


class File(InFolder):
    """The file of the figures."""

    def test_what_is_read_is_what_was_written(self):
        text = figures.figures_text(FIGURES)
        self.assertEqual(FIGURES, figures.read_figures(self.write("figures", text)))
        self.assertEqual(figures.FORMAT, json.loads(text)["format"])

    def test_a_script_makes_the_same_tables_and_file_of_it(self):
        path = self.write("figures", figures.figures_text(FIGURES))
        done = self.run_script("study", "--from", path, "--json", "again")
        self.check_answer(done, 0, "".join(f"{line}\n" for line in table.tables(FIGURES)))
        self.assertEqual(path.read_bytes(), (self.folder / "again").read_bytes())

    def test_other_files_are_refused(self):
        good = figures.figures_text(FIGURES).decode()
        for text in ("", "{}", "[]", good.replace("study 1", "study 2"), good.replace('"missed"', '"other"', 1),
                     good.replace("[10, 0]", "[10]"), good[:-1]):
            with self.subTest(text), self.assertRaisesRegex(ToolError, "bad: this isn't what `study --json` writes"):
                figures.read_figures(self.write("bad", text))

    def test_a_test_that_select_misses_is_told_by_the_status(self):
        missing = Figures(FIGURES.programs, [result("one", 1, (3, 1, 2), (0, 0, 1)), FIGURES.results[2]])
        path = self.write("figures", figures.figures_text(missing))
        self.assertEqual(1, self.run_script("study", "--from", path).returncode)


class Plots(InFolder):
    """The data of the plots are those of the tables."""

    def numbers(self, column):
        """The numbers of a column of the table by program."""
        rows = cells(table.counted("Program", FIGURES.of_programs()))
        return [int(row[column].replace(",", "")) for row in rows.values()]

    def test_shares(self):
        data = plots.run_again(FIGURES)
        tests = self.numbers(1)
        self.assertEqual(["p", "q", "together"], data.groups)
        columns = {plots.DIFFER: 2, FUNCTIONS: 3, LINES: 5, SELECT: 7, ALL: 1}
        for name, column in columns.items():
            wanted = [100 * part / whole for part, whole in zip(self.numbers(column), tests)]
            self.assertEqual(wanted, data.series[name])
        self.assertEqual([62.5, 100.0, 75.0], data.series[SELECT])

    def test_missed(self):
        data = plots.missed(FIGURES)
        self.assertEqual({ALL: [0, 0, 0], FUNCTIONS: self.numbers(4), LINES: self.numbers(6), SELECT: self.numbers(8)},
                         data.series)
        self.assertEqual([2, 0, 2], data.series[FUNCTIONS])

    def test_costs(self):
        rows, data = cells(table.costs(FIGURES)), plots.costs(FIGURES)
        for name, column in {plots.RUNS_ALL: 2, "`adopt`": 3, "`record`": 4, SELECT: 5}.items():
            told = [sum(map(float, row[column].split(" + "))) for row in rows.values()]
            for value, shown in zip(data.series[name], told):
                self.assertAlmostEqual(shown, value, delta=0.1)  # each of both parts is told to 0.1
        self.assertEqual([1.0, 2.0], data.series[plots.RUNS_ALL])
        self.assertEqual([row[-1] for row in rows.values()],
                         ["never" if it is None else f"{it:.1f}" for it in data.series[plots.PAYS]])

    def test_matplotlib_is_wanted_before_the_work_begins(self):
        with patch.dict(sys.modules, matplotlib=None), self.assertRaises(ToolError) as caught:
            plots.plotter()
        self.assertEqual(2, caught.exception.status)
        for line in ("apt-get install python3-matplotlib", "python3 -m pip install matplotlib"):
            self.assertIn(line, str(caught.exception))
        done = self.run_script("study", "--from", "no-such-file", "--plots", "plots")  # with Python's own library alone
        self.assertIn(b"--plots wants matplotlib", done.stderr)
        self.assertEqual((2, b"", []), (done.returncode, done.stdout, self.names()))

    def test_what_is_drawn_is_the_data(self):
        library, figure, axes = MagicMock(), MagicMock(), MagicMock()
        library.pyplot.subplots.return_value = figure, axes
        with patch.dict(sys.modules, matplotlib=library):
            plots.plotter()(self.folder / "plots", FIGURES)
        drawn = [call[0][1] for call in axes.bar.call_args_list]
        self.assertEqual([*plots.run_again(FIGURES).series.values(), *plots.missed(FIGURES).series.values()], drawn)
        pays = plots.costs(FIGURES).series[plots.PAYS][0]
        self.assertEqual(([pays], [0]), axes.plot.call_args_list[-1][0][:2])  # only the first program has one
        self.assertEqual(sorted(plots.NAMES), self.names("plots"))

    @unittest.skipUnless(importlib.util.find_spec("matplotlib"), "matplotlib is missing")
    def test_the_same_figures_give_the_same_bytes(self):
        made = []
        for name in ("one", "two"):
            plots.plotter()(self.folder / name, FIGURES)
            made.append({it: (self.folder / name / it).read_bytes() for it in self.names(name)})
        self.assertEqual(made[0], made[1])
        self.assertEqual(list(made[0]), sorted(plots.NAMES))


class Document(unittest.TestCase):
    """docs/study.md shows the figures of docs/study/figures.json."""

    FOLDER = TOP / "docs" / "study"

    def setUp(self):
        self.text = (TOP / "docs" / "study.md").read_text(encoding="utf-8")
        self.figures = figures.read_figures(self.FOLDER / "figures.json")

    def test_tables(self):
        part = self.text.split("\n### The choices\n")[1].split("\n## ")[0]
        self.assertEqual(table.tables(self.figures), f"### The choices\n{part}".splitlines())

    def test_plots_are_of_the_same_figures(self):
        for name in plots.NAMES:
            self.assertRegex(self.text, rf"!\[[^\]]{{40,}}\]\(study/{re.escape(name)}\)")  # with a text for the blind
            svg = (self.FOLDER / name).read_text(encoding="utf-8")
            self.assertIn(f"<dc:source>{figures.sum_of(self.figures)}</dc:source>", svg)
            self.assertLess(len(svg), 60_000)


if __name__ == "__main__":
    unittest.main()
