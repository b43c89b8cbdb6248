"""Files, programs and texts that are as large as they may be, or larger."""
import unittest

from program import Answer, Folder

SUITE = "dejavu suite 1\ntest A 100 -\n"
EMPTY = "dejavu suite 1\n"
LONGEST = 134_217_728  # bytes of a history or a certificate


def nested(depth):
    """A source whose `main` returns 0 within so many parentheses."""
    return f"int main(void) {{ return {'(' * depth}0{')' * depth}; }}"


def functions(count):
    """Functions, so many, and `main`."""
    return "".join(f"int f{number}(void) {{ return 0; }} " for number in range(count)) + "int main(void) { return 0; }"


def main_of(line, count):
    """A source whose `main` has this line so often."""
    return f"int main(void) {{ {line * count}}}"


def writing(count):
    """A source that writes `x` so often."""
    return f"int main(void) {{ int i; for (i = 0; i < {count}; i++) {{ putchar(120); }} return 0; }}"


def ring(count):
    """A source that goes round so many equal statements for ever."""
    return f"int main(void) {{ {''.join(f'a{at}: goto a{(at + 1) % count}; ' for at in range(count))}}}"


class Limits(unittest.TestCase):
    def setUp(self):
        self.folder = Folder()
        self.addCleanup(self.folder.__exit__)
        self.folder.keep("source", "int main(void) { return 0; }")
        self.folder.keep("suite", SUITE)

    def answers(self, words, status, line):
        self.assertEqual(self.folder.answer(*words.split()), Answer(status, f"{line}\n"))

    def entry(self, source, suite):
        """The lines of a history behind its source and before its end."""
        self.folder.keep("source", source)
        self.folder.keep("suite", suite)
        lines = self.folder.done("record", "source", "suite").splitlines()
        return lines[2:-1]

    def source_is_refused(self, source, line):
        self.folder.keep("source", source)
        self.answers("record source suite", "Source", f"refused: source {line}")

    def suite_is_refused(self, suite, line):
        self.folder.keep("suite", suite)
        self.answers("record source suite", "Suite", f"refused: suite {line}")

    def test_a_source_may_be_256_deep(self):
        self.entry(nested(252), SUITE)
        self.source_is_refused(nested(253), "syntax at 1:277")

    def test_a_source_may_have_500_functions_beside_start(self):
        self.source_is_refused(functions(500), "limit functions 501")

    def test_a_source_may_have_1048576_bytes(self):
        self.source_is_refused(" " * 1_048_577, "too long")
        self.source_is_refused("(" * 1_048_576, "syntax at 1:1")

    # The points are 3 of #start, the entry and the exit of `main`, and one for each of its statements. The edges are 2 of
    # #start, that of the entry, and one for each line of an expression, or two for each `if`.
    def test_a_program_may_have_10000_points_and_10000_edges(self):
        self.assertEqual(self.entry(main_of("1; ", 9995), EMPTY), ["edges 9998", "tests 0"])
        self.assertEqual(self.entry(main_of("if (1) ; ", 4998), EMPTY), ["edges 9999", "tests 0"])
        self.folder.keep("suite", SUITE)
        self.source_is_refused(main_of("1; ", 9996), "limit points 10001")
        self.source_is_refused(main_of("if (1) ; ", 4999), "limit edges 10001")

    def test_an_output_of_16384_bytes_is_whole_and_a_longer_one_floods(self):
        suite = "dejavu suite 1\ntest L 100000 -\n"
        begin = ["edges 9", "tests 1", "test L", "budget 100000", "input -"]
        output = f"output {'78' * 16_384}"
        self.assertEqual(self.entry(writing(16_384), suite), [*begin, "status exit 0", "turns 49160", output, "crossed ff01"])
        self.assertEqual(self.entry(writing(16_385), suite), [*begin, "status trap flood", "turns 49158", output, "crossed dd00"])

    def test_a_suite_may_have_8192_tests(self):
        self.suite_is_refused(EMPTY + "".join(f"test t{number} 1 -\n" for number in range(8193)), "tests 8193")

    def test_a_suite_may_have_16777216_bytes(self):
        self.suite_is_refused(EMPTY + "x" * 16_777_202, "too long")

    # Nothing is looked at but the length.
    def test_a_history_and_a_certificate_may_have_134217728_bytes(self):
        self.folder.keep("long", b" " * (LONGEST + 1))
        self.answers("select source source long", "History", "refused: history too long")
        self.answers("migrate source long", "History", "refused: history too long")
        self.answers("check source source long", "Certificate", "refused: certificate too long")

    # Each of 4,096 tests writes 16,384 bytes in 776 turns: entries of 32,844 bytes, and 177 bytes in the other lines.
    def test_a_history_of_more_than_134217728_bytes_is_too_much(self):
        line = 'printf("' + "x" * 64 + '");'
        self.folder.keep("source", f"int main(void) {{ int i; for (i = 0; i < 256; i++) {{ {line} }} return 0; }}")
        self.folder.keep("suite", EMPTY + "".join(f"test t{number:04} 1000 -\n" for number in range(1, 4097)))
        self.answers("record source suite", "TooMuch", "refused: history too much 134529201")

    # 3,065 and 3,066 have no divisor in common, so each point of the one ring, from 4 on, comes to stand beside each of the
    # other. With 0, 1 and 3 beside themselves that is 9,397,293 pairs. Each has a line of 7 bytes and the digits of both
    # points, and the other lines have 254 bytes. The walk and its pairs take some 380 MB.
    def test_a_certificate_of_more_than_134217728_bytes_is_too_much(self):
        self.folder.keep("old", ring(3065))
        self.folder.keep("new", ring(3066))
        self.answers("certify old new", "TooMuch", "refused: certificate too much 134227793")
