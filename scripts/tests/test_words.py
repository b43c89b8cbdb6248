"""The words for refusals have an entry for each rule, limit and line of the documents, and no other numbers."""
import re
import unittest

from support import TOP

from dejavu_tools import limits, words
from dejavu_tools.words import Words

FORMATS = (TOP / "docs/formats.md").read_text(encoding="utf-8")
LANGUAGE = (TOP / "docs/language.md").read_text(encoding="utf-8")
HISTORIES = re.search(r"^## Histories.*?(?=^## )", FORMATS, re.DOTALL | re.MULTILINE)[0]
VERSION_3, VERSION_2 = HISTORIES.split("### Version 2")

CLAUSE = re.compile(r"\(\d+\.\d[^)]*\)")  # of C11
NUMBER = re.compile(r"(?<![\w-])\d+(?:,\d{3})*")


def rows_of(text, first, rest=r"(.*)"):
    """The rows of tables whose first cell is of a form: what its groups and those of the rest match, in order."""
    return re.findall(rf"^\| {first} \| {rest} \|$", text, re.MULTILINE)


def rules_of(text, letter):
    """The rules of a table: what a document says of each, by their names."""
    found = rows_of(text, rf"({letter}\d+)")
    return {name: CLAUSE.sub("", row.split(" | ")[0]) for name, row in found}


def numbers_of(text):
    return set(NUMBER.findall(text))


def texts_of(entry):
    """All that is told for an entry, with its greatest number in place."""
    return " ".join((entry.wrong, entry.rule, entry.remedy)).replace("{most}", f"{entry.most or 0:,}")


class Rules(unittest.TestCase):
    """Each table of rules."""

    def check_rules(self, text, letter, count, table, also=""):
        rules, others = rules_of(text, letter), rules_of(also, letter)
        self.assertEqual(list(rules), [f"{letter}{number}" for number in range(1, count + 1)])
        self.assertEqual(list(table), list(rules))
        names = numbers_of(rules_of(FORMATS, "S")["S4"])
        for name, said in rules.items():
            with self.subTest(name):
                wanted = numbers_of(said + others.get(name, "")) | (names if "by S4" in said else set())
                rule = table[name].rule.replace("{most}", f"{table[name].most or 0:,}")
                self.assertEqual(numbers_of(rule), wanted)

    def test_language(self):
        self.check_rules(LANGUAGE, "M", 20, words.LANGUAGE_RULES)

    def test_suites(self):
        self.check_rules(FORMATS, "S", 7, words.SUITE_RULES)

    def test_histories(self):
        self.check_rules(VERSION_3, "H", 14, words.HISTORY_RULES, VERSION_2)

    def test_certificates(self):
        self.check_rules(FORMATS, "C", 9, words.CERTIFICATE_RULES)


class Limits(unittest.TestCase):
    """The limits of sources and of runs."""

    def test_limits_of_sources(self):
        found = rows_of(LANGUAGE, r"[1-9]", r".* \| ([\d,]+) \| `(\w+)`")
        self.assertEqual({name: f"{entry.most:,}" for name, entry in words.SOURCE_LIMITS.items()},
                         {name: most for most, name in found})
        self.assertEqual(len(found), 7)
        for name, entry in words.SOURCE_LIMITS.items():
            with self.subTest(name):
                self.assertIn("{count}", entry.wrong)
                self.assertIn("{most}", entry.wrong)

    def test_limits_of_runs(self):
        found = dict((told, most) for most, told in rows_of(LANGUAGE, r"[a-z][^|]*", r"([\d,]+)[^|]* \| (.*)"))
        told = {
            "rule [S7](formats.md#suites)": f"{words.SUITE_RULES['S7'].most:,}",
            "rule [S5](formats.md#suites)": f"{words.SUITE_RULES['S5'].most:,}",
            "trap `flood`": f"{limits.MOST_OUTPUT:,}",
            "trap `depth`": f"{limits.MOST_FRAMES:,}",
        }
        self.assertEqual(told, found)
        self.assertIn(found["trap `flood`"], words.TRAPS["flood"])
        self.assertIn(found["trap `depth`"], words.TRAPS["depth"])

    def test_faults_of_tokens(self):
        tokens = re.search(r"^## Tokens$.*?^## ", LANGUAGE, re.DOTALL | re.MULTILINE)[0]
        faults = [name for name, _ in rows_of(tokens, r"(\w+)") if name != "Fault"]
        self.assertEqual(list(words.LEXICAL_FAULTS), faults)
        for name, entry in words.LEXICAL_FAULTS.items():
            with self.subTest(name):
                self.assertLessEqual(numbers_of(texts_of(entry)), numbers_of(tokens))

    def test_traps(self):
        names = re.search(r"the names are (.*?) \(", rules_of(VERSION_3, "H")["H9"])[1]
        self.assertEqual(list(words.TRAPS), re.findall(r"`(\w+)`", names))


class Refusals(unittest.TestCase):
    """The lines of refusals, and the commands."""

    def test_lines(self):
        found = rows_of(FORMATS, r"\d+", r"`refused: ([^`]*)` \| (.*)")
        self.assertEqual(list(words.REFUSALS), [form for form, _ in found])
        said = ""
        for form, where in found:
            said = f"{said} {where}" if where.startswith("so ") else where
            entry = words.REFUSALS[form]
            if isinstance(entry, Words):
                with self.subTest(form):
                    self.assertLessEqual(numbers_of(said), numbers_of(texts_of(entry)))
                    self.assertTrue(entry.most is None or f"{entry.most:,}" in numbers_of(said))

    def test_numbers_that_stand_elsewhere(self):
        deepest = re.search(r"no unit is deeper than (\d+)", LANGUAGE)[1]
        self.assertIn(f"at most {deepest} deep", words.REFUSALS["ROLE syntax at L:C"].rule)
        workers = re.search(r"N is a decimal number from (1 to \d+) ", FORMATS)[1]
        self.assertIn(f"`--workers N` with {workers} of them", words.REFUSALS["usage"].rule)

    def test_those_of_no_file_are_lines(self):
        self.assertLessEqual(words.OF_NO_FILE, set(words.REFUSALS))

    def test_commands(self):
        first = re.search(r"^## Words\n\n(.*?)\. TEST ", FORMATS, re.DOTALL | re.MULTILINE)[1]
        found = [command.split() for command in re.findall(r"`([a-z]+ [A-Z ]+)`", first)]
        self.assertEqual([[name, *behind] for name, behind in words.COMMANDS.items()], found)
        self.assertEqual(words.FILES, {word for command in found for word in command[1:]} - {"TEST", "SEED", "SIZE"})

    def test_each_text_says_something(self):
        for form, entry in words.REFUSALS.items():
            for one in [entry] if isinstance(entry, Words) else entry.values():
                for text in (one.wrong, one.rule, one.remedy):
                    with self.subTest(form, text=text):
                        self.assertRegex(text, r"\A[^\n]{12,}[^.\s]\Z")


if __name__ == "__main__":
    unittest.main()
