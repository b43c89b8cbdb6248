"""The text on the commands: `help`, and the man page."""
import re
import unittest

from support import TOP, InFolder

from dejavu_tools import manual

FORMATS = (TOP / "docs/formats.md").read_text(encoding="utf-8")
MACROS = {".TH", ".SH", ".PP", ".TP", ".nf", ".fi"}  # of man(7)


class Text(unittest.TestCase):
    """The document against the formats."""

    def test_has_each_command_as_its_words_are(self):
        words = FORMATS.split("\n## Words\n")[1]
        told = re.findall(r"`([a-z]+(?: [A-Z]+)+)`", words)
        commands = manual.read_manual().commands()
        self.assertEqual(sorted(commands), sorted(form.split()[0] for form in told))
        with_workers = set(re.findall(r"`([a-z]+)`", re.search(r"With (.*?), `--workers", words)[1]))
        for form in told:
            name = form.split()[0]
            more = " [--workers N]" if name in with_workers else ""
            with self.subTest(name):
                self.assertEqual(commands[name][0].strip(), f"./dejavu {form}{more}")

    def test_has_each_status(self):
        table = FORMATS.split("\n## Refusals and exit statuses\n")[1].split("\n## ")[0]
        statuses = set(re.findall(r"^\| (\d+) \|", table, re.MULTILINE))
        told = manual.read_manual().sections["Where a command can't be done"]
        self.assertEqual({block.split(":")[0][2:] for block in told if block.startswith("- ")}, statuses)


class Help(InFolder):
    """What the script writes."""

    def test_names_each_command(self):
        answer = self.run_script("help")
        self.assertEqual(answer.returncode, 0)
        called = [line for line in answer.stdout.decode().splitlines() if line.startswith("./dejavu")]
        self.assertEqual([line.split()[1] for line in called], list(manual.read_manual().commands()))

    def test_says_all_of_one_within_the_terminal(self):
        answer = self.run_script("help", "migrate", columns=30)
        self.assertEqual(
            answer.stdout.decode(),
            "    ./dejavu migrate OLD HISTORY\n"
            "\n"
            "Writes a history of version 2\n"
            "of the format in version 3.\n",
        )

    def test_refuses_what_is_none(self):
        answer = self.run_script("help", "replay")
        self.assertEqual((answer.returncode, answer.stdout), (2, b""))
        self.assertRegex(answer.stderr.decode(), r"\Ahelp: there is no command replay; there are record, .*\n\Z")

    def test_writes_a_man_page(self):
        answer = self.run_script("help", "--man")
        self.assertEqual(answer.returncode, 0)
        lines = answer.stdout.decode().splitlines()
        self.assertEqual(lines[0], ".TH DEJAVU 1")
        self.assertEqual({line.split()[0] for line in lines if line.startswith((".", "'"))}, MACROS)
        self.assertIn("\\&./dejavu walk OLD NEW", lines)
        self.assertIn('.SH "CARRY"', lines)


if __name__ == "__main__":
    unittest.main()
