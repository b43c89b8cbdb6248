"""Commands over files, and their whole answers, as the scripts in commands/ have them.

A script is made of paragraphs, with an empty line between two, and a paragraph of lines:

- `# ..` is a comment.
- `NAME: TEXT` is a file that has this text, and no newline at its end.
- `NAME:` is a file that has the lines behind this one, up to the end of the paragraph. Without any it is empty.
- `$ WORDS > NAME` is a command that has to be done. Its text becomes a file.
- `$ WORDS` is a command whose answer stands in the lines behind this one, up to the end of the paragraph: the name of the
  status, and the text.

A file takes the place of an earlier one that has its name. `''` is the empty word, and `{1,2}` in a command stands for 1
and for 2 in turn.
"""
import re
import unittest
from pathlib import Path

from program import Answer, Folder

SCRIPTS = Path(__file__).resolve().parent / "commands"


def words_of(line):
    """The words of a command."""
    return ["" if word == "''" else word for word in line.split(" ")] if line else []


def commands_of(line):
    """The commands that a line with braces stands for."""
    found = re.fullmatch(r"([^{]*)\{([^}]*)\}(.*)", line)
    return [found[1] + part + found[3] for part in found[2].split(",")] if found else [line]


class Commands(unittest.TestCase):
    maxDiff = None

    def carry_out(self, folder, paragraph):
        """Keeps a paragraph's files, and looks at what its commands answer."""
        lines = paragraph.split("\n")
        for at, line in enumerate(lines, 1):
            behind = "".join(f"{it}\n" for it in lines[at:])
            if line.startswith("# "):
                continue
            if line.endswith(":") and " " not in line:
                folder.keep(line[:-1], behind)
                return
            if not line.startswith("$ "):
                name, text = line.split(": ", 1)
                folder.keep(name, text)
            elif " > " in line:
                words, name = line[2:].split(" > ")
                folder.keep(name, folder.done(*words_of(words)))
            else:
                status, _, text = behind.partition("\n")
                for command in commands_of(line[2:]):
                    with self.subTest(command=command):
                        self.assertEqual(folder.answer(*words_of(command)), Answer(status, text))
                return

    def agree(self, script):
        with Folder() as folder:
            for paragraph in script.strip("\n").split("\n\n"):
                self.carry_out(folder, paragraph)


def add_test(path):
    def test(self):
        self.agree(path.read_text(encoding="utf-8"))

    setattr(Commands, f"test_{path.stem}", test)


for script in sorted(SCRIPTS.glob("*.txt")):
    add_test(script)
