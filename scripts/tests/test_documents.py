"""The texts of the repository: what they link to is there, and what the glossary names is defined."""
import re
import unittest
from functools import lru_cache

from support import TOP

TEXTS = sorted({TOP / "README.md", TOP / "CONTRIBUTING.md", *TOP.glob("docs/*.md"), *TOP.glob("examples/**/*.md")})

CODE = re.compile(r"```.*?```|`[^`\n]*`", re.DOTALL)
LINK = re.compile(r"\]\(([^)\s]+)\)")
HEADING = re.compile(r"^#+ (.*)$", re.MULTILINE)
DEFINED = re.compile(r"^\| [^|]+ \| [^|]+ \| `(\w+/[\w./]+)` \(`(\w+)`\) \|$", re.MULTILINE)


def without_code(text):
    """A text without what stands as code, in which a bracket makes no link."""
    return CODE.sub("", text)


@lru_cache(maxsize=None)
def anchors(path):
    """What the headings of a text are linked by: lower case, `-` for a blank, and no other mark."""
    text = re.sub(r"```.*?```", "", path.read_text(encoding="utf-8"), flags=re.DOTALL)
    found = (re.sub(r"[^\w\- ]", "", re.sub(r"\[([^]]*)\]\([^)]*\)", r"\1", title)) for title in HEADING.findall(text))
    return {title.lower().replace(" ", "-") for title in found}


@lru_cache(maxsize=None)
def contents(folder):
    """All code of a folder, and the names of its files."""
    return "\n".join(f"{path.stem}\n{path.read_text(encoding='utf-8')}" for path in sorted(folder.rglob("*.rt")))


class Links(unittest.TestCase):
    def test_lead_to_files_and_headings(self):
        for text in TEXTS:
            for link in LINK.findall(without_code(text.read_text(encoding="utf-8"))):
                if "://" in link:
                    continue
                name, _, anchor = link.partition("#")
                path = (text.parent / name).resolve() if name else text
                with self.subTest(text=text.name, link=link):
                    self.assertTrue(path.exists())
                    self.assertTrue(not anchor or anchor in anchors(path))

    def test_the_readme_names_each_text(self):
        named = LINK.findall((TOP / "README.md").read_text(encoding="utf-8"))
        named = {(TOP / link.partition("#")[0]).resolve() for link in named}
        for text in {TOP / "CONTRIBUTING.md", *TOP.glob("docs/*.md")}:
            with self.subTest(text.name):
                self.assertIn(text, named)


class Map(unittest.TestCase):
    """The names of functions and definitions in architecture.md."""

    TEXT = (TOP / "docs/architecture.md").read_text(encoding="utf-8")

    def test_functions_stand_in_their_crates(self):
        for name, path in re.findall(r"`?\b(\w+)((?:::\w+)+)\b", self.TEXT):
            source = TOP / "crates" / name / "src"
            if source.is_dir():
                with self.subTest(name=name, path=path):
                    self.assertRegex(contents(source), rf"\b{path.split('::')[-1]}\b")

    def test_definitions_of_the_reader_stand_in_their_files(self):
        section = self.TEXT.split("\n## The reader\n")[1].split("\n## ")[0]
        head, _, *rows = [line.split("|")[1:-1] for line in section.splitlines() if line.startswith("|")]
        for column, title in enumerate(head):
            folder = re.search(r"`(\w+/specs)`", title)
            for cell in (row[column] for row in rows if folder):
                for name, words in re.findall(r"`(\w+)`: ((?:`\w+`(?:, )?)+)", cell):
                    for word in re.findall(r"\w+", words):
                        with self.subTest(file=name, word=word):
                            text = (TOP / "crates" / folder[1] / f"{name}.antt").read_text(encoding="utf-8")
                            self.assertRegex(text, rf"(?m)pub {word} :")


class Glossary(unittest.TestCase):
    TEXT = (TOP / "CONTRIBUTING.md").read_text(encoding="utf-8").split("\n## Glossary\n")[1]

    def test_each_row_has_a_place(self):
        rows = [line for line in self.TEXT.splitlines() if line.startswith("| ")][1:]
        self.assertEqual([row for row in rows if not DEFINED.match(row)], [])
        self.assertEqual(rows, sorted(rows, key=str.lower))

    def test_each_name_stands_there(self):
        for place, name in DEFINED.findall(self.TEXT):
            path = TOP / "crates" / (place if place.endswith(".rt") else f"{place}.antt")
            with self.subTest(place=place, name=name):
                self.assertRegex(path.read_text(encoding="utf-8"), rf"(?m)\b{name}\b")


if __name__ == "__main__":
    unittest.main()
