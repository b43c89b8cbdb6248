"""How lines are taken out of docs/ci.md."""
import unittest

from support import TOP, InFolder

from dejavu_tools.ci import blocks, missing, run_lines, values_of

TEXT = """Words.

```yaml
steps:
  - uses: some/part@v1
  - run: first --now "a b"
    env:
      run: none
  - name: second
```

```sh
one
two
```

    ```sh

```sh
three
```
"""


class Lines(unittest.TestCase):
    """Blocks and lines."""

    def test_blocks(self):
        self.assertEqual(blocks(TEXT, "sh"), ["one\ntwo\n", "three\n"])
        self.assertEqual(len(blocks(TEXT, "yaml")), 1)
        self.assertEqual(blocks(TEXT, "c"), [])

    def test_run_lines(self):
        self.assertEqual(run_lines(blocks(TEXT, "yaml")[0]), ['first --now "a b"'])

    def test_values(self):
        text = "matrix:\n  suite: [one, two]\n  other: [three]\n"
        self.assertEqual((values_of(text, "suite"), values_of(text, "others")), (["one", "two"], []))

    def test_document(self):
        text = (TOP / "docs" / "ci.md").read_text(encoding="utf-8")
        self.assertEqual([len(run_lines(workflow)) for workflow in blocks(text, "yaml")], [1, 1])
        self.assertEqual(len(blocks(text, "sh")), 3)


class Reports(InFolder):
    """The reports that lines leave."""

    def test_missing(self):
        for name in ("tests.xml", "tests.json"):
            self.write(f"one/{name}", "")
        self.write("two/tests.html", "")
        self.assertEqual(list(missing("script", [self.folder / "one", self.folder / "two"])),
                         ["script: there is no tests.html in one", "script: there is no tests.xml in two",
                          "script: there is no tests.json in two"])


if __name__ == "__main__":
    unittest.main()
