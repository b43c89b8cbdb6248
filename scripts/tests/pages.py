"""A page of HTML for tests: its text by parts, and what has to hold of every page."""
import re
from html.parser import HTMLParser

VOID = {"meta", "br", "col"}  # elements without an end
HEADINGS = ("h1", "h2", "h3", "h4")


class Page(HTMLParser):
    """A page that is read, with its elements in order. Wrong nesting is an `AssertionError`."""

    def __init__(self, data):
        super().__init__()
        self.elements = []  # of a name, attributes and text
        self.open = []
        self.feed(data.decode("utf-8"))
        assert not self.open, f"{self.open} aren't closed"

    def handle_starttag(self, tag, attributes):
        element = [tag, dict(attributes), ""]
        self.elements.append(element)
        if tag not in VOID:
            self.open.append(element)

    def handle_endtag(self, tag):
        assert self.open and self.open[-1][0] == tag, f"{tag} ends in {[it[0] for it in self.open]}"
        self.open.pop()

    def handle_data(self, data):
        for element in self.open:
            element[2] += data

    def all(self, tag, **attributes):
        """The texts of the elements of this name with these attributes (`kind` stands for `class`)."""
        wanted = {"class" if name == "kind" else name: value for name, value in attributes.items()}
        return [text for name, has, text in self.elements
                if name == tag and all(has.get(key) == value for key, value in wanted.items())]

    def one(self, tag, **attributes):
        """The text of the only such element."""
        (text,) = self.all(tag, **attributes)
        return text

    def ids(self):
        """The names of all elements that have one."""
        return [has["id"] for _, has, _ in self.elements if "id" in has]

    def rows(self, kind):
        """The rows of the tables of a class, each as the texts of its cells."""
        rows, tables = [], []
        for name, has, text in self.elements:
            if name == "table":
                tables = has.get("class", "").split()
            elif kind in tables and name == "tr":
                rows.append([])
            elif kind in tables and name in ("td", "th"):
                rows[-1].append(text)
        return rows


def faults(page):
    """What is wrong with a page, whatever it shows."""
    found = []
    tags = [name for name, _, _ in page.elements]
    levels = [HEADINGS.index(name) for name in tags if name in HEADINGS]
    if levels[:1] != [0] or any(after > before + 1 for before, after in zip(levels, levels[1:])):
        found.append(f"headings of the levels {levels}")
    ids = page.ids()
    found += [f"{name} twice" for name in set(ids) if ids.count(name) > 1]
    links = [has["href"] for name, has, _ in page.elements if name == "a"]
    found += [f"{link} leads nowhere" for link in links if not (link[:1] == "#" and link[1:] in ids)]
    found += [f"a head without scope: {text}" for name, has, text in page.elements
              if name == "th" and "scope" not in has]
    found += [f"there is {name}" for name in ("script", "img", "link", "iframe", "object") if name in tags]
    found += [f"a region without tabindex: {has}" for _, has, _ in page.elements
              if has.get("class") == "wide" and (has.get("tabindex") != "0" or not has.get("aria-label"))]
    if [has.get("lang") for name, has, _ in page.elements if name == "html"] != ["en"]:
        found.append("no language")
    return found


def colors(style):
    """The colours of a style sheet by their names: in light, and in dark."""
    light, dark = (dict(re.findall(r"--(\w+): (#[0-9a-f]{6})", part)) for part in style.split("@media", 2)[:2])
    return light, {**light, **dark}


def contrast(one, other):
    """The contrast ratio of two colours by WCAG 2.2."""
    lighter, darker = sorted((luminance(one), luminance(other)), reverse=True)
    return (lighter + 0.05) / (darker + 0.05)


def luminance(color):
    """The relative luminance of a colour by WCAG 2.2."""
    parts = [int(color[at:at + 2], 16) / 255 for at in (1, 3, 5)]
    red, green, blue = (part / 12.92 if part <= 0.04045 else ((part + 0.055) / 1.055) ** 2.4 for part in parts)
    return 0.2126 * red + 0.7152 * green + 0.0722 * blue
