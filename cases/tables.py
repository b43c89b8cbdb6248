"""Tables that are texts with a row in each line, and what their rows make of the lines of a text."""


def rows_of(table):
    """The rows of a table: its lines without those that are empty or begin as a comment does."""
    return [row for row in table.split("\n") if row and not row.startswith("#")]


def text_of(written):
    """A text as a row has it: `-` is none, and `|` stands for a newline."""
    return "" if written == "-" else written.replace("|", "\n")


def lines_of(text):
    """The lines of a text, each with its newline."""
    return [f"{line}\n" for line in text.split("\n")[:-1]]


def before_line(text, number):
    """The lines of a text before the one of this number."""
    return "".join(lines_of(text)[: number - 1])


def with_line(text, number, line):
    """The text with this in place of its line of this number, or behind its last line."""
    lines = lines_of(text)
    return "".join([*lines[: number - 1], line, *lines[number:]])
