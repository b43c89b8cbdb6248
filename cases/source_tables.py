"""Tables of sources in C, with a row or a part of a row in each line."""


def lines_of(path):
    """The lines of a table, without those that are empty or begin as a comment of C does."""
    lines = path.read_text(encoding="utf-8").splitlines()
    return [line for line in lines if line and not line.startswith("//")]
