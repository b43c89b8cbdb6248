"""Histories that are written out by docs/formats.md, whether or not a run gives them."""
import hashlib

# Sources of 9 edges, and one of 8.
SOURCE = "int main(void) { int c; c = getchar(); if (c == 65) { putchar(66); } else { putchar(67); } return 0; }"
CHANGED = "int main(void) { int c; c = getchar(); if (c == 65) { putchar(66); } else { putchar(68); } return 0; }"
OTHER = "int main(void) { switch (getchar()) { case 65: putchar(97); break; default: putchar(63); } return 0; }"

# The traps that a history may tell.
TRAPS = ("overflow", "divide", "shift", "bounds", "unset", "flood", "depth", "missing")


def digest_of(text):
    """The digits of a text's SHA-256."""
    return hashlib.sha256(text.encode()).hexdigest()


def sealed(text):
    """The text with the line of its sum."""
    return f"{text}end {digest_of(text)}\n"


def row_of(edges, crossed):
    """The row of bits of these numbers."""
    row = bytearray((edges + 7) // 8)
    for edge in crossed:
        row[edge // 8] |= 1 << edge % 8
    return row.hex() or "-"


def entry_of(name, crossed, budget=100, given="-", status="exit 0", turns=9, output="-"):
    """The lines of a test and of what its run gave, `crossed` as digits."""
    return (
        f"test {name}\nbudget {budget}\ninput {given}\nstatus {status}\nturns {turns}\noutput {output}\ncrossed {crossed}\n"
    )


def history_of(source, edges, entries, tests=None):
    """The history of a source with these entries, which tells so many tests."""
    tests = len(entries) if tests is None else tests
    head = f"dejavu history 3\nsource {digest_of(source)}\nedges {edges}\ntests {tests}\n"
    return sealed(head + "".join(entries))


# A history of SOURCE of 19 lines: of each entry the lines are 5 to 11 and 12 to 18. The digest and the sum were taken by `sha256sum`.
TWO_TESTS = """\
dejavu history 3
source f3e7b98b7d4d95f021635d364627ee64e4acd311669841db52966ba816eaeb96
edges 9
tests 2
test A
budget 100
input 41
status exit 0
turns 9
output 42
crossed 5f01
test B
budget 100
input 42
status exit 0
turns 9
output 43
crossed af01
end eac55876d49f0d1fe32a649b9e1751d299b9e79be91b030c71dd123e5014b43c
"""
