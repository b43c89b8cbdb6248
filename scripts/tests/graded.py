"""A source with two functions, its points and edges, and a history of three tests, all by hand.

The points and edges are those that docs/walk.md draws of the source, and the crossed edges those on the ways of the
tests through that drawing.
"""
import hashlib

from support import sealed

SOURCE = b"""int grade(int mark)
{
    if (mark < 5)
        return 'F';
    return 'P';
}

int main(void)
{
    int c = getchar();
    if (c == -1)
        return 1;
    putchar(grade(c - '0'));
    return 0;
}
"""

POINTS = """points 1
point 0 #start 8:5 main(void)
edge 0 0 next 1
point 1 #start 8:5 main(void)
edge 1 1 next 2
point 2 #start 8:5 main(void)
point 3 grade 1:5 grade(int mark)
edge 2 3 next 4
point 4 grade 3:9 mark < 5)
edge 3 4 true 5
edge 4 4 false 6
point 5 grade 4:9 return 'F';
edge 5 5 next 7
point 6 grade 5:5 return 'P';
edge 6 6 next 7
point 7 grade 1:5 grade(int mark)
point 8 main 8:5 main(void)
edge 7 8 next 9
point 9 main 10:9 c = getchar();
edge 8 9 next 10
point 10 main 11:9 c == -1)
edge 9 10 true 11
edge 10 10 false 12
point 11 main 12:9 return 1;
edge 11 11 next 15
point 12 main 13:13 grade(c - '0'));
edge 12 12 next 13
point 13 main 13:5 putchar(grade(c - '0'));
edge 13 13 next 14
point 14 main 14:5 return 0;
edge 14 14 next 15
point 15 main 8:5 main(void)
end 16 15
"""

NONE = (0, 7, 8, 9, 11, 1)
FAILED = (0, 7, 8, 10, 2, 3, 5, 12, 13, 14, 1)
PASSED = (0, 7, 8, 10, 2, 4, 6, 12, 13, 14, 1)


def row(edges, crossed):
    """A row of bits in hexadecimal, of so many edges, in which these are crossed."""
    return sum(1 << edge for edge in crossed).to_bytes((edges + 7) // 8, "little").hex()


def entry(name, edges, crossed):
    """The lines of a test of a history that crossed these edges, and of which nothing else matters."""
    return (
        f"test {name}\nbudget 100\ninput -\nstatus exit 0\nturns 9\noutput -\ncrossed {row(edges, crossed) or '-'}\n"
    )


def history(source, edges, *tests):
    """A history of a source with so many edges, of tests that crossed these."""
    digest = hashlib.sha256(source).hexdigest()
    entries = "".join(entry(f"t{number}", edges, crossed) for number, crossed in enumerate(tests))
    return sealed(f"dejavu history 3\nsource {digest}\nedges {edges}\ntests {len(tests)}\n{entries}")


HISTORY = history(SOURCE, 15, NONE, FAILED, PASSED)
