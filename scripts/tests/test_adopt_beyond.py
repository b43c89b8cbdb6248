"""What looks like something that is taken away, and isn't: each is an obstacle, since another meaning may follow."""
import unittest

from support import InFolder
from obstacles_told import told

from dejavu_tools.adopt.words import OBSTACLES

# Each a function or two, and the lines with the kinds of the obstacles that are expected.
PROGRAMS = {
    "a string that may be NULL, for a function that compares it or hands it on": ("""
static const char *const t[] = { "a", NULL };
static int test(const char *s) { return s == NULL; }
static int on(const char *s) { return test(s); }
static int copy(const char *s) { const char *p = s; return p != NULL; }
static int length(const char *s) { return s[0] == 0; }
int f(void) {
    int n = test(t[1]);
    n += on(t[0]);
    n += copy(t[1]);
    n += length(t[0]);
    return test("x") + test(NULL) + n;
}
""", {8: "null", 9: "null", 10: "null"}),
    "a table with an empty string and NULL": ("""
static const char *const t[] = { "", "a", NULL };
struct pair { const char *name; int n; };
static struct pair pairs[] = { { "", 1 }, { NULL, 2 } };
int f(int i) {
    const char *name = t[i];
    while (t[i] != NULL)
        i++;
    if (name)
        i--;
    return pairs[i].name ? 1 : 2;
}
""", {7: "null", 9: "null", 11: "null"}),
    "a pointer to an array that moves, or an array that is handed on as other elements": ("""
static int sum(int m[][4]) { return m[0][0]; }
static int all(int *m) { return m[0]; }
int f(void) {
    int grid[3][4] = { { 0 } };
    int (*row)[4] = grid;
    int n = sum(grid + 1);
    n += sum(&grid[1]);
    n += all((int *)grid);
    row++;
    return sum(grid) + n;
}
""", {6: "pointer", 7: "pointer", 8: "pointer", 9: "pointer"}),
    "pointers of file scope that aren't an array and an index": ("""
static char a[9], b[9];
static char *either = a;
static char *given;
static char **addressed;
static char *lent;
static int *other = (int *)a;
static char *local;
static void set(char *to) { given = to; }
static void take(void) { char mine[2]; local = mine; }
int f(int n) {
    either = n ? a : b;
    lent = a;
    addressed = &lent;
    set(a);
    return *given + *either + *other + *local;
}
""", {3: "pointer", 4: "pointer", 5: "pointer", 6: "pointer", 7: "pointer", 8: "pointer", 12: "pointer", 14: "pointer"}),
    "arguments of sprintf that it writes to": ("""
static char line[9];
static const char *const t[] = { "a", "b" };
static int count;
static int next(void) { return count++; }
int f(int n) {
    sprintf(line, "%s%s", t[n], t[line[0] == 'a']);
    sprintf(line, "%d%d", count, next());
    sprintf(&line[n++], "%d", 1);
    sprintf(line, line[0] ? "a" : "b");
    return sprintf(line, "%f", 1);
}
""", {7: "order", 8: "order", 10: "format value", 11: "floating"}),
}


class Beyond(InFolder):
    """The kinds of obstacles by their lines."""

    def test_programs(self):
        for name, (text, expected) in PROGRAMS.items():
            with self.subTest(name):
                text = "#include <stdio.h>" + text + "int main(void) { return 0; }\n"
                found = {line: what for line, _, what in told(self.write("a.c", text))}
                self.assertEqual(found, {line: OBSTACLES[kind].what for line, kind in expected.items()})


if __name__ == "__main__":
    unittest.main()
