"""What can't be read is told and left out, and the rest of the program is looked at all the same."""
import unittest

from obstacles_told import told
from support import InFolder

from dejavu_tools.adopt.items import Declared, declared, split
from dejavu_tools.adopt.obstacles import ObstaclesFound
from dejavu_tools.adopt.options import Options
from dejavu_tools.adopt.parse import MOST_FAULTS
from dejavu_tools.adopt.translate import adopt

SYNTAX = "this can't be read"
FLOATING = "a floating-point number"

# Each with the obstacles that are expected: a line, a column and the beginning of what is told.
PROGRAMS = {
    "a type, and all that stands on it": ("""
typedef struct { int a; } __attribute__((packed)) inner;
typedef inner *cursor;
struct outer { inner first; int n; };
static inner one;
static int of(struct outer *o, cursor c) { return o->first.a + one.a + c->a + o->n; }
int main(void) { struct outer o; inner local[3]; o.first = one; local[0] = one; return of(&o, local); }
double d;
""", [(2, 41, SYNTAX), (8, 1, FLOATING)]),
    "a struct with a tag, and a member of it": ("""
struct inner { int a; __int128 b; __typeof__(1) c; };
struct outer { struct inner first; };
int main(void) { struct outer o; o.first.a = 1; double d; return o.first.a + missing(); }
""", [(2, 35, SYNTAX), (4, 49, FLOATING), (4, 78, "the function `missing` isn't defined")]),
    "a function without a head that can be read": ("""
static __signed__ int twice(int n) { return 2 * n; }
int main(void) { return twice(2) + missing(1) + missing(twice(1)); }
""", [(2, 36, SYNTAX), (3, 36, "the function `missing` isn't defined"), (3, 49, "the function `missing` isn't")]),
    "functions with the names of helpers of the translator": ("""
void pad(int count, int byte);
int back(int n);
static __signed__ int print_int(int n) { return n; }
int main(void) { pad(1, 2); print_int(1); return back(3) + print_int(2) + (back(1) > 0); }
""", [(4, 40, SYNTAX), (5, 18, "the function `pad` isn't defined"), (5, 50, "the function `back` isn't defined"),
      (5, 76, "the function `back` isn't defined")]),
    "the body of a function": ("""
static int of(int n) { switch (n) { case 1 ... 3: return 1; } return 0; }
int main(void) { return of(1.5); }
""", [(2, 44, SYNTAX), (3, 28, FLOATING)]),
    "a type of structs and one of an enum, with what begins as one or is assigned to one": ("""
typedef enum { LOW, HIGH } __attribute__((packed)) level;
struct point { int x, y; };
typedef struct { level l; struct point origin, corners[2]; } __attribute__((packed)) pair;
static pair first = { .l = LOW }, all[2] = { { HIGH, { 1, 2 } } };
static pair made(level l) { pair p = { l }; return p; }
int main(void) {
    struct point p = { 1, 2 };
    first.origin = p; all[1] = made(HIGH); first.corners[0] = p;
    return first.l == LOW ? 1.5 : all[0].l; }
""", [(2, 42, SYNTAX), (4, 76, SYNTAX), (10, 29, FLOATING)]),
    "main itself": ("""
int main(void) { return __builtin_types_compatible_p(int, long); }
double d;
""", [(2, 54, SYNTAX), (3, 1, FLOATING)]),
    "an object and the constants of an enum": ("""
enum { FIRST = 1, SECOND } __attribute__((packed)) chosen = FIRST;
static int (*handlers[2])(int) __attribute__((packed));
static int sizes[SECOND];
int main(void) { sizes[FIRST] = SECOND; handlers[0](1.5); switch (chosen) { case FIRST: return sizes[1]; } return 1; }
""", [(2, 42, SYNTAX), (3, 32, SYNTAX), (5, 53, FLOATING)]),
}


class Unread(InFolder):
    """Obstacles beside what can't be read."""

    def test_programs(self):
        for name, (text, expected) in PROGRAMS.items():
            with self.subTest(name):
                found = told(self.write("a.c", text))
                self.assertEqual([place[:2] for place in found], [place[:2] for place in expected], found)
                for (_, _, what), (_, _, begins) in zip(found, expected):
                    self.assertTrue(what.startswith(begins), what)

    def test_other_files(self):
        self.write("a.h", "typedef struct { int a; } __attribute__((packed)) pair;\nint of(pair *p);\n")
        paths = [
            self.write("a.c", '#include "a.h"\nint main(void) { pair p; p.a = 1; return of(&p); }\n'),
            self.write("b.c", '#include "a.h"\nint of(pair *p) { return p->a * 1.5; }\n'),
        ]
        with self.assertRaises(ObstaclesFound) as caught:
            adopt(paths, Options())
        lines = [str(obstacle).replace(str(self.folder), "") for obstacle in caught.exception.obstacles]
        self.assertEqual([line.split(": ")[0] for line in lines], ["/a.h:1:41", "/b.c:2:33"], lines)

    def test_bound(self):
        count = MOST_FAULTS + 20
        lines = [f"int of_{k}(int n) {{ switch (n) {{ case 1 ... 3: n = {k}; }} return n; }}" for k in range(count)]
        found = told(self.write("a.c", "\n".join([*lines, "int main(void) { return 0; }", ""])))
        self.assertEqual(len(found), MOST_FAULTS)
        self.assertTrue(found[-1][2].endswith(", and what stands behind it isn't read"))
        self.assertEqual({line for line, _, _ in found}, set(range(1, MOST_FAULTS + 1)))


class Items(unittest.TestCase):
    """External declarations by their brackets."""

    def test_split(self):
        items = ["int a = 1, b[2] = {1, 2};", "struct s { int a; } __attribute__((packed));",
                 "int f(void) { return 1; }", "typedef struct __attribute__((packed)) { int a; } t;", ";", "enum { A, B };",
                 'asm("} ; {");', "char c = '{';", "int g(a, b) int a; char\n*b;\n{ return a; }", "int m() { return 0; }",
                 "main() { return g(1); }", "int (*h(void))(int) { return 0; }"]
        text = "\n".join(items)
        self.assertEqual([text[item.start:item.end] for item in split(text)], items)

    def test_declared(self):
        for text, names, tags, constants, is_typedef in (
            ("int a = 1, *b, c[2], (*d)(int);", "a b c d", "", "", False),
            ("typedef struct s { int a; } __attribute__((packed)) t, *u;", "t u", "s", "", True),
            ("typedef enum { A, B } t;", "t", "", "A B", True),
            ("enum e { A, B = 2, } x;", "x", "e", "A B", False),
            ("static __signed__ int f(int n) { int a; }", "f", "", "", False),
            ("struct s __attribute__((aligned(4))) o = { .n = 1 };", "o", "", "", False),
        ):
            with self.subTest(text):
                expected = [set(words.split()) for words in (names, tags, constants)]
                self.assertEqual(declared(text), Declared(*expected, is_typedef))


if __name__ == "__main__":
    unittest.main()
