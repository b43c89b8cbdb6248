"""Units keep to the language (docs/language.md), as far as a look at their trees shows; the program shows the rest."""
import re
import subprocess
import tempfile
import unittest
from pathlib import Path

from adopted import programs, unit_of
from pycparser import c_ast, c_parser

from dejavu_tools.adopt.measure import BUILT_IN, SKIPPED

NODES = (
    "ArrayDecl ArrayRef Assignment BinaryOp Break Case Cast Compound Constant Continue Decl DeclList Default DoWhile"
    " EmptyStatement Enum Enumerator EnumeratorList ExprList FileAST For FuncCall FuncDecl FuncDef Goto ID"
    " IdentifierType If InitList Label ParamList Return Struct StructRef Switch TernaryOp TypeDecl Typename UnaryOp While"
).split()
NUMBERS = (["char"], ["int"], ["unsigned"])
UNARY = {"+", "-", "!", "~", "++", "--", "p++", "p--"}
NUMBER = re.compile(r"(?:0[0-7]*|[1-9][0-9]*|0[xX][0-9A-Fa-f]+)[uU]?")
CHARACTER = re.compile(r"'(?:[ -&(-\[\]-~]|\\[ntrabfv\\'\"?0])'")
STRING = re.compile(r'"(?:[ !#-\[\]-~]|\\[ntrabfv\\\'"?]|\\0(?![0-7]))*"')
FORMAT = re.compile(r"(?:[^%]|%[duc%])*")


def units():
    """The units of the programs of the tests and of the examples, by name."""
    for name in programs():
        yield name, unit_of(name).decode()


class Faults:
    """What a unit has that the language hasn't."""

    def __init__(self, text):
        self.found = []
        self.declared = set()
        self.look(c_parser.CParser().parse(SKIPPED.sub(lambda match: match.group(1) or " ", text), ""), None)

    def tell(self, what, node):
        """Takes a fault."""
        self.found.append(f"{what} at {node.coord}")

    def look(self, node, around):
        """Looks at a node and what is in it; `around` is the node in which it stands."""
        kind = type(node).__name__
        if kind not in NODES:
            self.tell(kind, node)
        handler = getattr(self, f"look_{kind.lower()}", None)
        if handler is not None:
            handler(node, around)
        for _, child in node.children():
            self.look(child, node)

    def look_decl(self, node, _):
        """Functions are declared before they are called; there are no qualifiers and no storage classes."""
        if isinstance(node.type, c_ast.FuncDecl):
            self.declared.add(node.name)
        if node.quals or node.storage or node.funcspec or node.bitsize:
            self.tell("a qualifier", node)
        if isinstance(node.type, c_ast.ArrayDecl) and isinstance(node.init, c_ast.Constant):
            self.tell("a string", node)

    def look_identifiertype(self, node, _):
        """Types of numbers, or `void`."""
        if node.names not in NUMBERS and node.names != ["void"]:
            self.tell(" ".join(node.names), node)

    def look_unaryop(self, node, _):
        """Operators."""
        if node.op not in UNARY:
            self.tell(node.op, node)

    def look_structref(self, node, _):
        """Members."""
        if node.type != ".":
            self.tell(node.type, node)

    def look_exprlist(self, node, around):
        """Several expressions stand in the brackets of a call alone."""
        if not isinstance(around, c_ast.FuncCall):
            self.tell("a comma", node)

    def look_constant(self, node, around):
        """Numbers, characters, and formats."""
        spelled = {"char": CHARACTER, "string": STRING}.get(node.type, NUMBER)
        if not spelled.fullmatch(node.value):
            self.tell(node.value, node)
        if node.type == "string" and not FORMAT.fullmatch(node.value[1:-1]):
            self.tell(node.value, node)

    def look_funccall(self, node, _):
        """Calls: of functions that were declared; `printf` has a literal and as many values as conversions."""
        name, arguments = node.name.name, list(node.args.exprs) if node.args else []
        if name not in self.declared and name not in BUILT_IN:
            self.tell(f"a call of {name}", node)
        texts = [value for value in arguments if isinstance(value, c_ast.Constant) and value.type == "string"]
        if texts != (arguments[:1] if name == "printf" else []):
            self.tell("a string", node)
        if name == "printf":
            count = len(re.findall("%[duc]", texts[0].value.replace("%%", "")))
            if count != len(arguments) - 1 or count > 8:
                self.tell("a printf", node)

    def look_binaryop(self, node, _):
        """No function of the unit is called behind `&&` and `||` (M14)."""
        if node.op in ("&&", "||"):
            self.no_calls(node.right)

    def look_ternaryop(self, node, _):
        """Nor in a later operand of `?:`."""
        self.no_calls(node.iftrue)
        self.no_calls(node.iffalse)

    def no_calls(self, node):
        """Tells of calls of functions of the unit."""
        if isinstance(node, c_ast.FuncCall) and node.name.name not in BUILT_IN:
            self.tell("a call in a later operand", node)
        for _, child in node.children():
            self.no_calls(child)

    def look_switch(self, node, _):
        """Cases stand directly in the block of a `switch`."""
        if not isinstance(node.stmt, c_ast.Compound):
            self.tell("a switch without a block", node)


class Language(unittest.TestCase):
    """Units, as trees and as C."""

    def test_units(self):
        for name, unit in units():
            with self.subTest(name):
                self.assertEqual(Faults(unit).found, [])
                self.assertLessEqual(set(re.findall(r"[^\x20-\x7e\n]", unit)), set())

    def test_units_are_c_without_a_warning_of_meaning(self):
        words = ["gcc", "-std=c11", "-fsyntax-only", "-Wall", "-Wno-unused", "-Wno-parentheses",
                 "-Wno-tautological-compare", "-Werror"]
        for name, unit in units():
            with self.subTest(name), tempfile.TemporaryDirectory() as work:
                path = Path(work) / "unit.c"
                path.write_text(unit)
                done = subprocess.run([*words, path], stderr=subprocess.PIPE, text=True, check=False)
                self.assertEqual(done.stderr, "")


if __name__ == "__main__":
    unittest.main()
