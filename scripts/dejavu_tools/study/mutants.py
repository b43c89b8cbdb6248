"""Mutants of a C text: changes of one place each, by the common operators of mutation testing, found by tokens."""
from __future__ import annotations

import re
from dataclasses import dataclass
from itertools import groupby
from typing import Dict, Iterator, List, Sequence, Set

OPERATORS = {
    "AOR": "arithmetic operator replacement: a binary `+` to `-`, and `-` to `+`",
    "CRP": "constant replacement: an integer constant to the next greater one, in a `#define` too",
    "LCR": "logical connector replacement: `&&` to `||`, and `||` to `&&`",
    "OCNG": "logical context negation: the condition of an `if` or a `while` is negated",
    "ROR": "relational operator replacement: `<` and `<=`, `>` and `>=`, `==` and `!=`, each to the other",
    "SDL": "statement deletion: a call, an assignment, a step, a `break` or a `continue` that is a statement",
}

SWAPPED = {
    "+": ("AOR", "-"), "-": ("AOR", "+"), "&&": ("LCR", "||"), "||": ("LCR", "&&"),
    "<": ("ROR", "<="), "<=": ("ROR", "<"), ">": ("ROR", ">="), ">=": ("ROR", ">"),
    "==": ("ROR", "!="), "!=": ("ROR", "=="),
}

TOKEN = re.compile(
    r"""(?P<space>\s+|//[^\n]*|/\*.*?\*/)
    |(?P<directive>\#(?:\\\n|/\*.*?\*/|[^\n])*)
    |(?P<text>"(?:\\.|[^"\\])*"|'(?:\\.|[^'\\])*')
    |(?P<number>\.?\d(?:[eEpP][+-]|[\w.])*)
    |(?P<name>[A-Za-z_]\w*)
    |(?P<sign>\.\.\.|<<=|>>=|->|\+\+|--|<<|>>|[-+*/%&|^=!<>]=|&&|\|\||.)""",
    re.DOTALL | re.VERBOSE,
)
INTEGER = re.compile(r"(0[xX][0-9a-fA-F]+|\d+)([uUlL]*)")
DEFINE = re.compile(r"#\s*define\b")

TYPE_WORDS = frozenset("_Bool char const double enum float int long short signed struct union unsigned void".split())
WORDS = TYPE_WORDS | frozenset(
    "auto break case continue default do else extern for goto if inline register return sizeof static switch typedef"
    " volatile while".split()
)
HEADS = ("if", "while", "for", "switch")  # before the parentheses behind which a statement begins
BEHIND_A_NAME = frozenset("( [ . -> = ++ -- += -= *= /= %= &= |= ^= <<= >>=".split())  # in a statement of its own


@dataclass(frozen=True)
class Token:
    """A token of a C text; a directive is one token."""

    kind: str  # `directive`, `text`, `number`, `name` or `sign`
    start: int  # in characters, as `end`
    text: str

    @property
    def end(self) -> int:
        """Where it ends."""
        return self.start + len(self.text)


@dataclass(frozen=True)
class Mutant:
    """A change of one place: `text` stands for what is from `start` to `end`, in characters."""

    operator: str
    start: int
    end: int
    text: str

    def applied(self, source: str) -> str:
        """The text after the change."""
        return source[:self.start] + self.text + source[self.end:]

    def place(self, source: str) -> str:
        """Where the change is, as `LINE:COLUMN` from 1."""
        before = source[:self.start]
        return f"{before.count(chr(10)) + 1}:{self.start - before.rfind(chr(10))}"


def sample(source: str, every: int) -> List[Mutant]:
    """Of each operator's mutants, in the order of their places, the first and each `every`-th behind it."""
    found = sorted(mutants(source), key=lambda mutant: (mutant.operator, mutant.start))
    groups = (list(group) for _, group in groupby(found, key=lambda mutant: mutant.operator))
    return [mutant for group in groups for mutant in group[::every]]


def mutants(source: str) -> Iterator[Mutant]:
    """All mutants of a C text. Some may not compile: the operators look at tokens alone."""
    tokens = tokens_of(source)
    yield from constants(tokens)
    yield from replacements(tokens)
    yield from negations(tokens, source)
    yield from deletions(tokens)


def tokens_of(source: str, start: int = 0) -> List[Token]:
    """The tokens of a text; places count from `start`."""
    found = TOKEN.finditer(source)
    return [Token(it.lastgroup or "", start + it.start(), it[0]) for it in found if it.lastgroup != "space"]


def constants(tokens: Sequence[Token]) -> Iterator[Mutant]:
    """CRP, in the text and in what `#define` stands for."""
    for token in tokens:
        if token.kind == "directive" and DEFINE.match(token.text):
            yield from constants(tokens_of(token.text[1:], token.start + 1))
        integer = INTEGER.fullmatch(token.text) if token.kind == "number" else None
        if integer:
            yield Mutant("CRP", token.start, token.end, next_constant(integer[1]) + integer[2])


def next_constant(digits: str) -> str:
    """The next greater integer, in the same base."""
    if digits[:2] in ("0x", "0X"):
        return f"0x{int(digits, 16) + 1:x}"
    if digits[0] == "0" and len(digits) > 1:
        return f"0{int(digits, 8) + 1:o}"
    return str(int(digits) + 1)


def replacements(tokens: Sequence[Token]) -> Iterator[Mutant]:
    """AOR, LCR and ROR."""
    opened = partners(tokens)
    for at, token in enumerate(tokens):
        if token.kind == "sign" and token.text in SWAPPED:
            operator, other = SWAPPED[token.text]
            if operator != "AOR" or at and ends_operand(tokens, at - 1, opened):
                yield Mutant(operator, token.start, token.end, other)


def ends_operand(tokens: Sequence[Token], at: int, opened: Dict[int, int]) -> bool:
    """Whether an operand ends with this token, so that a sign behind it has two operands. A cast by a name counts."""
    token = tokens[at]
    if token.text == ")" and at in opened:
        return tokens[opened[at] + 1].text not in TYPE_WORDS
    return token.kind in ("number", "text") or token.text == "]" or token.kind == "name" and token.text not in WORDS


def partners(tokens: Sequence[Token]) -> Dict[int, int]:
    """For each `)` its `(`, by their numbers."""
    opened: List[int] = []
    found = {}
    for at, token in enumerate(tokens):
        if token.text == "(":
            opened.append(at)
        elif token.text == ")" and opened:
            found[at] = opened.pop()
    return found


def negations(tokens: Sequence[Token], source: str) -> Iterator[Mutant]:
    """OCNG."""
    for close, opening in partners(tokens).items():
        if opening and tokens[opening - 1].text in ("if", "while"):
            start, end = tokens[opening].end, tokens[close].start
            yield Mutant("OCNG", start, end, f"!({source[start:end]})")


def deletions(tokens: Sequence[Token]) -> Iterator[Mutant]:
    """SDL; the `;` stays."""
    for at in sorted(statement_starts(tokens)):
        first, second = tokens[at], tokens[at + 1].text if at + 1 < len(tokens) else ""
        is_jump = first.text in ("break", "continue")
        is_expression = first.kind == "name" and first.text not in WORDS and second in BEHIND_A_NAME
        if is_jump or is_expression or first.text in ("++", "--"):
            end = next((token for token in tokens[at:] if token.text == ";"), None)
            if end:
                yield Mutant("SDL", first.start, end.start, "")


def statement_starts(tokens: Sequence[Token]) -> Set[int]:
    """The numbers of the tokens with which statements or declarations in blocks begin, and of some others."""
    opened = partners(tokens)
    starts, blocks, depth = set(), [], 0
    for at, token in enumerate(tokens[:-1]):
        before = tokens[at - 1].text if at else ""
        depth += (token.text == "(") - (token.text == ")")
        if token.text == "{":
            is_headed = before == ")" and (not blocks or tokens[opened[at - 1] - 1].text in HEADS)
            blocks.append(is_headed or bool(blocks) and blocks[-1] and before in ("else", "do", ";", "{", "}", ":"))
        elif token.text == "}" and blocks:
            blocks.pop()
        if not depth and blocks and blocks[-1]:
            is_head = at in opened and tokens[opened[at] - 1].text in HEADS
            if is_head or token.text in (";", "{", "}", "else"):
                starts.add(at + 1)
    return starts
