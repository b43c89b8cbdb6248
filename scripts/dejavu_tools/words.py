"""What is told of each rule, limit and refusal: what is wrong, the rule in words, and what to do.

Each stands here once. The tables have an entry for each rule of docs/language.md and docs/formats.md, for each limit
and for each line of a refusal, and no other; scripts/tests/test_words.py holds them against these documents.

A text may have `{most}` in it, the greatest number that is allowed, and what the line of a refusal tells: `{count}`,
`{found}`, `{computed}` and `{name}`.
"""
from __future__ import annotations

from dataclasses import dataclass
from typing import Mapping, Optional, Tuple, Union

from . import limits


@dataclass(frozen=True)
class Words:
    """What is told of one cause of a refusal."""

    wrong: str
    rule: str
    remedy: str
    most: Optional[int] = None


# ---- what is said more than once

A_NAME = "1 to {most} letters, digits, `_`, `-` or `.`, the first of them a letter, a digit or `_`"
A_DIGEST = "64 lower-case hexadecimal digits"
SMALLER_PROGRAM = "take out what isn't called, or make two programs of it"
SMALLER_CHANGE = "make the change in several steps, each with a certificate"
SMALLER_SUITE = "cut the suite into several, as `scripts/suite from FOLDER --into PREFIX` does"
ANOTHER_HISTORY = "`record` the suite again, or name a history as `record`, `carry` or `migrate` wrote it"
ANOTHER_CERTIFICATE = "`certify` the two sources again, or name the certificate of these sources"
LINE_OF_REFUSAL = "where that was refused, the file has the line of the refusal"

# ---- commands

# The commands with the words behind their names.
COMMANDS: Mapping[str, Tuple[str, ...]] = {
    "record": ("SOURCE", "SUITE"),
    "migrate": ("OLD", "HISTORY"),
    "walk": ("OLD", "NEW"),
    "select": ("OLD", "NEW", "HISTORY"),
    "rerun": ("OLD", "NEW", "HISTORY"),
    "explain": ("OLD", "NEW", "HISTORY", "TEST"),
    "carry": ("OLD", "NEW", "HISTORY"),
    "order": ("OLD", "NEW", "HISTORY"),
    "certify": ("OLD", "NEW"),
    "check": ("OLD", "NEW", "CERTIFICATE"),
    "gen": ("SEED", "SIZE"),
}

# The words of a command that name files.
FILES = frozenset(("SOURCE", "SUITE", "OLD", "NEW", "HISTORY", "CERTIFICATE"))

# ---- sources

LANGUAGE_RULES: Mapping[str, Words] = {
    "M1": Words(
        "this name isn't declared here",
        "a name in an expression is an object, a parameter or an enum constant in scope",
        "declare it before this place, or mend its spelling; the name of a function stands only where that is called",
    ),
    "M2": Words(
        "this name is declared twice",
        "a name is declared once in its scope and name space; objects, functions and enum constants of file scope share"
        " one name space, and tags, the members of a struct and the labels of a function have their own",
        "give this one another name, or take it out",
    ),
    "M3": Words(
        "this name belongs to the library",
        "`getchar`, `putchar`, `printf`, `exit` and `EOF` are declared nowhere, also not as a tag, a member, a"
        " parameter or a label",
        "choose another name; a prototype of one of them can go, since they are known without it",
    ),
    "M4": Words(
        "no struct of this tag may stand here",
        "a struct's tag is defined before its use, a struct has no member of its own type, and a parameter without"
        " brackets is no struct",
        "move the definition of the struct up; hand over an array of structs, `struct tag name[]`, for a struct",
    ),
    "M5": Words(
        "there is no such member here",
        "`.` follows a place of a struct, and the struct has that member",
        "mend the name of the member, or name an object, an element or a member of a struct type before the `.`",
    ),
    "M6": Words(
        "this is no element of an array",
        "`[` follows a place of an array, and the index is a number",
        "name an array before the `[`, with at most as many indices as it has dimensions, each of them a number",
    ),
    "M7": Words(
        "a number has to stand here",
        "where a number is asked for stands no array, no struct and no call without a value",
        "take an element or a member, assign arrays and structs part by part, and call a `void` function in a"
        " statement of its own",
    ),
    "M8": Words(
        "this can't be assigned to",
        "what is assigned to, or stepped by `++` or `--`, is a place of a number",
        "name an object, an element or a member that is a number",
    ),
    "M9": Words(
        "a constant has to stand here",
        "the lengths of arrays, the values of enum constants and of cases, and the initialisers at file scope are"
        " constant expressions that don't trap, and an enum constant is within `int`",
        "make it of numbers, characters, enum constants, `EOF`, casts and operators; an enum constant can stand for a"
        " `#define`",
    ),
    "M10": Words(
        "the type of this is too large, or a length in it isn't allowed",
        "an array's length is 1 to {most}, there are at most 3 dimensions, a type has at most {most} cells, and at most"
        " 32 structs stand inside each other",
        "make it smaller, or part it into several objects",
        65_536,
    ),
    "M11": Words(
        "this initialiser doesn't fit what it initialises",
        "no list initialises a number, a list initialises an array or a struct, and it has no more entries than there"
        " are elements or members",
        "put braces around the entries of each array and each struct, and none around a number",
    ),
    "M12": Words(
        "this function isn't declared before it is called",
        "a called name is a function that is declared before; of the library there are `getchar`, `putchar`, `printf`"
        " and `exit`",
        "define the function above, put a prototype of it there, or do without the library's other functions",
    ),
    "M13": Words(
        "the arguments don't fit the function",
        "a call has an argument for each parameter: a number for a number, and for an array parameter an array with the"
        " same type of elements",
        "hold the call against the function's declaration",
    ),
    "M14": Words(
        "a function of the source is called in a later operand",
        "in the right operand of `&&` or `||`, and in a later operand of `?:`, no function of the source is called",
        "write an `if` instead, or call the function before and keep its result in an object",
    ),
    "M15": Words(
        "this `return` doesn't fit its function",
        "a `return` has no value in a `void` function, and has one in every other",
        "add the value or take it out, or give the function another result type",
    ),
    "M16": Words(
        "there is nothing that this word could leave or go on with",
        "a `break` stands in a loop or a `switch`, and a `continue` in a loop",
        "move it into the loop, or use a `return` or a `goto`",
    ),
    "M17": Words(
        "there is no such label",
        "a `goto` names a label of its own function",
        "put the label into this function, or mend its name",
    ),
    "M18": Words(
        "this case stands twice in its `switch`",
        "in one `switch` a case value stands once, as a number of the promoted kind of the `switch`'s expression, and"
        " so does `default`",
        "take one of the two out, or put what follows them together",
    ),
    "M19": Words(
        "the declarations of this function disagree, or it isn't defined exactly once",
        "all declarations of a function agree, one that is declared or called is defined once, each parameter of a"
        " definition has a name, and `main` is defined as `int` without parameters",
        "make the declarations alike, and define in this source what it calls; at 1:1 it is `int main(void)` that is"
        " missing",
    ),
    "M20": Words(
        "this string, `printf` or `exit` is none that is allowed",
        "a string stands only as the first argument of `printf`; that argument is a string, with no conversions but"
        " `%d`, `%u`, `%c` and `%%`, and with an argument for each but the last; `exit` is a whole expression"
        " statement",
        "print without widths, flags and `%s`, keep texts as arrays of `char`, and make `exit(..);` a statement",
    ),
}

LEXICAL_FAULTS: Mapping[str, Words] = {
    "number": Words(
        "this is no number, or too large a one",
        "a number is decimal, octal or hexadecimal with at most the suffix `u`; it is at most 4,294,967,295, and a"
        " decimal one without the suffix at most 2,147,483,647",
        "write it without a fraction, an exponent or another suffix; with a `u` behind it, it is unsigned",
    ),
    "directive": Words(
        "this begins no include line",
        "a `#` begins a line that includes `<stdio.h>` or `<stdlib.h>`, with nothing before it but spaces and tabs, and"
        " nothing behind it but a comment that is closed",
        "put an enum constant or a function in place of a `#define`, and take any other directive out",
    ),
    "byte": Words(
        "nothing that a source has begins here",
        "comments, character constants and strings are closed; a constant has one character and a string any number, of"
        " bytes from 32 to 126 and simple escapes; and outside them stand only names, numbers, marks and blanks",
        "close the comment or the quotes, write the character in another way, or take the byte out",
    ),
}

SOURCE_LIMITS: Mapping[str, Words] = {
    "functions": Words(
        "the source defines {count} functions, more than {most}",
        "a source defines at most {most} functions",
        SMALLER_PROGRAM,
        500,
    ),
    "points": Words(
        "the program has {count} points, more than {most}",
        "a program has at most {most} points: each function's entry and exit, and each of its calls, expressions,"
        " conditions, initialisers, `return`s and `goto`s is one",
        SMALLER_PROGRAM,
        10_000,
    ),
    "edges": Words(
        "the program has {count} edges, more than {most}",
        "a program has at most {most} edges, the ways out of its points; a `switch` has one for each case",
        SMALLER_PROGRAM,
        limits.MOST_EDGES,
    ),
    "frame": Words(
        "a function's frame has {count} cells, more than {most}",
        "the parameters and the local objects of a function, and the results of calls that one of its expressions"
        " keeps, have at most {most} cells, each a number",
        "move its large arrays to file scope, which has room for more",
        4_096,
    ),
    "globals": Words(
        "the objects of file scope have {count} cells, more than {most}",
        "all objects of file scope together have at most {most} cells, each a number",
        "make the largest arrays smaller",
        65_536,
    ),
    "arguments": Words(
        "a function has {count} parameters, more than {most}",
        "a function has at most {most} parameters",
        "hand some of them over in an array or in objects of file scope",
        16,
    ),
    "printf": Words(
        "a `printf` has {count} values, more than {most}",
        "a `printf` has at most {most} arguments behind its format",
        "make two calls of it",
        8,
    ),
}

# ---- suites, histories and certificates

SUITE_RULES: Mapping[str, Words] = {
    "S1": Words(
        "this isn't the first line of a suite",
        "line 1 is `dejavu suite 1`",
        "put that line first, or name the file that is a suite",
    ),
    "S2": Words(
        "this line has no newline at its end",
        "each line ends with a newline, the last one too",
        "add it, and look whether the file was cut off here",
    ),
    "S3": Words(
        "this is no line of a test",
        "a line has four words, `test NAME BUDGET INPUT`, with one space between two of them",
        "write these four, `-` for an input of no bytes, and no space at the ends",
    ),
    "S4": Words(
        "this is no name of a test",
        "a name is " + A_NAME,
        "give the test another name",
        limits.MOST_NAME,
    ),
    "S5": Words(
        "this is no budget of a test",
        "a budget is a number up to {most}, without a sign and without leading zeros",
        "write a number of turns that is allowed",
        limits.MOST_BUDGET,
    ),
    "S6": Words(
        "this is no input in hexadecimal",
        "an input is `-`, or two lower-case hexadecimal digits for each byte",
        "write it so; `scripts/suite from FOLDER` makes a suite of files",
    ),
    "S7": Words(
        "the input of this test is too long",
        "an input has at most {most} bytes",
        "give the test a shorter input, or make several tests of it",
        limits.MOST_INPUT,
    ),
}

HISTORY_RULES: Mapping[str, Words] = {
    "H1": Words(
        "this isn't the first line of a history",
        "line 1 is `dejavu history 3`, or for `migrate` `dejavu history 2`",
        f"{ANOTHER_HISTORY}; {LINE_OF_REFUSAL}",
    ),
    "H2": Words(
        "the digest of the source has to stand here",
        f"line 2 is `source` and {A_DIGEST}",
        ANOTHER_HISTORY,
    ),
    "H3": Words(
        "the number of edges has to stand here",
        "line 3 is `edges` and a number up to {most}",
        ANOTHER_HISTORY,
        limits.MOST_EDGES,
    ),
    "H4": Words(
        "the number of tests has to stand here",
        "line 4 is `tests` and a number up to {most}, and so many entries of seven lines follow",
        ANOTHER_HISTORY,
        limits.MOST_TESTS,
    ),
    "H5": Words(
        "the name of a test has to stand here",
        "an entry's first line is `test` and a name, " + A_NAME,
        ANOTHER_HISTORY,
        limits.MOST_NAME,
    ),
    "H6": Words(
        "a test of this name stood before",
        "each name stands in one entry",
        ANOTHER_HISTORY,
    ),
    "H7": Words(
        "the budget of a test has to stand here",
        "an entry's second line is `budget` and a number up to {most}",
        ANOTHER_HISTORY,
        limits.MOST_BUDGET,
    ),
    "H8": Words(
        "the input of a test has to stand here",
        "an entry's third line is `input` and `-`, or at most {most} bytes in lower-case hexadecimal",
        ANOTHER_HISTORY,
        limits.MOST_INPUT,
    ),
    "H9": Words(
        "the status of a run has to stand here",
        "an entry's fourth line is `status` and `exit` with a number up to {most}, `trap` with the name of a trap, or"
        " `turns`",
        ANOTHER_HISTORY,
        limits.MOST_STATUS,
    ),
    "H10": Words(
        "the turns of a run have to stand here",
        "an entry's fifth line is `turns` and a number up to the entry's budget",
        ANOTHER_HISTORY,
    ),
    "H11": Words(
        "the output of a run has to stand here",
        "an entry's sixth line is `output` and `-`, or at most {most} bytes in lower-case hexadecimal",
        ANOTHER_HISTORY,
        limits.MOST_OUTPUT,
    ),
    "H12": Words(
        "the crossed edges of a run have to stand here",
        "an entry's seventh line is `crossed` and in hexadecimal a bit for each edge, with no bit at or above their"
        " number, and `-` where that is 0; for `migrate` it has the numbers of the crossed edges, rising, or `-`",
        ANOTHER_HISTORY,
    ),
    "H13": Words(
        "the history has to end here",
        f"behind the last entry stand `end` and {A_DIGEST}",
        f"{ANOTHER_HISTORY}; line 4 tells how many entries there are",
    ),
    "H14": Words(
        "the history goes on behind its end",
        "nothing follows the line `end`",
        f"{ANOTHER_HISTORY}; two histories can't be put together",
    ),
}

CERTIFICATE_RULES: Mapping[str, Words] = {
    "C1": Words(
        "this isn't the first line of a certificate",
        "line 1 is `dejavu certificate 1`",
        f"{ANOTHER_CERTIFICATE}; {LINE_OF_REFUSAL}",
    ),
    "C2": Words(
        "the digest of the old source has to stand here",
        f"line 2 is `old` and {A_DIGEST}",
        ANOTHER_CERTIFICATE,
    ),
    "C3": Words(
        "the digest of the new source has to stand here",
        f"line 3 is `new` and {A_DIGEST}",
        ANOTHER_CERTIFICATE,
    ),
    "C4": Words(
        "the number of dangerous edges has to stand here",
        "line 4 is `dangerous` and a number up to that of the old program's edges, and so many lines `edge E` follow",
        ANOTHER_CERTIFICATE,
    ),
    "C5": Words(
        "a dangerous edge has to stand here",
        "such a line is `edge` and a number below that of the old program's edges, above the one on the line before",
        ANOTHER_CERTIFICATE,
    ),
    "C6": Words(
        "the number of pairs has to stand here",
        "behind the edges stand `pairs` and a number up to {most}, and so many lines `pair P Q` follow",
        ANOTHER_CERTIFICATE,
        limits.MOST_PAIRS,
    ),
    "C7": Words(
        "a pair of points has to stand here",
        "such a line is `pair` and the numbers of a point of the old program and of one of the new, after the pair on"
        " the line before: by the old point, and then by the new one",
        ANOTHER_CERTIFICATE,
    ),
    "C8": Words(
        "the certificate has to end here",
        f"behind the pairs stand `end` and {A_DIGEST}",
        ANOTHER_CERTIFICATE,
    ),
    "C9": Words(
        "the certificate goes on behind its end",
        "nothing follows the line `end`",
        ANOTHER_CERTIFICATE,
    ),
}

# ---- refusals

# The line of each refusal behind `refused: `, as docs/formats.md has it, with its words, or with a table that has them
# for each rule, fault or limit that the line may name.
REFUSALS: Mapping[str, Union[Words, Mapping[str, Words]]] = {
    "usage": Words(
        "these words are no command",
        "the first word is the name of a command, and behind it stand what that wants, in this order; with `record`,"
        " `rerun`, `carry` and `order` also `--workers N` with 1 to 64 of them",
        "write one of " + ", ".join(f"`{' '.join((name, *behind))}`" for name, behind in COMMANDS.items()),
    ),
    "ROLE too long": Words(
        "the source has more than {most} bytes",
        "a source has at most {most} bytes",
        "make it shorter, or make two programs of it",
        limits.MOST_SOURCE_BYTES,
    ),
    "ROLE lex KIND at L:C": LEXICAL_FAULTS,
    "ROLE syntax at L:C": Words(
        "the source can't go on like this",
        "a source is a unit of the grammar in docs/language.md#grammar, at most 256 deep",
        "look at what stands before this place too, and at the end of a source for what isn't closed; there are no"
        " pointers, `const`, `static`, `sizeof`, `typedef` or `union`, no other types of numbers than `char`, `int` and"
        " `unsigned`, and no comma operator",
    ),
    "ROLE rule MK at L:C": LANGUAGE_RULES,
    "ROLE limit LIMIT COUNT": SOURCE_LIMITS,
    "suite too long": Words(
        "the suite has more than {most} bytes",
        "a suite has at most {most} bytes",
        SMALLER_SUITE,
        limits.MOST_SUITE_BYTES,
    ),
    "suite line N rule SK": SUITE_RULES,
    "suite tests COUNT": Words(
        "the suite has {count} tests, more than {most}",
        "a suite has at most {most} tests",
        SMALLER_SUITE,
        limits.MOST_TESTS,
    ),
    "suite line N twice": Words(
        "a test of this name stood on an earlier line",
        "each name stands on one line",
        "give one of the two another name",
    ),
    "history too long": Words(
        "the history has more than {most} bytes",
        "a history has at most {most} bytes",
        SMALLER_SUITE,
        limits.MOST_FILE_BYTES,
    ),
    "history version N": Words(
        "the history is of version {count} of the format",
        "a history is read in version 3, and by `migrate` in version 2",
        "`migrate OLD HISTORY` writes one of version 2 in version 3, and one of version 3 needs no `migrate`; else"
        " `record` the suite again",
    ),
    "history line N rule HK": HISTORY_RULES,
    "history sum FOUND COMPUTED": Words(
        "the history was changed since it was written, or damaged",
        "the digest on the last line is that of the bytes before it; it is {found}, and that one is {computed}",
        ANOTHER_HISTORY,
    ),
    "history source FOUND COMPUTED": Words(
        "the history is of another source than the old one",
        "the digest on line 2 is that of the old source; it is {found}, and that one is {computed}",
        "name the source on which it was recorded, or `record` the suite on this one",
    ),
    "history edges FOUND REAL": Words(
        "the history tells {found} edges, and the old program has {computed}",
        "the number on line 3 is that of the old program's edges",
        "`record` the suite again",
    ),
    "history no test NAME": Words(
        "the history has no test {name}",
        "`explain` wants the name of a test of the history",
        "look for the name in what `select` writes",
    ),
    "read fault": Words(
        "a file could not be read",
        "each file that a command names can be read",
        "look at the names of the files, and whether you may read them",
    ),
    "memory": Words(
        "there was too little memory",
        "a command needs memory for its files and for what it makes",
        "free some, or raise the limit under which it runs",
    ),
    "history too much N": Words(
        "the history that this makes would have {count} bytes, more than {most}",
        "a history has at most {most} bytes",
        SMALLER_SUITE,
        limits.MOST_FILE_BYTES,
    ),
    "certificate too much N": Words(
        "the certificate that this makes would have {count} bytes, more than {most}",
        "a certificate has at most {most} bytes",
        SMALLER_CHANGE,
        limits.MOST_FILE_BYTES,
    ),
    "certificate too long": Words(
        "the certificate has more than {most} bytes",
        "a certificate has at most {most} bytes",
        SMALLER_CHANGE,
        limits.MOST_FILE_BYTES,
    ),
    "certificate line N rule CK": CERTIFICATE_RULES,
    "certificate sum FOUND COMPUTED": Words(
        "the certificate was changed since it was written, or damaged",
        "the digest on the last line is that of the bytes before it; it is {found}, and that one is {computed}",
        ANOTHER_CERTIFICATE,
    ),
    "certificate old FOUND COMPUTED": Words(
        "the certificate is of another old source",
        "the digest on line 2 is that of the old source; it is {found}, and that one is {computed}",
        ANOTHER_CERTIFICATE,
    ),
    "certificate new FOUND COMPUTED": Words(
        "the certificate is of another new source",
        "the digest on line 3 is that of the new source; it is {found}, and that one is {computed}",
        ANOTHER_CERTIFICATE,
    ),
}

# The refusals that speak of no file that the command names.
OF_NO_FILE = frozenset(("usage", "read fault", "memory", "history too much N", "certificate too much N"))

# ---- runs

# The traps of a run; `flood` and `depth` are its limits.
TRAPS: Mapping[str, str] = {
    "overflow": "a result beyond the range of int",
    "divide": "a division by zero",
    "shift": "a shift that C leaves undefined",
    "bounds": "an index outside its array",
    "unset": "a read of an object before it was written",
    "flood": f"more than {limits.MOST_OUTPUT:,} bytes of output",
    "depth": f"more than {limits.MOST_FRAMES:,} frames of calls at a time",
    "missing": "a function with a result that ended without a return",
}
