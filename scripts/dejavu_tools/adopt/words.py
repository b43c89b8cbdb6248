"""What is told of each obstacle, each text once."""
from __future__ import annotations

from typing import Dict, NamedTuple


class Words(NamedTuple):
    """What an obstacle is and what to do about it; `{name}` stands for what it is told of."""

    what: str
    todo: str


OBSTACLES: Dict[str, Words] = {
    "syntax": Words("this can't be read: {name}", "write it in C11 without extensions of a compiler or `_Generic`"),
    "header": Words("the header `{name}` isn't there", "take it out, or name the folder that has it by -I"),
    "floating": Words("a floating-point number", "calculate in integers, for instance in hundredths"),
    "long": Words(
        "`{name}` has 64 bits",
        "use `int`, or take `long` as `int` by --long-as-int, where an overflow traps",
    ),
    "unsigned long": Words("`{name}` has 64 bits and wraps", "use `unsigned`, or `size_t` for sizes"),
    "number": Words("the number {name} needs more than 32 bits", "use a smaller one"),
    "mixed": Words("a `long` and an `unsigned` in one operation", "cast one of them to the type that is meant"),
    "size": Words(
        "`{name}` on a `size_t`, which has 64 bits in C and 32 in the unit",
        "use `unsigned` for what is calculated",
    ),
    "union": Words("a union", "use a struct with a member for each"),
    "bit-field": Words("a bit-field", "use a member of its own"),
    "pointer": Words("a pointer that is more than an array parameter", "use an array and an index"),
    "pointer result": Words(
        "a function with a pointer as its result",
        "give an index, or write into an array parameter",
    ),
    "pointer value": Words("the value of a pointer", "use an index"),
    "function pointer": Words("a pointer to a function", "call the function by its name, for instance in a `switch`"),
    "null": Words(
        "a string of a table that may be NULL or empty, or that a function compares with NULL",
        "end the table by a count",
    ),
    "heap": Words("`{name}` takes memory while the program runs", "use an array of a fixed length"),
    "file": Words("`{name}` works on a file", "read from stdin and write to stdout"),
    "stderr": Words("output to stderr", "take it out, or drop it by --drop-stderr"),
    "main": Words("the parameters of `main`", "read what they say from stdin"),
    "variadic": Words("a function with `...`", "write a function for each number of arguments"),
    "arguments": Words("`{name}` is called with other than its parameters", "give it one argument for each"),
    "outside": Words("`{name}` is outside of the language", "take it out, or write a function of the program for it"),
    "undefined": Words("the function `{name}` isn't defined in these files", "name the file that defines it too"),
    "undefined object": Words("the object `{name}` isn't defined in these files", "name the file that defines it too"),
    "reserved": Words("the name `{name}` is reserved", "use another name"),
    "format": Words(
        "the format {name}",
        "use conversions such as `%d`, `%u`, `%c`, `%s` and `%x`, with a width or none",
    ),
    "format value": Words("a format that is no literal", "write the format as a string literal"),
    "printed": Words("the result of `{name}` is used", "call it as a statement of its own"),
    "order": Words(
        "a call that may write what is read or written beside it",
        "call it before, and keep its result in an object",
    ),
    "continue": Words(
        "calls in a `do` loop's test beside a `continue`",
        "write the loop as `while (1)` with a `break`",
    ),
    "alias": Words("a place with side effects is read and written", "give its index an object of its own"),
    "struct": Words("a struct as the result of this expression", "give it an object of its own"),
    "prefix": Words("a string or character with a prefix such as `L`", "write it without, as bytes"),
    "string": Words("a string in this place", "use a char array"),
    "object": Words("an object of this type", "use numbers, arrays and structs"),
    "length": Words("an array whose length is no constant", "give it a constant length"),
    "clear": Words("`{name}` on a part of an object, or on other than bytes", "write a loop over the elements"),
    "constant": Words("an initial value that is no constant number or string", "use a constant"),
    "time": Words("`{name}` differs from one run of the preprocessor to the next", "take it out"),
    "expression": Words("this expression", "write it by operators on numbers"),
}
