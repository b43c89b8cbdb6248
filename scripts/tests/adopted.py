"""The units of the programs of the tests and of the examples, each made once for all tests."""
from functools import lru_cache

from support import SCRIPTS, TOP

from dejavu_tools.adopt.options import Options
from dejavu_tools.adopt.translate import adopt

CONSTRUCTS = SCRIPTS / "tests" / "constructs"  # a program in NAME.c, or in NAME.1.c and NAME.2.c
EXAMPLES = TOP / "examples" / "adopt"


def programs():
    """The files of each program, by its name: first the constructs, then the examples."""
    found = {name: sorted(CONSTRUCTS.glob(f"{name}.*")) for name in constructs()}
    return {**found, **{path.parent.name: sorted(path.parent.glob("*.c")) for path in sorted(EXAMPLES.glob("*/changes"))}}


def constructs():
    """The names of the constructs."""
    return sorted({path.name.split(".")[0] for path in CONSTRUCTS.glob("*.c")})


@lru_cache(maxsize=None)
def unit_of(name):
    """The unit of a program, by both flags."""
    return adopt(programs()[name], Options(True, True)).unit
