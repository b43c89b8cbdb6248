"""The program that the scripts call."""
import os
import sys
from pathlib import Path

from dejavu_tools.programs import output_of


def program_of(named):
    """The path of the program that was named, or else of the one that ./dejavu runs, built where it has to be."""
    if named is None:
        status, path = output_of(Path(__file__).resolve().with_name("program"), ["path"])
        if status:
            sys.exit(status if status > 0 else 128 - status)
        named = Path(os.fsdecode(path[:-1]))
    if not os.access(named, os.X_OK):
        sys.exit(f"{Path(sys.argv[0]).name}: {named} is no program")
    return named.resolve()
