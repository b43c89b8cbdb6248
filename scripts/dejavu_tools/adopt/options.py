"""What is asked of the translator."""
from __future__ import annotations

from dataclasses import dataclass
from pathlib import Path
from typing import List, Tuple


@dataclass(frozen=True)
class Options:
    """Flags that change the meaning of a unit, and what the preprocessor is told."""

    drop_stderr: bool = False
    long_as_int: bool = False
    include_directories: Tuple[Path, ...] = ()
    definitions: Tuple[str, ...] = ()  # NAME or NAME=VALUE

    def spelled(self) -> List[str]:
        """The flags that change the meaning, as they are written on the command line."""
        flags = (("--drop-stderr", self.drop_stderr), ("--long-as-int", self.long_as_int))
        return [name for name, is_set in flags if is_set]
