"""The program is proved and built where there is none for the files as they stand."""
from __future__ import annotations

import fcntl
import os
import shutil
import subprocess
from contextlib import suppress
from typing import BinaryIO, Callable, Iterator

from .console import say
from .crates import PROGRAM, Crates
from .errors import Unbuilt
from .interrupts import Interrupted, Interrupts
from .kept import Place, find_rt, is_program
from .progress import Progress

GIGABYTES = 4  # of memory for each crate that is proved beside others
TURN_SECONDS = 0.2  # between two looks whether another call still builds
END_SECONDS = 5  # that rt is given to end, before it is told again
MOST_TOLD = 12


class Build:
    """A build by this rt, whose words go to the log."""

    def __init__(self, place: Place, rt: str, log: BinaryIO, interrupts: Interrupts) -> None:
        self.place = place
        self.rt = rt
        self.log = log
        self.interrupts = interrupts

    def prove(self) -> None:
        """Has the crates proved. rt begins with what it kept: it proves only what changed, and what stands on that."""
        workers = count_workers()
        progress = Progress(Crates(self.place.top), workers)
        progress.begin()
        status = self.follow(["all", "check", "--jobs", str(workers)], progress.take)
        if status:
            failed = f"{progress.failed} is not proved: " if progress.failed else ""
            raise Unbuilt(f"{failed}rt all check ended with status {status}; {self.place.log} says why")

    def make(self) -> None:
        """Has the program built. For these words it reads no file and ends with 0, so the status says if it runs."""
        say("dejavu: all crates are proved; building the program")
        status = self.follow(["run", "--", "gen", "1", "1"], lambda line: None)
        if status:
            raise Unbuilt(f"the program isn't built: rt run ended with status {status}; {self.place.log} says why")

    def keep(self, wanted: str) -> None:
        """Keeps a copy of what rt built under this path, unless the files changed in the meantime."""
        new = os.path.join(self.place.built, "new")
        try:
            with suppress(FileNotFoundError):
                os.unlink(new)
            shutil.copy(os.path.join(self.place.crate, "out", PROGRAM), new)
            with open(new, "rb") as file:
                os.fsync(file.fileno())
        except OSError as error:
            what = f"the program that rt built can't be copied to {self.place.built}"
            raise Unbuilt(f"{what}: {error.strerror or error}") from error
        if self.place.path() != wanted:
            kept = f"call again; what was proved stands in {self.place.log}"
            raise Unbuilt(f"files changed while the program was built, so it isn't kept: {kept}")
        self.interrupts.wait(0)
        try:
            os.replace(new, wanted)
        except OSError as error:
            what = f"the program that rt built can't be kept in {self.place.built}"
            raise Unbuilt(f"{what}: {error.strerror}") from error
        self.place.forget_old(wanted)

    def follow(self, words: list[str], take: Callable[[str], None]) -> int:
        """Runs rt with these words in the program's folder, hands each line of what it says on, and gives its status.

        It has ended where this is left, on whichever way.
        """
        try:
            rt = subprocess.Popen(
                [self.rt, *words], cwd=self.place.crate, bufsize=0,
                stdin=subprocess.DEVNULL, stdout=subprocess.PIPE, stderr=subprocess.STDOUT,
            )
        except OSError as error:
            raise Unbuilt(f"{self.rt} can't be run: {error.strerror}") from error
        with rt.stdout:
            try:
                for line in self.lines(rt.stdout.fileno()):
                    self.write(line)
                    take(line.decode("utf-8", "replace").rstrip("\n"))
                while rt.poll() is None:
                    self.interrupts.wait(0.02)
                self.interrupts.wait(0)  # what ended rt may have come to both
            finally:
                self.write(ended(rt))
        return rt.returncode if rt.returncode >= 0 else 128 - rt.returncode

    def lines(self, said: int) -> Iterator[bytes]:
        """The lines of a pipe, each as soon as it is there."""
        rest = b""
        while True:
            self.interrupts.wait(file=said)
            data = os.read(said, 1 << 16)
            if not data:
                break
            *lines, rest = (rest + data).split(b"\n")
            yield from (line + b"\n" for line in lines)
        if rest:
            yield rest

    def write(self, data: bytes) -> None:
        """Writes this to the log."""
        try:
            self.log.write(data)
        except OSError as error:
            raise Unbuilt(f"{self.place.log} can't be written: {error.strerror}") from error


def ended(rt: subprocess.Popen[bytes]) -> bytes:
    """Ends rt, if it hasn't ended, and gives what it said in the meantime.

    It ends all that it started, for which it may have to be told twice. It is read, so that no full pipe holds it up.
    """
    said = b""
    for _ in range(MOST_TOLD):
        if rt.poll() is not None:
            return said
        rt.terminate()
        with suppress(subprocess.TimeoutExpired):
            said = rt.communicate(timeout=END_SECONDS)[0]
    rt.kill()
    rt.wait()
    return said


def count_workers() -> int:
    """Half as many again as there are processors, and 4 GB of memory for each.

    rt hands the crates out in a fixed order, and who gets one waits until those below it are proved.
    """
    free = 0
    with suppress(OSError), open("/proc/meminfo", encoding="ascii") as file:
        free = next((int(line.split()[1]) for line in file if line.startswith("MemAvailable:")), 0)
    processors = len(os.sched_getaffinity(0))
    return max(1, min(processors + processors // 2, free // (GIGABYTES << 20)))


def take_turn(lock: BinaryIO, interrupts: Interrupts) -> None:
    """Waits until no other call builds. What rt inherits doesn't hold the turn, so it is over with this process."""
    is_told = False
    while True:
        try:
            fcntl.flock(lock, fcntl.LOCK_EX | fcntl.LOCK_NB)
            return
        except BlockingIOError:
            pass
        except OSError as error:
            raise Unbuilt(f"{lock.name} can't be locked: {error.strerror}") from error
        if not is_told:
            say("dejavu: another call is building the program; waiting for it")
            is_told = True
        interrupts.wait(TURN_SECONDS)


def opened(path: str) -> BinaryIO:
    """The file of this path, new and empty, for what is written while the program is built."""
    try:
        os.makedirs(os.path.dirname(path), exist_ok=True)
        return open(path, "wb", buffering=0)
    except OSError as error:
        what = f"nothing can be written to {path}: {error.strerror}"
        raise Unbuilt(f"the program has to be built, and {what}") from error


def build(place: Place) -> str:
    """Builds the program, unless another call does, and gives its path. Two calls at once build once."""
    rt = find_rt()
    if rt is None:
        raise Unbuilt("no program was built from the files as they stand, and no rt is on the PATH to build it")
    try:
        with opened(os.path.join(place.built, "lock")) as lock, Interrupts() as interrupts:
            take_turn(lock, interrupts)
            path = place.path()
            if not is_program(path):
                with opened(place.log) as log:
                    made = Build(place, rt, log, interrupts)
                    made.prove()
                    made.make()
                    made.keep(path)
            return path
    except Interrupted as interrupted:
        end = f"interrupted by {interrupted.name} before the program was built"
        raise Unbuilt(f"{end}; {place.log} says how far it came") from None
