"""Signals that interrupt a script which has something to put in order before it ends."""
from __future__ import annotations

import os
import select
import signal

SIGNALS = (signal.SIGINT, signal.SIGTERM, signal.SIGHUP)


class Interrupted(Exception):
    """A signal came; `name` says which."""

    def __init__(self, number: int) -> None:
        self.name = signal.Signals(number).name
        super().__init__(self.name)


class Interrupts:
    """Within it SIGINT, SIGTERM and SIGHUP are noticed where the script waits, and nowhere else.

    One that the caller ignores stays ignored. Behind it they end the script, as ever, unless an error leads out of it:
    then they don't keep the script from saying why it ends.
    """

    def __enter__(self) -> Interrupts:
        self.reading, self.writing = os.pipe()
        os.set_blocking(self.writing, False)
        signal.set_wakeup_fd(self.writing)  # Python writes the number of each signal there
        self.taken = [number for number in SIGNALS if signal.getsignal(number) is not signal.SIG_IGN]
        for number in self.taken:
            signal.signal(number, lambda *_: None)
        return self

    def wait(self, seconds: float | None = None, file: int | None = None) -> None:
        """Waits until a file can be read or the time is over; raises `Interrupted` where a signal came."""
        files = [self.reading] if file is None else [self.reading, file]
        if self.reading in select.select(files, [], [], seconds)[0]:
            raise Interrupted(os.read(self.reading, 1)[0])

    def __exit__(self, kind: object, *_: object) -> None:
        try:
            if kind is None:
                for number in self.taken:
                    signal.signal(number, signal.SIG_DFL)
                self.wait(0)
        finally:
            signal.set_wakeup_fd(-1)
            os.close(self.reading)
            os.close(self.writing)
