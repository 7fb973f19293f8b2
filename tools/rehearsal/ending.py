"""How what is started here ends: by a signal, too, with all that it started gone."""
from __future__ import annotations

import contextlib
import signal
from collections.abc import Iterator
from typing import Any

ENDING = (signal.SIGTERM, signal.SIGHUP, signal.SIGINT, signal.SIGALRM)


class Over(BaseException):
    """The time is up, or the rehearsal is asked to end."""


class Wish:
    """A signal that came while a process was started whose handle wasn't kept yet."""
    held, number = False, 0


def ignore_all() -> None:
    """From here on the ending itself isn't interrupted."""
    for number in ENDING:
        signal.signal(number, signal.SIG_IGN)


def end_now(number: int, _: Any) -> None:
    """Ends what is going on, at once or as soon as a handle is kept."""
    if Wish.held:
        Wish.number = number
        return
    ignore_all()
    raise Over("signal %d" % number)


@contextlib.contextmanager
def held() -> Iterator[None]:
    """Signals wait until a handle is kept."""
    Wish.held = True
    try:
        yield
    finally:
        Wish.held = False
    if Wish.number:
        ignore_all()
        raise Over("signal %d" % Wish.number)


def take_signals(minutes: float) -> None:
    """From here on signals, and the end of the time, raise Over."""
    for number in ENDING:
        signal.signal(number, end_now)
    signal.setitimer(signal.ITIMER_REAL, minutes * 60)
