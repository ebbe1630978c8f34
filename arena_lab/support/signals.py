"""How a signal ends a command of the lab, and the processes that play for it."""
import functools
import multiprocessing
import os
import signal
import sys
import threading
import time
from types import FrameType
from typing import Any, Callable, Optional, Set

# seconds after which a signal comes again that Python dropped
REPEAT_SECONDS = 0.01
# signals that will be sent again
dropped_signals: Set[int] = set()


class TerminatedError(BaseException):
    """The lab must end. It derives from BaseException, so that agents which catch
    SystemExit or Exception do not catch it."""


def end(lab: int, number: int, frame: Optional[FrameType]) -> None:
    """Interrupts the lab, the process of this number, or ends it and the processes that
    play for it, whose matches may take minutes. A second signal does not interrupt
    that. A process that is forked and has not begun to play ends."""
    if os.getpid() != lab:
        os._exit(128 + number)
    if runs_in(come_again, frame):
        send_soon(number)
        return
    dropped_signals.discard(number)
    if number == signal.SIGINT:
        raise KeyboardInterrupt
    signal.signal(signal.SIGTERM, signal.SIG_IGN)
    for process in multiprocessing.active_children():
        process.terminate()
    raise TerminatedError


def runs_in(function: Callable[..., Any], frame: Optional[FrameType]) -> bool:
    """Returns whether the frame belongs to a call of the function, or to a call made by
    it."""
    while frame is not None and frame.f_code is not function.__code__:
        frame = frame.f_back
    return frame is not None


def send_soon(number: int) -> None:
    """Sends a signal to this process soon, and again until `end` has raised what it
    raises for it."""

    def send() -> None:
        time.sleep(REPEAT_SECONDS)
        while number in dropped_signals:
            os.kill(lab, number)
            time.sleep(REPEAT_SECONDS)

    lab = os.getpid()
    if number not in dropped_signals:
        dropped_signals.add(number)
        threading.Thread(target=send, daemon=True).start()


def come_again(reference: Any) -> None:
    """Has a signal come again if Python has dropped what was raised for it, as it does
    in what a weak reference, a fork or a finalizer calls. What is raised in here would
    be dropped, too, so `end` raises nothing then."""
    number = {KeyboardInterrupt: signal.SIGINT, TerminatedError: signal.SIGTERM}.get(
        reference.exc_type
    )
    if number is None:
        sys.__unraisablehook__(reference)
        return
    signal.signal(number, functools.partial(end, os.getpid()))
    send_soon(number)
