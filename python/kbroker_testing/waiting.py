"""Waiting in tests: until something holds, and for a call that blocks."""

import threading
import time
from collections.abc import Callable
from concurrent.futures import Future
from typing import ParamSpec, TypeVar

PATIENCE = 30  # seconds
PAUSE = 0.01  # seconds, between two looks

Given = ParamSpec("Given")
Found = TypeVar("Found")


def wait_until(holds: Callable[[], Found | None], within: float = PATIENCE, otherwise: str = "it doesn't hold") -> Found:
    """Waits until `holds()` is true, and gives what it gave. After so many seconds it is a TimeoutError, which says this."""
    until = time.monotonic() + within
    while not (found := holds()):
        if time.monotonic() > until:
            raise TimeoutError(f"{otherwise}, after {within} seconds")
        time.sleep(PAUSE)
    return found


def background(call: Callable[Given, Found], *given: Given.args, **named: Given.kwargs) -> Future[Found]:
    """Has a thread make a call that blocks, as a client's commit does while no marker is written, and gives a `Future`: its
    `result(timeout)` waits for what the call gives or raises. A call that never ends doesn't keep the test from ending."""
    future: Future[Found] = Future()

    def run() -> None:
        try:
            future.set_result(call(*given, **named))
        except BaseException as fault:
            future.set_exception(fault)

    threading.Thread(target=run, daemon=True).start()
    return future
