"""Threads that go on until the process ends: where one ends by itself, the process does, and says why."""
from __future__ import annotations

import threading
from typing import Callable


AGAIN = "Start event-phones again: nothing that was answered is lost."


class Running:
    def __init__(self) -> None:
        self.is_over = threading.Event()
        self.why = ""

    def end(self, why: str) -> None:
        if not self.is_over.is_set():
            self.why = why
            self.is_over.set()

    def begin(self, name: str, work: Callable[[], object]) -> None:
        def watched() -> None:
            why = "it ended"
            try:
                work()
            except BaseException as fault:
                why = f"{type(fault).__name__}: {fault}"
            self.end(f"What {name} can't go on ({why}).\n{AGAIN}")

        threading.Thread(target=watched, name=name, daemon=True).start()
