"""What a person sees while something takes long: the lines of a command, and how far it is where no line comes."""

import os
import queue
import subprocess
import sys
import threading
import time
from collections.abc import Callable
from types import TracebackType
from typing import TextIO

# after so many seconds without a line one says that the work goes on
SILENCE = 10.0
TICKS = os.sysconf("SC_CLK_TCK")


def hear(words: list[str], folder: str, take: Callable[[str], None], wait: Callable[[float], None], **more: str) -> int:
    """Runs a command, and hands on each line that it prints, and for how long it has run where none comes for a while: its
    status. More variables of its environment are given by their names."""
    lines, began = queue.Queue[str | None](), time.monotonic()

    def read(stream: TextIO) -> None:
        for line in stream:
            lines.put(line.rstrip("\n"))
        lines.put(None)

    with subprocess.Popen(
        words, cwd=folder, env=os.environ | more, stdin=subprocess.DEVNULL, stdout=subprocess.PIPE,
        stderr=subprocess.STDOUT, text=True, errors="replace",
    ) as run:
        assert run.stdout is not None
        threading.Thread(target=read, args=(run.stdout,), daemon=True).start()
        while True:
            try:
                line = lines.get(timeout=SILENCE)
            except queue.Empty:
                wait(time.monotonic() - began)
                continue
            if line is None:
                break
            take(line)
    return run.returncode


def processor_seconds(top: int) -> float:
    """The processor time that a process and all that it started have taken, in seconds."""
    parents, taken = {}, {}
    for word in filter(str.isdigit, os.listdir("/proc")):
        try:
            with open(f"/proc/{word}/stat", encoding="utf-8", errors="replace") as file:
                text = file.read()
        except OSError:  # it has ended
            continue
        fields = text[text.rindex(")") + 2 :].split()
        parents[int(word)], taken[int(word)] = int(fields[1]), sum(map(int, fields[11:15])) / TICKS
    found, more = set[int](), {top}
    while more:
        found |= more
        more = {number for number, parent in parents.items() if parent in more} - found
    return sum(taken.get(number, 0.0) for number in found)


class Waiting:
    """Says on standard error how far something is, from its begin to its end: on a terminal in one line that is written
    anew each second, else in a line each ten seconds."""

    def __init__(self, told: Callable[[float], str]):
        self.told, self.is_terminal = told, sys.stderr.isatty()
        self.ended, self.began = threading.Event(), time.monotonic()
        self.thread = threading.Thread(target=self.tell, daemon=True)

    def tell(self) -> None:
        """Says it until the end."""
        while not self.ended.wait(1.0 if self.is_terminal else SILENCE):
            text = self.told(time.monotonic() - self.began)
            sys.stderr.write(f"\r\x1b[K{text}" if self.is_terminal else f"{text}\n")
            sys.stderr.flush()

    def __enter__(self) -> None:
        self.thread.start()

    def __exit__(self, kind: type[BaseException] | None, fault: BaseException | None, trace: TracebackType | None) -> None:
        self.ended.set()
        self.thread.join()
        if self.is_terminal:
            sys.stderr.write("\r\x1b[K")
            sys.stderr.flush()
