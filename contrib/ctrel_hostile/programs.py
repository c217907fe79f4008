"""The program that is tried, and runs of it that are measured."""
import os
import pathlib
import re
import signal
import subprocess
import sys
import tempfile
import threading
import time
from dataclasses import dataclass

TOP = pathlib.Path(__file__).resolve().parent.parent.parent
EXAMPLES = TOP / "examples"
# So many seconds lie between two looks at a program's memory.
PAUSE = 0.02


@dataclass(frozen=True)
class Ran:
    """How a run ended: by a status, by a signal (below 0), or not in time (None)."""

    status: int | None
    out: bytes
    err: bytes
    seconds: float
    peak: int


def find_program() -> str:
    """The program that CTREL names, else the one that the launcher runs, which it builds where there is none."""
    named = os.environ.get("CTREL")
    if named:
        return str(pathlib.Path(named).resolve())
    said = subprocess.run([str(TOP / "ctrel")], stdin=subprocess.DEVNULL, capture_output=True, text=True).stderr
    unproved = "unproved program answers" in said
    if unproved:
        print("an unproved program is tried", file=sys.stderr)
    return str(TOP / ("out/ctrel-unproved" if unproved else "crates/ctrel/out/ctrel"))


class Watch(threading.Thread):
    """Looks at a program's greatest memory again and again, and kills it after so many seconds."""

    def __init__(self, number: int, seconds: float):
        super().__init__(daemon=True)
        self.number = number
        self.until = time.monotonic() + seconds
        self.ended = threading.Event()
        self.killed = False
        self.peak = 0

    def run(self) -> None:
        while not self.ended.wait(PAUSE):
            self.peak = max(self.peak, greatest_memory(self.number))
            if self.until < time.monotonic():
                self.killed = True
                os.killpg(self.number, signal.SIGKILL)
                return


def greatest_memory(number: int) -> int:
    """The most bytes that a process had in memory so far, where the system tells it."""
    try:
        found = re.search(r"VmHWM:\s+(\d+) kB", pathlib.Path(f"/proc/{number}/status").read_text())
    except OSError:
        return 0
    return int(found[1]) * 1024 if found else 0


def run(words: list, seconds: float, environment: dict[str, str] | None = None) -> Ran:
    """Runs a program. Of a run that is shorter than a pause no memory is seen."""
    with tempfile.TemporaryFile() as out, tempfile.TemporaryFile() as err:
        began = time.monotonic()
        process = subprocess.Popen(
            words, stdin=subprocess.DEVNULL, stdout=out, stderr=err, start_new_session=True,
            env=None if environment is None else os.environ | environment,
        )
        watch = Watch(process.pid, seconds)
        watch.start()
        # It isn't reaped before the watch has ended, which so can't meet another process of its number.
        os.waitid(os.P_PID, process.pid, os.WEXITED | os.WNOWAIT)
        took = time.monotonic() - began
        watch.ended.set()
        watch.join()
        status = process.wait()
        out.seek(0)
        err.seek(0)
        return Ran(None if watch.killed else status, out.read(), err.read(), took, watch.peak)
