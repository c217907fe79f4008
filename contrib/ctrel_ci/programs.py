"""The programs that do the work: ctrel and ctrace."""
import os
import signal
import subprocess
import time
from dataclasses import dataclass

REFUSED_WORDS = 64
RUNNING: set[subprocess.Popen] = set()


class ProgramError(Exception):
    """A program can't be run, or ended as none of its answers does."""


@dataclass(frozen=True)
class Ran:
    """What a program wrote, how it ended, and after how many seconds."""

    out: bytes
    err: str
    status: int
    seconds: float


def end_group(process: subprocess.Popen) -> None:
    """Ends a program and all that it started, which is a group of processes of its own."""
    try:
        os.killpg(process.pid, signal.SIGKILL)
    except ProcessLookupError:
        pass


def end_all() -> None:
    """Ends every program that runs."""
    for process in list(RUNNING):
        end_group(process)


def run(words: list[str], seconds: float | None) -> Ran | None:
    """Runs a program; nothing where it hadn't ended after so many seconds."""
    began = time.monotonic()
    pipe = subprocess.PIPE
    try:
        process = subprocess.Popen(
            words, stdin=subprocess.DEVNULL, stdout=pipe, stderr=pipe, start_new_session=True
        )
    except OSError as error:
        raise ProgramError(f"{words[0]}: {error.strerror}") from None
    RUNNING.add(process)
    try:
        out, err = process.communicate(timeout=seconds)
    except subprocess.TimeoutExpired:
        end_group(process)
        process.communicate()
        return None
    except BaseException:
        end_group(process)
        raise
    finally:
        RUNNING.discard(process)
    return Ran(out, err.decode("utf-8", "backslashreplace"), process.returncode, time.monotonic() - began)


@dataclass(frozen=True)
class Programs:
    """The words that ctrel and ctrace are called by, and the time limit of each call."""

    ctrel: str
    ctrace: str
    seconds: float

    def make_ready(self) -> list[str]:
        """Calls both with no words, which they refuse. Returns what launchers say, which build them before that."""
        said = []
        for program in (self.ctrel, self.ctrace):
            ran = run([program], None)
            if ran.status != REFUSED_WORDS:
                raise ProgramError(f"{program}: isn't as it is to be: status {ran.status}: {reason(ran)}")
            said += [line for line in named_lines(ran) if not line.endswith(": words")]
        return said

    def answer(self, words: list[str], statuses: tuple[int, ...], seconds: float | None) -> Ran | None:
        """What a call writes that ends by one of these statuses; nothing where it doesn't end in time."""
        ran = run(words, self.seconds if seconds is None else seconds)
        if ran is not None and ran.status not in statuses:
            raise ProgramError(f"status {ran.status}: {reason(ran)}")
        return ran


def reason(ran: Ran) -> str:
    """Why there is no answer: the last line of standard error that a program's name begins, else the last."""
    return (named_lines(ran) or ran.err.strip().splitlines() or ["nothing was said"])[-1]


def named_lines(ran: Ran) -> list[str]:
    """The lines of standard error that a program's name begins: refusals, and what a launcher says."""
    return [line for line in ran.err.splitlines() if line.startswith(("ctrel: ", "ctrace: "))]
