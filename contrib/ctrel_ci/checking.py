"""One check: what ctrel and ctrace say of it."""
import time
from dataclasses import dataclass

from .checklist import Check
from .lines import FormError
from .programs import ProgramError, Programs
from .report import VERDICTS, Report, read_report
from .texts import numbered
from .trace import Trace, read_trace

SMALLER_BOUNDS = (10, 30, 100, 300, 1_000, 3_000, 10_000, 30_000)
UNFINISHED = {
    "fault": "ended by a fault",
    "illegal": "ended at an illegal word",
    "fetch": "ended by a bad fetch",
    "bound": "reached the bound before it ended",
}


@dataclass(frozen=True)
class Outcome:
    """What came of a check. Without an error there is a trace, or none was written in time."""

    check: Check
    seconds: float
    report: Report | None = None
    trace: Trace | None = None
    in_time: bool = True
    error: str | None = None

    def verdict(self) -> str:
        return self.report.verdict if self.report else "-"

    def ending(self) -> str:
        """How the first run ended, within the bound that was checked."""
        return self.trace.ending_within(self.report.bound) if self.trace and self.report else "-"

    def as_expected(self) -> bool:
        """A verdict below the bound that was asked for counts where it is insecure, which no greater one changes."""
        finds = self.verdict() == self.check.expected
        return self.error is None and finds and (self.in_time or self.verdict() == "insecure")

    def warning(self) -> str | None:
        """Why a verdict says less than it seems to."""
        how = UNFINISHED.get(self.ending())
        if self.verdict() == "secure" and self.trace is None:
            return "how the run with all input bytes 0 ends isn't known: ctrace didn't end in its time"
        if self.verdict() != "secure" or how is None:
            return None
        when = numbered(self.steps(), "step")
        return f"secure leaves out what comes later: the run with all input bytes 0 {how}, after {when}"

    def steps(self) -> int:
        return min(self.trace.steps, self.report.bound)

    def complaint(self) -> str | None:
        """Why the check isn't as expected."""
        if self.as_expected():
            return None
        if self.error:
            return self.error
        late = "" if self.in_time else ": the check didn't end in its time"
        below = ", below the bound" if self.report and late else ""
        found = self.verdict() if self.report else "no verdict"
        return f"{self.check.expected} was expected, and {found} was found{below}{late}"


def ask(programs: Programs, check: Check) -> Report | None:
    """The report of a check; nothing where it doesn't end in time."""
    words = [programs.ctrel, "check", *check.words()]
    ran = programs.answer(words, (0, 1, 2), check.seconds)
    if ran is None:
        return None
    report = read_report(ran.out)
    if VERDICTS.index(report.verdict) != ran.status:
        raise FormError(f"report: {report.verdict} with status {ran.status}")
    if report.bound != (check.bound() or report.bound):
        raise FormError(f"report: the bound {report.bound} in place of {check.bound()}")
    return report


def ask_below(programs: Programs, check: Check) -> Report | None:
    """The report of the least of the smaller bounds that is insecure, else of the greatest that ends in time."""
    asked = check.bound()
    best = None
    for bound in SMALLER_BOUNDS:
        if asked is None or bound >= asked or (best and best.verdict == "insecure"):
            break
        report = ask(programs, check.with_bound(bound))
        if report is None:
            break
        best = report
    return best


def trace_of(programs: Programs, check: Check) -> Trace | None:
    ran = programs.answer([programs.ctrace, check.binary, check.policy], (0,), check.seconds)
    return read_trace(ran.out) if ran else None


def do_check(programs: Programs, check: Check) -> Outcome:
    """Runs a check, below its bound too where that doesn't end in time."""
    began = time.monotonic()
    try:
        whole = ask(programs, check)
        report = whole or ask_below(programs, check)
        trace = trace_of(programs, check)
    except (ProgramError, FormError) as error:
        return Outcome(check, time.monotonic() - began, error=str(error))
    return Outcome(check, time.monotonic() - began, report, trace, in_time=whole is not None)
