"""What the written forms say of checks: findings, each at a place."""
import os
import pathlib
from dataclasses import dataclass

from .checking import Outcome
from .report import Place
from .source import Origin, Sources
from .table import site_text
from .texts import numbered, printable

RULES = {
    "branch": "A secret decides whether a branch is taken",
    "jump": "A secret decides where a jump goes",
    "load": "A secret decides which address is loaded from",
    "store": "A secret decides which address is stored to",
    "open": "A question was left open",
    "ending": "The run with all input bytes 0 ends before the routine does",
    "verdict": "The verdict isn't the expected one",
    "error": "The check gave no verdict",
}
OPEN = {
    "leak": "whether the step after it leaks was left open",
    "next": "whether the jump has another target was left open",
    "over": "the jump has more targets than are explored",
}


@dataclass(frozen=True)
class Finding:
    """A rule's key, how grave it is (error, warning or note), and where it is found."""

    rule: str
    level: str
    message: str
    binary: str
    address: int | None = None
    origin: Origin = Origin(None)

    def path(self) -> str:
        """The file to show: the source where its line is known, else the binary."""
        return shown_path(self.origin.file or self.binary)


def shown_path(path: str) -> str:
    """The path from the current folder where the file lies below it, else from the root."""
    below = os.path.relpath(path)
    return os.path.abspath(path) if below.startswith("..") else pathlib.PurePath(below).as_posix()


def place_text(place: Place) -> str:
    return f"{OPEN[place.cause]}: 0x{place.address:08x}, after {numbered(place.after, 'step')}"


def findings_of(outcome: Outcome, sources: Sources) -> list[Finding]:
    """What a check found. Sites are notes where they are expected, and else errors."""
    binary = outcome.check.binary
    grave = "note" if outcome.as_expected() else "error"
    named = lambda text: printable(f"{outcome.check.name}: {text}")
    found = []
    for site in outcome.report.sites if outcome.report else ():
        origin = sources.origins[site.address]
        found.append(Finding(site.kind, grave, named(site_text(site, origin)), binary, site.address, origin))
    for place in outcome.report.places if outcome.report else ():
        origin = sources.origins[place.address]
        found.append(Finding("open", "warning", named(place_text(place)), binary, place.address, origin))
    if outcome.warning():
        found.append(Finding("ending", "warning", named(outcome.warning()), binary))
    if outcome.complaint():
        rule = "error" if outcome.error else "verdict"
        found.append(Finding(rule, "error", named(outcome.complaint()), binary))
    return found
