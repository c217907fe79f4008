"""What `ctrel check` writes."""
import re
from dataclasses import dataclass

from .lines import ADDRESS, NUMBER, FormError, Lines

VERDICTS = ("secure", "insecure", "unknown")
BYTES = "-|(?:[0-9a-f]{2})+"
ADDRESSES = f"-|{ADDRESS}(?: {ADDRESS})*"
SEARCHED = {
    "leak": f"lines (?:{NUMBER})",
    "next": f"lines (?:{NUMBER}) explored (?:{ADDRESSES})",
    "over": f"seen (?:{ADDRESSES})",
}
TURNS = r"-|(?:[01]|\([0-9a-f]{8}\))+"


@dataclass(frozen=True)
class Site:
    """An instruction at which two runs differ, and a pair of starts that shows it."""

    address: int
    step: int
    kind: str
    instruction: str
    shared: str
    left: str
    right: str


@dataclass(frozen=True)
class Place:
    """A question that was left open."""

    cause: str
    address: int
    after: int


@dataclass(frozen=True)
class Report:
    verdict: str
    bound: int
    paths: int
    doubts: int
    sites: tuple[Site, ...]
    places: tuple[Place, ...]


def read_site(lines: Lines) -> Site:
    head = lines.take(rf"site ({ADDRESS}) step ({NUMBER}) (load|store|branch|jump) ([ -~]+)")
    shared = lines.take(f"shared ({BYTES})")[1]
    left = lines.take(f"left ({BYTES})")[1]
    right = lines.take(f"right ({BYTES})")[1]
    if len(left) != len(right):
        raise FormError(f"{lines.what}: the pair of {head[1]} has two lengths")
    return Site(int(head[1], 16), int(head[2]), head[3], head[4], shared, left, right)


def read_place(lines: Lines) -> Place:
    found = lines.take(f"place (leak|next|over) ({ADDRESS}) after ({NUMBER}) ([ -~]+) turns (?:{TURNS})")
    if not re.fullmatch(SEARCHED[found[1]], found[4]):
        raise FormError(f"{lines.what}: the place {found[2]} says something else than its cause")
    return Place(found[1], int(found[2], 16), int(found[3]))


def agrees(report: Report) -> bool:
    """Whether the verdict follows from the sites and places, and sites ascend."""
    wanted = "insecure" if report.sites else "unknown" if report.places else "secure"
    addresses = [site.address for site in report.sites]
    return report.verdict == wanted and addresses == sorted(set(addresses))


def read_report(text: bytes) -> Report:
    """The report that a text is. Every other text raises FormError."""
    lines = Lines("report", text)
    lines.take("ctrel report 1")
    verdict = lines.take(f"verdict ({'|'.join(VERDICTS)})")[1]
    bound, paths, doubts = (int(lines.take(f"{key} ({NUMBER})")[1]) for key in ("bound", "paths", "doubts"))
    sites = lines.take_many(int(lines.take(f"sites ({NUMBER})")[1]), read_site)
    places = lines.take_many(int(lines.take(f"places ({NUMBER})")[1]), read_place)
    lines.end()
    report = Report(verdict, bound, paths, doubts, sites, places)
    if not agrees(report):
        raise FormError("report: the verdict or the order isn't that of the sites and places")
    return report
