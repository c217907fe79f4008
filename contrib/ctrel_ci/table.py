"""What came of all checks, as a table and lines below it."""
from .checking import Outcome
from .report import Site
from .source import Origin, Sources
from .texts import harmless, numbered, printable

HEAD = ("check", "verdict", "expected", "sites", "places", "bound", "first run", "seconds")
RIGHT = (3, 4, 7)


def bound_text(outcome: Outcome) -> str:
    if outcome.report is None:
        return "-"
    below = "" if outcome.in_time else f" of {outcome.check.bound()}"
    return f"{outcome.report.bound}{below}"


def ending_text(outcome: Outcome) -> str:
    ending = outcome.ending()
    return ending if ending == "-" else f"{ending} after {outcome.steps()}"


def row_of(outcome: Outcome) -> tuple[str, ...]:
    report = outcome.report
    verdict = "error" if outcome.error else outcome.verdict()
    counts = (str(len(report.sites)), str(len(report.places))) if report else ("-", "-")
    name = printable(outcome.check.name)
    seconds = f"{outcome.seconds:.1f}"
    return (name, verdict, outcome.check.expected, *counts, bound_text(outcome), ending_text(outcome), seconds)


def aligned(rows: list[tuple[str, ...]]) -> list[str]:
    widths = [max(map(len, column)) for column in zip(*rows)]
    lines = []
    for row in rows:
        cells = (
            cell.rjust(width) if column in RIGHT else cell.ljust(width)
            for column, (cell, width) in enumerate(zip(row, widths))
        )
        lines.append("  ".join(cells).rstrip())
    return lines


def origin_text(origin: Origin) -> str:
    """Where an instruction comes from, as ' in equal_bytes, compare_early.c:13'."""
    function = f" in {origin.function}" if origin.function else ""
    place = f", {origin.file}:{origin.line}" if origin.file else ""
    return f"{function}{place}"


def site_text(site: Site, origin: Origin) -> str:
    return f"{site.kind} at 0x{site.address:08x}{origin_text(origin)}: {site.instruction}"


def remarks_of(outcome: Outcome, sources: Sources) -> list[str]:
    """What is to be said of a check below the table."""
    sites = outcome.report.sites if outcome.report else ()
    said = [site_text(site, sources.origins[site.address]) for site in sites]
    if outcome.warning():
        said.append(f"warning: {outcome.warning()}")
    if outcome.complaint():
        said.append(f"{'error' if outcome.error else 'not as expected'}: {outcome.complaint()}")
    return [printable(f"{outcome.check.name}: {line}") for line in said]


def summary(outcomes: list[Outcome]) -> str:
    wrong = sum(not outcome.as_expected() for outcome in outcomes)
    return f"{numbered(len(outcomes), 'check')}, {wrong} not as expected"


def table_text(outcomes: list[Outcome], sources: list[Sources]) -> str:
    lines = aligned([HEAD, *map(row_of, outcomes)])
    remarks = [line for pair in zip(outcomes, sources) for line in remarks_of(*pair)]
    whole = [*lines, *([""] if remarks else []), *remarks, "", summary(outcomes)]
    return "".join(f"{harmless(line)}\n" for line in whole)
