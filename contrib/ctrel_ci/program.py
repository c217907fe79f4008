"""The command line."""
import argparse
import os
import pathlib
import sys
import threading
from concurrent.futures import ThreadPoolExecutor

from .annotations import annotations_text
from .checking import Outcome, do_check
from .checklist import Check, ListError, read_list
from .findings import Finding, findings_of
from .junit import junit_text
from .lines import FormError
from .listing import addresses_of, listing_of, parts_of
from .page import page_text
from .programs import ProgramError, Programs, end_all
from .sarif import sarif_text
from .source import Sources, find_tool, read_sources
from .table import table_text
from .texts import harmless, printable

TOP = pathlib.Path(__file__).resolve().parent.parent.parent
AS_EXPECTED, NOT_AS_EXPECTED, ERROR = 0, 1, 2


def read_arguments(words: list[str]) -> argparse.Namespace:
    parser = argparse.ArgumentParser(
        prog="ctrel-ci",
        description="Checks a list of routines with ctrel, and says whether all verdicts are as expected.",
        epilog="Ends with 0 where all are, 1 where one isn't, and 2 on an error.",
    )
    parser.add_argument("list", help="a TOML document with rows [[check]]")
    parser.add_argument("--jobs", type=positive, default=os.cpu_count() or 1, help="how many checks run at once")
    parser.add_argument("--seconds", type=positive, default=600, help="the time limit of each call (600)")
    parser.add_argument("--ctrel", default=str(TOP / "ctrel"), help="the program that checks")
    parser.add_argument("--ctrace", default=str(TOP / "ctrace"), help="the program that shows a run")
    parser.add_argument("--sarif", metavar="FILE", help="write what was found as SARIF 2.1.0")
    parser.add_argument("--junit", metavar="FILE", help="write the checks as a JUnit report")
    parser.add_argument("--html", metavar="FILE", help="write the checks, with the code, as one page")
    parser.add_argument("--github", action="store_true", help="write annotations of a GitHub workflow too")
    return parser.parse_args(words)


def positive(text: str) -> int:
    number = int(text)
    if number < 1:
        raise ValueError(text)
    return number


class Progress:
    """One line on a terminal that says how many checks are done."""

    def __init__(self, total: int):
        self.total, self.done = total, 0
        self.lock = threading.Lock()
        self.show("")

    def show(self, name: str) -> None:
        if sys.stderr.isatty():
            line = f"{self.done} of {self.total} done {printable(name)[:40]}"
            print(f"\r{line}\x1b[K", end="", file=sys.stderr, flush=True)

    def finish(self, name: str) -> None:
        with self.lock:
            self.done += 1
            self.show(name)
            if self.done == self.total and sys.stderr.isatty():
                print(file=sys.stderr)


def make_ready(programs: Programs) -> None:
    """Waits until both programs answer, and passes on what their launchers say."""
    if sys.stderr.isatty():
        print("starting ctrel and ctrace", file=sys.stderr)
    for line in programs.make_ready():
        print(printable(line), file=sys.stderr)


def do_all(programs: Programs, checks: list[Check], jobs: int) -> list[Outcome]:
    """The outcomes of all checks, in their order, so many at once."""
    progress = Progress(len(checks))

    def one(check: Check) -> Outcome:
        outcome = do_check(programs, check)
        progress.finish(check.name)
        return outcome

    with ThreadPoolExecutor(jobs) as pool:
        try:
            return list(pool.map(one, checks))
        except KeyboardInterrupt:
            pool.shutdown(wait=False, cancel_futures=True)
            end_all()
            raise


def write_page(path: str, programs: Programs, outcomes: list[Outcome], sources: list[Sources]) -> None:
    parts = []
    for outcome, known in zip(outcomes, sources):
        listing = () if outcome.error else listing_of(programs, outcome)
        parts.append(parts_of(outcome, known, listing))
    write(path, page_text(outcomes, sources, parts))


def write(path: str, text: str) -> None:
    pathlib.Path(path).write_text(text, encoding="utf-8", errors="backslashreplace")


def write_all(arguments: argparse.Namespace, programs: Programs, outcomes: list[Outcome]) -> None:
    """Writes the table, and each form that is asked for."""
    tool = find_tool()
    sources = [read_sources(outcome.check.binary, addresses_of(outcome), tool) for outcome in outcomes]
    findings: list[Finding] = [one for pair in zip(outcomes, sources) for one in findings_of(*pair)]
    print(table_text(outcomes, sources), end="")
    if arguments.github:
        print(annotations_text(findings), end="")
    if arguments.sarif:
        write(arguments.sarif, sarif_text(findings))
    if arguments.junit:
        write(arguments.junit, junit_text(outcomes, sources))
    if arguments.html:
        write_page(arguments.html, programs, outcomes, sources)


def status_of(outcomes: list[Outcome]) -> int:
    if any(outcome.error for outcome in outcomes):
        return ERROR
    return AS_EXPECTED if all(outcome.as_expected() for outcome in outcomes) else NOT_AS_EXPECTED


def main(words: list[str]) -> int:
    arguments = read_arguments(words)
    programs = Programs(arguments.ctrel, arguments.ctrace, arguments.seconds)
    sys.stdout.reconfigure(errors="backslashreplace")
    try:
        checks = read_list(arguments.list)
        make_ready(programs)
        outcomes = do_all(programs, checks, arguments.jobs)
        write_all(arguments, programs, outcomes)
    except ListError as error:
        print(harmless(printable(f"ctrel-ci: {arguments.list}: {error}")), file=sys.stderr)
        return ERROR
    except KeyboardInterrupt:
        print("ctrel-ci: interrupted", file=sys.stderr)
        return ERROR
    except (ProgramError, FormError, OSError) as error:
        print(harmless(printable(f"ctrel-ci: {error}")), file=sys.stderr)
        return ERROR
    return status_of(outcomes)
