"""What `ctrel list` writes, and the parts of it that a check is about."""
from dataclasses import dataclass

from .checking import Outcome
from .elf import Routine
from .lines import ADDRESS, Lines
from .programs import Programs
from .source import Sources

AROUND = 32


@dataclass(frozen=True)
class Word:
    """A word that may be executed; its instruction is - where it is none."""

    address: int
    digits: str
    instruction: str


@dataclass(frozen=True)
class Part:
    """A routine's words, or those around an address that no symbol covers."""

    name: str
    words: tuple[Word, ...]


def read_word(lines: Lines) -> Word:
    found = lines.take(f"({ADDRESS}) ([0-9a-f]{{8}}) ([ -~]+)")
    return Word(int(found[1], 16), found[2], found[3])


def read_listing(text: bytes) -> tuple[Word, ...]:
    if text == b"":
        return ()
    lines = Lines("list", text)
    return lines.take_many(len(lines.lines), read_word)


def listing_of(programs: Programs, outcome: Outcome) -> tuple[Word, ...]:
    """The words of a check's binary; none where they can't be listed in time."""
    ran = programs.answer([programs.ctrel, "list", outcome.check.binary], (0,), outcome.check.seconds)
    return read_listing(ran.out) if ran else ()


def addresses_of(outcome: Outcome) -> list[int]:
    """The addresses that a check speaks of: where it begins, its sites and its places."""
    entry = outcome.trace.entry if outcome.trace else None
    rows = (*outcome.report.sites, *outcome.report.places) if outcome.report else ()
    return [*([] if entry is None else [entry]), *(row.address for row in rows)]


def around(address: int) -> Routine:
    return Routine(f"around 0x{address:08x}", max(0, address - 4 * AROUND), address + 4 * AROUND + 4)


def parts_of(outcome: Outcome, sources: Sources, listing: tuple[Word, ...]) -> list[Part]:
    """The routines that a check speaks of, in ascending address."""
    addresses = addresses_of(outcome)
    routines = {sources.names.routine_at(address) or around(address) for address in addresses}
    return [
        Part(routine.name, tuple(word for word in listing if routine.holds(word.address)))
        for routine in sorted(routines, key=lambda routine: routine.start)
    ]
