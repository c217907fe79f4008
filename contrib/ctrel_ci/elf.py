"""The names that an ELF32 file gives to its code."""
import pathlib
import struct
from dataclasses import dataclass

SECTION = struct.Struct("<10I")
SYMBOL = struct.Struct("<IIIBBH")
SYMBOL_TABLE = 2
NO_TYPE, FUNCTION = 0, 2
EXECUTED = 4


@dataclass(frozen=True)
class Routine:
    """A named piece of code: its first address, and the address behind it."""

    name: str
    start: int
    end: int

    def holds(self, address: int) -> bool:
        return self.start <= address < self.end


@dataclass(frozen=True)
class Names:
    """What a file's symbols say. A file whose tables are damaged has none."""

    routines: tuple[Routine, ...]
    has_source_lines: bool

    def routine_at(self, address: int) -> Routine | None:
        return next((routine for routine in self.routines if routine.holds(address)), None)


def name_in(table: bytes, at: int) -> str:
    return table[at : table.index(0, at)].decode("utf-8", "backslashreplace")


def sections_of(file: bytes) -> list[tuple[str, tuple[int, ...]]]:
    """The sections with their names."""
    offset, (size, count, names) = struct.unpack_from("<I", file, 32)[0], struct.unpack_from("<3H", file, 46)
    headers = [SECTION.unpack_from(file, offset + size * index) for index in range(count)]
    text = bytes_of(file, headers[names])
    return [(name_in(text, header[0]), header) for header in headers]


def bytes_of(file: bytes, header: tuple[int, ...]) -> bytes:
    return file[header[4] : header[4] + header[5]]


@dataclass(frozen=True)
class Symbol:
    """A name for a piece of code, whose size may be 0, and the end of its section."""

    value: int
    size: int
    kind: int
    name: str
    limit: int


def symbols_of(file: bytes, sections: list) -> list[Symbol]:
    """The symbols of pieces of code."""
    found = []
    for _, header in sections:
        if header[1] != SYMBOL_TABLE:
            continue
        text = bytes_of(file, sections[header[6]][1])
        for name, value, size, info, _, section in SYMBOL.iter_unpack(bytes_of(file, header)):
            if name and info & 15 in (NO_TYPE, FUNCTION) and 0 < section < len(sections):
                flags, address, length = (sections[section][1][at] for at in (2, 3, 5))
                if flags & EXECUTED and address <= value < address + length:
                    found.append(Symbol(value, size, info & 15, name_in(text, name), address + length))
    return [symbol for symbol in found if not symbol.name.startswith("$")]


def routines_of(symbols: list[Symbol]) -> tuple[Routine, ...]:
    """Functions with their sizes, and labels up to the next symbol or their section's end, in ascending address."""
    starts = sorted({symbol.value for symbol in symbols})
    routines = {}
    for symbol in sorted(symbols, key=lambda symbol: (symbol.kind, symbol.name)):
        following = next((start for start in starts if start > symbol.value), symbol.limit)
        end = symbol.value + symbol.size if symbol.size else min(following, symbol.limit)
        routines[symbol.value] = Routine(symbol.name, symbol.value, end)
    return tuple(routines[start] for start in sorted(routines))


def read_names(path: str) -> Names:
    """The names of a file."""
    try:
        file = pathlib.Path(path).read_bytes()
        sections = sections_of(file)
        routines = routines_of(symbols_of(file, sections))
    except (OSError, struct.error, ValueError, IndexError):
        return Names((), False)
    return Names(routines, any(name == ".debug_line" for name, _ in sections))
