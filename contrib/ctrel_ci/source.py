"""Where an instruction comes from: its function, and the line of its source."""
import pathlib
import re
import shutil
import subprocess
from dataclasses import dataclass

from .elf import Names, read_names

TOOLS = ("riscv64-unknown-elf-addr2line", "llvm-addr2line", "addr2line")
MOST_SECONDS = 60


@dataclass(frozen=True)
class Origin:
    """The function, the file and the line of an instruction, as far as they are known."""

    function: str | None
    file: str | None = None
    line: int | None = None

    def text(self) -> str:
        """The source line itself; empty where it can't be read."""
        if self.file is None:
            return ""
        try:
            lines = pathlib.Path(self.file).read_text(encoding="utf-8", errors="replace").splitlines()
        except (OSError, ValueError):
            return ""
        return lines[self.line - 1] if self.line <= len(lines) else ""


def find_tool() -> str | None:
    return next(filter(None, map(shutil.which, TOOLS)), None)


def call_tool(tool: str, binary: str, addresses: list[int]) -> list[str]:
    """The tool's lines, two for each address; none where it fails."""
    words = [tool, "-f", "-e", binary, *map(hex, addresses)]
    try:
        ran = subprocess.run(words, stdin=subprocess.DEVNULL, capture_output=True, timeout=MOST_SECONDS)
    except (OSError, subprocess.TimeoutExpired):
        return []
    lines = ran.stdout.decode("utf-8", "backslashreplace").splitlines()
    return lines if ran.returncode == 0 and len(lines) == 2 * len(addresses) else []


def origin_of(names: Names, address: int, function: str, place: str) -> Origin:
    """What two lines of the tool say of an address. What they leave out the symbols tell."""
    routine = names.routine_at(address)
    known = function if function != "??" else routine.name if routine else None
    found = re.fullmatch(r"(.*):([1-9][0-9]*)(?: \(discriminator [0-9]+\))?", place)
    if found is None or found[1] == "??":
        return Origin(known)
    return Origin(known, found[1], int(found[2]))


def origins_of(binary: str, names: Names, addresses: list[int], tool: str | None) -> dict[int, Origin]:
    """The origin of each address, by source lines where the file has them and a tool is there."""
    lines = call_tool(tool, binary, addresses) if tool and names.has_source_lines and addresses else []
    lines = lines or ["??"] * (2 * len(addresses))
    return {
        address: origin_of(names, address, function, place)
        for address, function, place in zip(addresses, lines[::2], lines[1::2])
    }


@dataclass(frozen=True)
class Sources:
    """What is known of a binary beside what ctrel says."""

    names: Names
    origins: dict[int, Origin]


def read_sources(binary: str, addresses: list[int], tool: str | None) -> Sources:
    names = read_names(binary)
    return Sources(names, origins_of(binary, names, addresses, tool))
