"""Each allocation of a run is refused in turn, alone, and with all that follow it."""
import os
import pathlib
import struct
import subprocess
import tempfile
from dataclasses import dataclass

from .answers import fault_of
from .programs import EXAMPLES, Ran, run

# Stands before the C library's functions. The count lies in a file, so that it outlives each ending.
SHIM = r"""
#define _GNU_SOURCE
#include <errno.h>
#include <fcntl.h>
#include <stdatomic.h>
#include <stdlib.h>
#include <sys/mman.h>
#include <unistd.h>

extern void *__libc_malloc(size_t), *__libc_calloc(size_t, size_t), *__libc_realloc(void *, size_t);
static _Atomic unsigned long *asked;
static unsigned long first, last;

__attribute__((constructor)) static void begin(void) {
    int file = open(getenv("REFUSED_COUNT"), O_RDWR);
    first = strtoul(getenv("REFUSED_FIRST"), 0, 10);
    last = strtoul(getenv("REFUSED_LAST"), 0, 10);
    void *page = mmap(0, sizeof *asked, PROT_READ | PROT_WRITE, MAP_SHARED, file, 0);
    close(file);
    if (page == MAP_FAILED) abort();
    asked = page;
}

static int refused(void) {
    if (!asked) return 0;
    unsigned long number = atomic_fetch_add(asked, 1) + 1;
    if (number < first || last < number) return 0;
    errno = ENOMEM;
    return 1;
}

void *malloc(size_t size) { return refused() ? 0 : __libc_malloc(size); }
void *calloc(size_t count, size_t size) { return refused() ? 0 : __libc_calloc(count, size); }
void *realloc(void *old, size_t size) { return refused() ? 0 : __libc_realloc(old, size); }
"""
COMMANDS = (
    "replay decode_table.elf decode_table.toml decode_table.pair",
    "byte decode_branch.elf 0x10000 100",
    "list decode_branch.elf",
    "trace decode_branch.elf 0x10000 100",
    "gen 1327 1",
    "gen 5 20",
    "check decode_branch.elf decode_branch.toml",
    "check compare_early.elf compare_early.toml",
    "check compare_early.elf compare_early.toml --workers 2",
)
# Of a run with more allocations than these so many are tried, at equal distances.
MOST = 3000
ALL = 2**64 - 1
SECONDS = 60


@dataclass(frozen=True)
class Refusing:
    """Runs of one command with allocations refused."""

    shim: pathlib.Path
    count: pathlib.Path
    words: list[str]

    def ran(self, first: int, last: int) -> Ran:
        """A run that is refused the allocations of these numbers, counted from 1; its count is left in the file."""
        self.count.write_bytes(bytes(8))
        return run(self.words, SECONDS, {
            "LD_PRELOAD": str(self.shim),
            "REFUSED_COUNT": str(self.count),
            "REFUSED_FIRST": str(first),
            "REFUSED_LAST": str(last),
        })

    def counted(self) -> int:
        return struct.unpack("=Q", self.count.read_bytes())[0]


def fault_of_refused(ran: Ran, usual: Ran, several: bool) -> str | None:
    """What is wrong with a run that was refused memory: it says so, or nothing where that takes memory too, or ends as
    usual. Of several workers another pair may be told."""
    if ran.status == 70:
        if ran.out:
            return "status 70 with a text"
        return None if ran.err in (b"ctrel: memory\n", b"") else "another line than of memory"
    if ran.status == usual.status and ran.err == usual.err:
        if ran.out == usual.out:
            return None
        if several and fault_of("check", ran) is None:
            return None
    return f"status {ran.status} and not as usual"


def numbers_of(count: int, most: int) -> list[int]:
    """The numbers of the allocations that are refused: all, or so many at equal distances, with both ends."""
    if count <= most:
        return list(range(1, count + 1))
    return sorted({1 + at * (count - 1) // (most - 1) for at in range(most)})


def tried(refusing: Refusing, most: int) -> int:
    """Tries one command, and says what came of it. Gives how many runs were wrong."""
    usual = refusing.ran(1, 0)
    count = refusing.counted()
    if count == 0:
        print(f"{' '.join(refusing.words[1:])}: no allocation was seen")
        return 1
    several = "--workers" in refusing.words
    numbers = numbers_of(count, most)
    wrong = refused = unreached = 0
    for number in numbers:
        for last in (number, ALL):
            ran = refusing.ran(number, last)
            unreached += refusing.counted() < number
            refused += ran.status == 70
            fault = fault_of_refused(ran, usual, several)
            if fault:
                wrong += 1
                print(f"  refused {number} to {last}: {fault}")
    print(
        f"{' '.join(refusing.words[1:])}: {count} allocations, {len(numbers)} refused, alone and with all that follow: "
        f"{2 * len(numbers)} runs, {refused} ended with status 70, {2 * len(numbers) - refused - wrong} as usual, "
        f"{unreached} of these asked for less memory, {wrong} wrong",
        flush=True,
    )
    return wrong


def try_memory(program: str, most: int) -> int:
    """Refuses allocations of each command. Gives how many runs were wrong."""
    with tempfile.TemporaryDirectory() as folder:
        shim = pathlib.Path(folder, "shim.so")
        source = pathlib.Path(folder, "shim.c")
        source.write_text(SHIM)
        try:
            subprocess.run([os.environ.get("CC", "cc"), "-shared", "-fPIC", "-O2", "-o", shim, source], check=True)
        except OSError as error:
            print(f"no C compiler: {error}")
            return 1
        os.chdir(EXAMPLES)
        return sum(
            tried(Refusing(shim, pathlib.Path(folder, "count"), [program, *command.split()]), most)
            for command in COMMANDS
        )
