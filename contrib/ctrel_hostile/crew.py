"""Checks of about a thousand control paths, by many workers, again and again."""
import itertools
import pathlib
import random
import tempfile
import time
from collections import Counter, defaultdict

from ctrel_ci.report import Report, read_report

from .answers import fault_of
from .programs import Ran, run
from .routines import (
    TABLE, bits_branched_on, early_comparison, executable, memory, memory_input, permutation, policy, register_input,
)

SECONDS = 600
WORKERS = range(2, 17)
LENGTH = 1000
# A run may take so much more memory than the one that took least of as many workers.
NOISE = 64 << 20


def jobs() -> dict[str, tuple[bytes, bytes]]:
    """Executables and policies, by what they do."""
    table = (TABLE, permutation(), 256)
    buffers = "[registers]\na0 = 0x40000\na1 = 0x48000\n" + memory(0x40000, LENGTH) + memory(0x48000, LENGTH)
    return {
        "public branches": (
            executable(bits_branched_on(10, look_up=False)),
            policy(200, register_input("a0", 2, "public"), register_input("a1", 1, "secret")),
        ),
        "public branches, secret look-ups": (
            executable(bits_branched_on(10, look_up=True), table),
            policy(200, register_input("a0", 2, "public"), register_input("a1", 1, "secret")),
        ),
        "secret branches": (
            executable(bits_branched_on(10, look_up=False)),
            policy(200, register_input("a0", 2, "secret")),
        ),
        "a comparison of 1,000 bytes": (
            executable(early_comparison(LENGTH)),
            policy(10_000, buffers, memory_input(0x40000, LENGTH, "secret"), memory_input(0x48000, LENGTH, "public")),
        ),
    }


def told(report: Report) -> tuple:
    """What a report says but for the pairs, which may be others with other workers."""
    sites = tuple((site.address, site.step, site.kind, site.instruction) for site in report.sites)
    return report.verdict, report.bound, report.paths, report.doubts, sites, report.places


def compared(ran: Ran, alone: Ran) -> str:
    """How a run's report compares with that of one worker."""
    fault = fault_of("check", ran)
    if fault:
        return fault
    if ran.out == alone.out:
        return "the same bytes"
    return "other pairs" if told(read_report(ran.out)) == told(read_report(alone.out)) else "another report"


def try_crew(program: str, seconds: float) -> int:
    """Checks for so many seconds. Gives how many runs were wrong."""
    came = defaultdict(Counter)
    peaks = defaultdict(list)
    until = time.monotonic() + seconds
    with tempfile.TemporaryDirectory() as folder:
        alone, words = {}, {}
        for number, (name, (binary, text)) in enumerate(jobs().items()):
            files = pathlib.Path(folder, f"{number}.elf"), pathlib.Path(folder, f"{number}.toml")
            files[0].write_bytes(binary)
            files[1].write_bytes(text)
            words[name] = [program, "check", *map(str, files), "--workers"]
            alone[name] = run([*words[name], "1"], SECONDS)
            report = read_report(alone[name].out)
            print(f"{name}: {report.verdict}, {report.paths} paths, {alone[name].seconds:.1f} s alone", flush=True)
        for name in itertools.cycle(words):
            if until < time.monotonic():
                break
            workers = random.choice(WORKERS)
            ran = run([*words[name], str(workers)], SECONDS)
            came[name][compared(ran, alone[name])] += 1
            peaks[name, workers].append(ran.peak)
    wrong = 0
    for name, counts in came.items():
        most = max(max(seen) - min(seen) for (job, _), seen in peaks.items() if job == name)
        greatest = max(max(seen) for (job, _), seen in peaks.items() if job == name)
        wrong += sum(count for how, count in counts.items() if how not in ("the same bytes", "other pairs"))
        wrong += NOISE < most
        print(
            f"{name}: {counts.total()} runs by 2 to 16 workers: "
            + ", ".join(f"{count} {how}" for how, count in counts.most_common())
            + f"; peak {greatest >> 20} MB, at most {most >> 20} MB more than the least of as many workers"
        )
    return wrong
