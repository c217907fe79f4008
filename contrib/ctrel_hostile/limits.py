"""Sizes at their limits, and one beyond: each run once, with its seconds and its greatest memory."""
import pathlib
import tempfile
from dataclasses import dataclass
from typing import Callable

from ctrel_ci.report import read_report

from .answers import fault_of
from .crew import jobs
from .programs import Ran, run
from .routines import (
    A0, A1, ENTRY, RETURN, T0, T1, T2, ZERO, add, addi, andi, auipc, beq, bne, executable, jalr, jump, lui, memory, memory_input, mul,
    policy, register_input, slli, srli, whole_sum, xor,
)

SECONDS = 3600
LONGEST = 1 << 26
MOST_BYTES = 1 << 24
HEADERS = 84
RETURNS = executable([RETURN])
NO_INPUT = policy(10)


@dataclass(frozen=True)
class Limit:
    """A run at a limit: files by name, words that name them, the status, and what the text has."""

    name: str
    files: dict[str, bytes]
    words: list
    status: int
    has: bytes = b""
    more: Callable[[Ran], bool] | None = None


def counts(paths: int, sites: int, places: int) -> Callable[[Ran], bool]:
    """Whether a report has so many paths, sites and places."""

    def holds(ran: Ran) -> bool:
        report = read_report(ran.out)
        return (report.paths, len(report.sites), len(report.places)) == (paths, sites, places)

    return holds


def long_files() -> list[Limit]:
    comment = NO_INPUT + b"#"
    return [
        Limit("a file of 2^26 bytes", {"b": RETURNS.ljust(LONGEST, b"\0")}, ["list", "b"], 0, b"0x00010054 00008067 jalr"),
        Limit("one byte more", {"b": RETURNS.ljust(LONGEST + 1, b"\0")}, ["list", "b"], 67),
        Limit("a policy of 2^26 bytes", {"b": RETURNS, "p": comment.ljust(LONGEST, b"x")}, ["check", "b", "p"], 0,
              b"verdict secure", counts(1, 0, 0)),
        Limit("one byte more", {"b": RETURNS, "p": comment.ljust(LONGEST + 1, b"x")}, ["check", "b", "p"], 67),
        Limit("a pair of 2^26 bytes", {"b": RETURNS, "p": NO_INPUT, "q": b"pair 1\n".ljust(LONGEST, b"x")},
              ["replay", "b", "p", "q"], 68),
    ]


def in_memory(size: int) -> bytes:
    """An executable whose one segment, to read and execute, has so many bytes in memory."""
    return RETURNS[:72] + size.to_bytes(4, "little") + RETURNS[76:]


def accessible_bytes() -> list[Limit]:
    rest = MOST_BYTES - 4
    branching = executable([beq(A0, ZERO, 8), RETURN, RETURN], (0x1000000, b"", MOST_BYTES - 12))
    pointer = "[registers]\nsp = 0x80000000\n" + memory(0x80000000, rest) + register_input("a0", 1, "secret")
    return [
        Limit("a segment of 2^24 bytes, listed", {"b": in_memory(MOST_BYTES)}, ["list", "b"], 0, b"0x00010054 00008067 jalr",
              lambda ran: ran.out.count(b"\n") == MOST_BYTES // 4),
        Limit("one byte more", {"b": in_memory(MOST_BYTES + 1)}, ["list", "b"], 65),
        Limit("2^24 accessible bytes", {"b": RETURNS, "p": policy(10, pointer)}, ["check", "b", "p"], 0, b"", counts(1, 0, 0)),
        Limit("one byte more", {"b": RETURNS, "p": policy(10, memory(0x80000000, rest + 1))}, ["check", "b", "p"], 66),
        Limit("2^24 accessible bytes by all pairs", {"b": branching}, ["byte", "b", hex(ENTRY), "10"], 1,
              b"site 0x00010054 step 1 branch", counts(2, 1, 0)),
    ]


def input_bytes() -> list[Limit]:
    pointer = "[registers]\na0 = 0x40000\n" + memory(0x40000, 8192)
    code = executable(whole_sum(4096))
    return [
        Limit("4,096 input bytes, all read", {"b": code, "p": policy(100_000, pointer, memory_input(0x40000, 4096, "secret"))},
              ["check", "b", "p"], 0, b"verdict secure", counts(1, 0, 0)),
        Limit("one more", {"b": code, "p": policy(100_000, pointer, memory_input(0x40000, 4097, "secret"))},
              ["check", "b", "p"], 66),
        Limit("4,096 input bytes in a pair", {
            "b": code, "p": policy(100_000, pointer, memory_input(0x40000, 4096, "secret")),
            "q": f"pair 1\nshared -\nleft {'00' * 4096}\nright {'ff' * 4096}\n".encode(),
        }, ["replay", "b", "p", "q"], 0, b"agree steps"),
    ]


def long_paths() -> list[Limit]:
    endless = executable([addi(T0, T0, 1), jump(-4)])
    adding = executable([add(T0, T0, A0), jump(-4)])
    secret = policy(100_000, register_input("a0", 1, "secret"))
    return [
        Limit("a path of 100,000 steps", {"b": endless, "p": secret}, ["check", "b", "p"], 0, b"bound 100000", counts(1, 0, 0)),
        Limit("the same with a sum of 50,000 terms", {"b": adding, "p": secret}, ["check", "b", "p"], 0, b"", counts(1, 0, 0)),
        Limit("the same by all pairs", {"b": adding}, ["byte", "b", hex(ENTRY), "100000"], 0, b"", counts(1, 0, 0)),
        Limit("the same as a trace", {"b": adding}, ["trace", "b", hex(ENTRY), "100000"], 0, b"\nend bound\n"),
        Limit("a bound of 100,001", {"b": endless}, ["trace", "b", hex(ENTRY), "100001"], 64),
    ]


def targets() -> list[Limit]:
    # A jump to one of 512 returns, by the low bits of a0.
    code = executable([andi(T0, A0, 0x1FF), slli(T0, T0, 2), auipc(T1, 0), add(T1, T1, T0), jalr(ZERO, T1, 12), *[RETURN] * 512])
    one, two = policy(10, register_input("a0", 1, "public")), policy(10, register_input("a0", 2, "public"))
    return [
        Limit("256 targets", {"b": code, "p": one}, ["check", "b", "p", "--targets", "256"], 0, b"", counts(256, 0, 0)),
        Limit("256 targets of 512", {"b": code, "p": two}, ["check", "b", "p", "--targets", "256"], 2, b"place over",
              counts(256, 0, 1)),
        Limit("257 targets", {"b": code, "p": one}, ["check", "b", "p", "--targets", "257"], 64),
    ]


def workers() -> list[Limit]:
    binary, text = jobs()["public branches"]
    return [
        Limit("16 workers", {"b": binary, "p": text}, ["check", "b", "p", "--workers", "16"], 0, b"", counts(1024, 0, 0)),
        Limit("17 workers", {"b": binary, "p": text}, ["check", "b", "p", "--workers", "17"], 64),
    ]


def large_questions() -> list[Limit]:
    """Questions of more than 4,096 nodes, which no cache keeps, and a formula of a million clauses and more."""
    # x becomes x + (x xor a0), and is joined with its half by exclusive or, so many times; then a branch on its low bit.
    turn = [xor(T2, T0, A0), add(T0, T0, T2), srli(T2, T0, 1), xor(T0, T0, T2), addi(T1, T1, -1)]
    long = executable([addi(T1, ZERO, 1500), *turn, bne(T1, ZERO, -20), andi(T0, T0, 1), beq(T0, ZERO, 8), RETURN, RETURN])
    # Whether sixty products of secrets come to one number.
    turn = [mul(A0, A0, A0), xor(A0, A0, A1), addi(T1, T1, -1)]
    multiply = executable([lui(T2, 0xDEADB), addi(T1, ZERO, 60), *turn, bne(T1, ZERO, -12), beq(A0, T2, 8), RETURN, RETURN])
    wide = policy(1000, register_input("a0", 4, "secret"), register_input("a1", 4, "secret"))
    return [
        Limit("a public question above the cache's size", {"b": long, "p": policy(50_000, register_input("a0", 1, "public"))},
              ["check", "b", "p"], 0, b"", counts(2, 0, 0)),
        Limit("a secret one", {"b": long, "p": policy(50_000, register_input("a0", 1, "secret"))},
              ["check", "b", "p", "--budget", "100000"], 1, b" branch beq t0, zero", lambda ran: len(read_report(ran.out).sites) == 1),
        Limit("a place with a large formula", {"b": multiply, "p": wide}, ["check", "b", "p", "--budget", "0"], 2, b"place leak"),
        Limit("the same after 100 lines", {"b": multiply, "p": wide}, ["check", "b", "p", "--budget", "100"], 2, b"place leak"),
    ]


def others() -> list[Limit]:
    entries = "".join(memory(0x100000 + 16 * at, 16) for at in range(64))
    stops = ", ".join(str(4 * at) for at in range(64))
    return [
        Limit("a word of 100,000 letters", {"b": RETURNS}, ["list", "x" * 100_000], 74),
        Limit("10,000 words", {}, ["check"] + ["b"] * 10_000, 64),
        Limit("a word that isn't UTF-8", {}, ["list", b"\xff\xfe"], 64),
        Limit("no word", {}, [], 64),
        Limit("64 memory entries and stops", {"b": RETURNS, "p": policy(10, f"stop = [{stops}]\n", entries)}, ["check", "b", "p"], 0),
        Limit("65 memory entries", {"b": RETURNS, "p": policy(10, entries, memory(0, 16))}, ["check", "b", "p"], 66),
        Limit("generated code of 20,000 blocks", {}, ["gen", "1", "20000"], 1, b"gen 1 20000: "),
        Limit("20,001 blocks", {}, ["gen", "1", "20001"], 64),
    ]


def fault_at(limit: Limit, ran: Ran) -> str | None:
    """What isn't as it is expected at a limit."""
    fault = fault_of(str(limit.words[0]) if limit.words else "", ran)
    if fault:
        return fault
    if ran.status != limit.status:
        return f"status {ran.status} in place of {limit.status}"
    if limit.has not in ran.out or limit.more and not limit.more(ran):
        return "another text"
    return None


def try_limits(program: str) -> int:
    """Runs each limit once. Gives how many were wrong."""
    wrong = tried = 0
    for kind in (long_files, accessible_bytes, input_bytes, long_paths, targets, workers, large_questions, others):
        for limit in kind():
            with tempfile.TemporaryDirectory() as folder:
                for name, held in limit.files.items():
                    pathlib.Path(folder, name).write_bytes(held)
                words = [str(pathlib.Path(folder, word)) if word in limit.files else word for word in limit.words]
                ran = run([program, *words], SECONDS)
            fault = fault_at(limit, ran)
            tried += 1
            wrong += fault is not None
            said = ran.err.decode("utf-8", "replace").split("\n")[0]
            print(f"{limit.name}: {fault or 'as expected'}: status {ran.status}{' ' + said if said else ''}, "
                  f"{ran.seconds:.2f} s, {ran.peak >> 20} MB", flush=True)
    print(f"{tried} runs, {wrong} wrong")
    return wrong
