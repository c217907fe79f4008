#!/usr/bin/env python3
"""Compares `ctrace` with a run of the same policy's job under qemu-riscv32.

For each policy of checks.toml an executable is made of the job: its segments and its
memory, and code in front that sets the registers and goes to the entry. qemu runs it one
instruction at a time and logs pc and registers, from which each step's access follows.
CTREL and CTRACE may name the programs; without them the launchers run. Passed over where
qemu-riscv32 isn't installed.
"""
import os
import pathlib
import re
import shutil
import struct
import subprocess
import sys
import tempfile
import tomllib

HERE = pathlib.Path(__file__).resolve().parent
sys.dont_write_bytecode = True
sys.path.insert(0, str(HERE.parent / "contrib"))

from ctrel_ci.elf import SYMBOL, SYMBOL_TABLE, bytes_of, name_in, sections_of

CTREL = os.environ.get("CTREL", str(HERE.parent / "ctrel"))
CTRACE = os.environ.get("CTRACE", str(HERE.parent / "ctrace"))
QEMU = "qemu-riscv32"
PAGE = 4096
START = 0x90000
NAMES = "zero ra sp gp tp t0 t1 t2 s0 s1 a0 a1 a2 a3 a4 a5 a6 a7 s2 s3 s4 s5 s6 s7 s8 s9 s10 s11 t3 t4 t5 t6".split()
TOUCHES = {name: "load" for name in ("lb", "lh", "lw", "lbu", "lhu")} | {name: "store" for name in ("sb", "sh", "sw")}


def symbols_of(file: bytes) -> dict[str, int]:
    sections = sections_of(file)
    return {
        name_in(bytes_of(file, sections[header[6]][1]), name): value
        for _, header in sections
        if header[1] == SYMBOL_TABLE
        for name, value, *_ in SYMBOL.iter_unpack(bytes_of(file, header))
    }


def segments_of(file: bytes) -> list[tuple[int, bytes, int]]:
    """The address, the bytes and the rights of each loaded segment."""
    offset, count = struct.unpack_from("<I", file, 28)[0], struct.unpack_from("<H", file, 44)[0]
    found = []
    for at in range(count):
        kind, start, address, _, size, whole, rights, _ = struct.unpack_from("<8I", file, offset + 32 * at)
        if kind == 1 and whole:
            found.append((address, file[start : start + size].ljust(whole, b"\0"), rights))
    return found


def beginning(entry: int, registers: dict[str, int]) -> bytes:
    """Code that sets each register by LUI and ADDI, and goes to the entry by JAL."""
    words = []
    for number, name in enumerate(NAMES[1:], 1):
        value = registers.get(name, 0)
        low = value & 0xFFF
        high = (value + (0x1000 if low & 0x800 else 0)) & 0xFFFFF000
        words += [high | number << 7 | 0x37, low << 20 | number << 15 | number << 7 | 0x13]
    back = (entry - START - 4 * len(words)) & 0x1FFFFF
    jump = (back >> 20) << 31 | (back >> 1 & 0x3FF) << 21 | (back >> 11 & 1) << 20 | (back >> 12 & 0xFF) << 12
    return struct.pack(f"<{len(words) + 1}I", *words, jump | 0x6F)


def pages_of(segments: list[tuple[int, bytes, int]]) -> dict[int, tuple[bytearray, int]]:
    pages = {}
    for address, content, rights in segments:
        for at, byte in enumerate(content, address):
            page, before = pages.get(at // PAGE, (bytearray(PAGE), 0))
            page[at % PAGE] = byte
            pages[at // PAGE] = (page, before | rights)
    return pages


def executable(segments: list[tuple[int, bytes, int]]) -> bytes:
    """An executable of whole pages, as a system loads them."""
    pages = sorted(pages_of(segments).items())
    identification = b"\x7fELF" + bytes([1, 1, 1]) + bytes(9)
    head = struct.pack("<HHIIIIIHHHHHH", 2, 243, 1, START, 52, 0, 0, 52, 32, len(pages), 0, 0, 0)
    table = b"".join(
        struct.pack("<8I", 1, PAGE * (at + 1), PAGE * number, PAGE * number, PAGE, PAGE, rights, PAGE)
        for at, (number, (_, rights)) in enumerate(pages)
    )
    return (identification + head + table).ljust(PAGE, b"\0") + b"".join(page for _, (page, _) in pages)


def job_of(binary: pathlib.Path, policy: dict) -> bytes:
    """The executable of a policy's job with all input bytes 0."""
    file = binary.read_bytes()
    names = symbols_of(file)
    address = lambda value: names[value] if isinstance(value, str) else value
    segments = segments_of(file)
    segments += [(address(entry["at"]), bytes(entry["length"]), 6) for entry in policy.get("memory", ())]
    for entry in policy["input"]:
        if "at" in entry:
            segments.append((address(entry["at"]) + entry.get("offset", 0), bytes(entry["length"]), 0))
    registers = {name: address(value) for name, value in policy.get("registers", {}).items()}
    return executable([*segments, (START, beginning(address(policy["entry"]), registers), 5)])


def qemu_steps(program: pathlib.Path) -> list[tuple[int, list[int]]]:
    """The pc and the registers before each instruction from the entry on."""
    log = program.with_suffix(".log")
    words = [QEMU, "-singlestep", "-d", "exec,cpu,nochain", "-D", str(log), str(program)]
    subprocess.run(words, stdin=subprocess.DEVNULL, capture_output=True, timeout=60)
    steps = []
    for part in re.split(r"^Trace ", log.read_text(errors="replace"), flags=re.M)[1:]:
        pc = int(re.search(r"^ pc +([0-9a-f]+)", part, re.M)[1], 16)
        registers = [int(value, 16) for _, value in re.findall(r"\bx([0-9]+)/\S+ +([0-9a-f]{8})", part)]
        steps.append((pc, registers))
    return [step for step in steps if not START <= step[0] < START + PAGE]


def touch_of(text: str, registers: list[int]) -> str:
    """What an instruction touches, by the registers before it."""
    found = re.fullmatch(r"(\w+) \w+, (-?[0-9]+)\((\w+)\)", text)
    if found is None or found[1] not in TOUCHES:
        return "-"
    return f"{TOUCHES[found[1]]} 0x{(registers[NAMES.index(found[3])] + int(found[2])) % 2**32:08x}"


def output(*words: object) -> list[str]:
    return subprocess.run(list(map(str, words)), check=True, capture_output=True, text=True).stdout.splitlines()


def steps_by_qemu(binary: pathlib.Path, policy: pathlib.Path, folder: pathlib.Path) -> list[str]:
    """The steps as ctrace writes them, without their nexts."""
    program = folder / binary.name
    program.write_bytes(job_of(binary, tomllib.loads(policy.read_text())))
    program.chmod(0o700)
    texts = {int(line.split()[0], 16): line.split(" ", 2)[2] for line in output(CTREL, "list", binary)}
    rows = [(pc, touch_of(texts[pc], registers)) for pc, registers in qemu_steps(program) if pc in texts]
    return [f"step {at} pc 0x{pc:08x} touch {touch}" for at, (pc, touch) in enumerate(rows, 1)]


def main() -> int:
    if shutil.which(QEMU) is None:
        print(f"passed over: {QEMU} isn't installed")
        return 0
    steps = bad = 0
    with tempfile.TemporaryDirectory() as folder:
        for row in tomllib.loads((HERE / "checks.toml").read_text())["check"]:
            binary, policy = HERE / row["binary"], HERE / row["policy"]
            ours = [line.split(" next ")[0] for line in output(CTRACE, binary, policy)[:-1]]
            theirs = steps_by_qemu(binary, policy, pathlib.Path(folder))
            steps += len(ours)
            if ours != theirs:
                bad += 1
                print(f"{binary.name}: {len(ours)} steps by ctrace, {len(theirs)} by qemu, or others")
    print(f"qemu: {steps} steps compared, {bad} routines differ")
    return 1 if bad else 0


sys.exit(main())
