#!/usr/bin/env python3
"""Compares `ctrel list` with objdump, on the examples and on made-up words.

Where ctrel has an instruction, objdump is to have the same one; where ctrel has none,
objdump's is to be none of RV32IM. CTREL may name the program; without it the launcher
runs. Passed over where riscv64-unknown-elf-objdump isn't installed.
"""
import os
import pathlib
import random
import re
import shutil
import subprocess
import sys
import tempfile

HERE = pathlib.Path(__file__).resolve().parent
CTREL = os.environ.get("CTREL", str(HERE.parent / "ctrel"))
OBJDUMP = "riscv64-unknown-elf-objdump"
ADDRESS = 0x10000
MADE_UP = 20_000
OPCODES = (0x37, 0x17, 0x6F, 0x67, 0x63, 0x03, 0x23, 0x13, 0x33, 0x0F, 0x73)
NAMES = set(
    "lui auipc jal jalr beq bne blt bge bltu bgeu lb lh lw lbu lhu sb sh sw addi slti sltiu xori ori andi slli srli srai"
    " add sub sll slt sltu xor srl sra or and mul mulh mulhsu mulhu div divu rem remu fence ecall ebreak".split()
)
# What objdump writes for a fence whose other bits, which the manual has ignored, aren't the usual ones.
FENCES = ("fence", "fence.tso", "pause", ".4byte")


def number_of(text: str) -> str:
    """A number as decimal digits; another word as it is."""
    return str(int(text, 0)) if re.fullmatch(r"-?(?:0x[0-9a-f]+|[0-9]+)", text) else text


def plain(text: str) -> tuple[str, ...]:
    """An instruction as its words, without the spelling in which the two programs differ."""
    words = re.split(r"[\s,()]+", re.sub(r"\s*(?:#|<).*", "", text).strip())
    jumps = words[0] in ("jal", "beq", "bne", "blt", "bge", "bltu", "bgeu")
    last = [words[-1] if words[-1].startswith("0x") else "0x" + words[-1]] if jumps else words[-1:]
    return tuple(number_of(word) for word in [*words[:-1], *last] if word)


def is_long_shift(words: tuple[str, ...]) -> bool:
    """Whether it is a shift by 32 and more, which objdump shows although 32 bits have none."""
    return words[0] in ("slli", "srli", "srai") and int(words[3]) > 31


def agree(text: str, their_text: str) -> bool:
    """Whether objdump has the same instruction, or also none of RV32IM."""
    name = their_text.split()[0]
    if text == "-":
        return name not in NAMES or is_long_shift(plain(their_text))
    return name in FENCES if text == "fence" else plain(text) == plain(their_text)


def output(*words: object) -> str:
    return subprocess.run(list(map(str, words)), check=True, capture_output=True, text=True).stdout


def listed(binary: pathlib.Path) -> dict[int, tuple[str, str]]:
    rows = (line.split(" ", 2) for line in output(CTREL, "list", binary).splitlines())
    return {int(address, 16): (word, text) for address, word, text in rows}


def dumped(*words: object) -> dict[int, tuple[str, str]]:
    rows = re.findall(r"^ *([0-9a-f]+):\t([0-9a-f]{8}) +\t(.*)$", output(OBJDUMP, "-M", "no-aliases", *words), re.M)
    return {int(address, 16): (word, text) for address, word, text in rows}


def differences(ours: dict, theirs: dict) -> list[str]:
    found = []
    for address in sorted(ours.keys() & theirs.keys()):
        (word, text), (their_word, their_text) = ours[address], theirs[address]
        if word != their_word or not agree(text, their_text):
            found.append(f"0x{address:08x} {word}: {text} and {their_word}: {their_text}")
    return found


def made_up(folder: pathlib.Path) -> pathlib.Path:
    """An executable of words with the opcodes of RV32IM, the others by chance but the same each time."""
    chance = random.Random(1)
    words = [chance.getrandbits(25) << 7 | chance.choice(OPCODES) for _ in range(MADE_UP)]
    lines = (f"0x{ADDRESS + 4 * at:08x} {word:08x}\n" for at, word in enumerate(words))
    (folder / "made_up.txt").write_text("".join(lines))
    output(sys.executable, HERE / "make.py", folder)
    return folder / "made_up.elf"


def dumped_raw(folder: pathlib.Path, ours: dict) -> dict:
    """What objdump says of the words alone, for a file without sections."""
    raw = folder / "words"
    raw.write_bytes(b"".join(int(word, 16).to_bytes(4, "little") for word, _ in ours.values()))
    first = f"--adjust-vma={min(ours):#x}"
    return dumped("-D", "-b", "binary", "-m", "riscv:rv32", first, raw)


def main() -> int:
    if shutil.which(OBJDUMP) is None:
        print(f"passed over: {OBJDUMP} isn't installed")
        return 0
    bad = words = 0
    with tempfile.TemporaryDirectory() as place:
        folder = pathlib.Path(place)
        for binary in [*sorted(HERE.glob("*.elf")), made_up(folder)]:
            ours = listed(binary)
            theirs = dumped("-d", binary) or dumped_raw(folder, ours)
            found = differences(ours, theirs)
            words += len(ours.keys() & theirs.keys())
            bad += len(found)
            print(*(f"{binary.name}: {line}" for line in found[:10]), sep="\n", end="\n" if found else "")
    print(f"objdump: {words} words compared, {bad} differ")
    return 1 if bad else 0


sys.exit(main())
