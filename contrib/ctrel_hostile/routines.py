"""Routines that are made for a trial: their words, their executables, and their policies."""
import struct

ENTRY = 0x10054
TABLE = 0x20000
RETURN = 0x00008067
ZERO, RA, SP, T0, T1, T2, A0, A1, A2, A3, T3, T4 = 0, 1, 2, 5, 6, 7, 10, 11, 12, 13, 28, 29
READ_EXECUTE, READ_WRITE = 5, 6


def immediate(kind: int, function: int, target: int, source: int, value: int) -> int:
    return (value & 0xFFF) << 20 | source << 15 | function << 12 | target << 7 | kind


def addi(target: int, source: int, value: int) -> int:
    return immediate(0x13, 0, target, source, value)


def andi(target: int, source: int, value: int) -> int:
    return immediate(0x13, 7, target, source, value)


def slli(target: int, source: int, count: int) -> int:
    return immediate(0x13, 1, target, source, count)


def srli(target: int, source: int, count: int) -> int:
    return immediate(0x13, 5, target, source, count)


def lbu(target: int, source: int, value: int) -> int:
    return immediate(0x03, 4, target, source, value)


def lui(target: int, value: int) -> int:
    return value << 12 | target << 7 | 0x37


def auipc(target: int, value: int) -> int:
    return value << 12 | target << 7 | 0x17


def jalr(target: int, source: int, value: int) -> int:
    return immediate(0x67, 0, target, source, value)


def of_registers(function: int, extra: int, target: int, left: int, right: int) -> int:
    return extra << 25 | right << 20 | left << 15 | function << 12 | target << 7 | 0x33


def add(target: int, left: int, right: int) -> int:
    return of_registers(0, 0, target, left, right)


def xor(target: int, left: int, right: int) -> int:
    return of_registers(4, 0, target, left, right)


def either(target: int, left: int, right: int) -> int:
    return of_registers(6, 0, target, left, right)


def mul(target: int, left: int, right: int) -> int:
    return of_registers(0, 1, target, left, right)


def branch(function: int, left: int, right: int, by: int) -> int:
    bits = by & 0x1FFF
    high = (bits >> 12 & 1) << 31 | (bits >> 5 & 0x3F) << 25
    low = (bits >> 1 & 0xF) << 8 | (bits >> 11 & 1) << 7
    return high | right << 20 | left << 15 | function << 12 | low | 0x63


def beq(left: int, right: int, by: int) -> int:
    return branch(0, left, right, by)


def bne(left: int, right: int, by: int) -> int:
    return branch(1, left, right, by)


def jump(by: int) -> int:
    bits = by & 0x1FFFFF
    return (bits >> 20 & 1) << 31 | (bits >> 1 & 0x3FF) << 21 | (bits >> 11 & 1) << 20 | (bits >> 12 & 0xFF) << 12 | 0x6F


def header(entry: int, segments: int) -> bytes:
    """An ELF header, behind which so many program headers stand."""
    identification = b"\x7fELF" + bytes([1, 1, 1]) + bytes(9)
    return identification + struct.pack("<HHIIIIIHHHHHH", 2, 243, 1, entry, 52, 0, 0, 52, 32, segments, 0, 0, 0)


def executable(words: list[int], *data: tuple[int, bytes, int]) -> bytes:
    """An executable of code, and of segments to read and write: address, bytes, and how many in memory."""
    code = b"".join(struct.pack("<I", word) for word in words)
    parts = [(ENTRY, code, len(code), READ_EXECUTE)]
    parts += [(address, held, size, READ_WRITE) for address, held, size in data]
    at = 52 + 32 * len(parts)
    headers = b""
    for address, held, size, rights in parts:
        headers += struct.pack("<8I", 1, at, address, address, len(held), size, rights, 4)
        at += len(held)
    return header(ENTRY, len(parts)) + headers + b"".join(held for _, held, _, _ in parts)


def register_input(name: str, count: int, kind: str) -> str:
    return f'[[input]]\nregister = "{name}"\nbytes = {count}\nkind = "{kind}"\n'


def memory_input(at: int, length: int, kind: str) -> str:
    return f'[[input]]\nat = {at:#x}\nlength = {length}\nkind = "{kind}"\n'


def memory(at: int, length: int) -> str:
    return f"[[memory]]\nat = {at:#x}\nlength = {length}\n"


def policy(bound: int, *parts: str) -> bytes:
    """A policy of this bound; registers stand in the first part, where there are any."""
    return f"format = 1\nbound = {bound}\n{''.join(parts)}".encode()


def bits_branched_on(turns: int, look_up: bool) -> list[int]:
    """Branches on the low bits of a0, one a turn; with a look-up by a1 in the table each turn."""
    looked_up = [add(T3, A2, A1), lbu(A1, T3, 0)] if look_up else []
    turn = [andi(T1, A0, 1), srli(A0, A0, 1), beq(T1, ZERO, 8), addi(T2, T2, 1), *looked_up, addi(T0, T0, -1)]
    return [lui(A2, TABLE >> 12), addi(T0, ZERO, turns), *turn, bne(T0, ZERO, -4 * len(turn)), RETURN]


def early_comparison(length: int) -> list[int]:
    """Compares so many bytes at a0 and a1, and leaves at the first difference."""
    return [
        addi(T1, A0, length), lbu(T2, A0, 0), lbu(T3, A1, 0), bne(T2, T3, 20),
        addi(A0, A0, 1), addi(A1, A1, 1), bne(A0, T1, -20), addi(A0, ZERO, 0), RETURN,
    ]


def whole_sum(length: int) -> list[int]:
    """Joins so many bytes at a0 by exclusive or; the length is a multiple of 4,096."""
    return [lui(T1, length >> 12), add(T1, A0, T1), lbu(T2, A0, 0), xor(T0, T0, T2), addi(A0, A0, 1), bne(A0, T1, -12), RETURN]


def permutation() -> bytes:
    return bytes((7 * value + 3) % 256 for value in range(256))
