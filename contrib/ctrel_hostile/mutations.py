"""Damage: bytes, lines, numbers and words that are changed at random."""
import random
import re
import struct

EDGES = (0, 1, 2, 3, 4, 31, 32, 33, 52, 64, 65, 255, 256, 4095, 4096, 4097, 65535, 100_000, 100_001, 2**24 - 1, 2**24, 2**24 + 1,
         2**26, 2**31 - 1, 2**31, 2**32 - 4, 2**32 - 1, 2**32, 2**63 - 1, 2**63, 2**64 - 1, 2**64, 10**30)
PIECES = (b"\0", b"\r", b"\n", b"\t", b"\xff", b"\xef\xbb\xbf", b"\xe2\x80\xa8", b"[", b"]", b"[[", b"{", b"}", b"\"", b"'''", b"\\",
          b"#", b"=", b".", b",", b"-", b"+", b"_", b"0x", b"1e9", b"inf", b"true", b"1979-05-27", b"[[input]]\n", b"[registers]\n",
          b"stop = [0]\n", b"a0", b"zero", b"secret", b"public", b"[" * 5000)
WORDS = (b"", b"-", b"--", b"--bound", b"--budget", b"--targets", b"--workers", b"--help", b"-h", b"--version", b"0", b"1", b"0x", b"0X10",
         b"0x10000", b"00001", b"+1", b"1_000", b" 1", b"1 ", b"\xff", b"\xc3\xa9", b"x" * 5000, b"check", b"byte", b"list", b"trace",
         b"replay", b"gen", b"/", b".", b"/dev/null", b"/no/such/file", b"=", b"--bound=5", b"decode_digit")

# LOAD, OP-IMM, AUIPC, STORE, OP, LUI, BRANCH, JALR, JAL, SYSTEM, MISC-MEM.
OPCODES = (0x03, 0x13, 0x17, 0x23, 0x33, 0x37, 0x63, 0x67, 0x6F, 0x73, 0x0F)


def flip(choice: random.Random, file: bytes) -> bytes:
    """Some bits are turned, more of them near the front, where the headers stand."""
    changed = bytearray(file)
    for _ in range(choice.choice((1, 1, 2, 4, 16))):
        end = len(changed) if choice.random() < 0.5 else min(len(changed), 256)
        if end:
            changed[choice.randrange(end)] ^= 1 << choice.randrange(8)
    return bytes(changed)


def cut(choice: random.Random, file: bytes) -> bytes:
    """The end is left out, or the beginning, or a part."""
    first, last = sorted(choice.randrange(len(file) + 1) for _ in range(2))
    return choice.choice((file[:first], file[last:], file[:first] + file[last:]))


def copy(choice: random.Random, file: bytes) -> bytes:
    """A block is put over another place, or between, so that the file grows."""
    first, last = sorted(choice.randrange(len(file) + 1) for _ in range(2))
    block, at = file[first:last], choice.randrange(len(file) + 1)
    return file[:at] + block + file[at + choice.choice((0, len(block))) :]


def put_number(choice: random.Random, file: bytes) -> bytes:
    """Two or four bytes of a header, or elsewhere, become a number at an edge."""
    size = choice.choice((2, 4, 4))
    end = len(file) if choice.random() < 0.3 else min(len(file), 52 + 32 * 4)
    if end < size:
        return file
    at = choice.randrange(end - size + 1) // 2 * 2
    number = (choice.choice(EDGES) + choice.choice((-1, 0, 0, 1))) % 256**size
    return file[:at] + number.to_bytes(size, "little") + file[at + size :]


def put_instruction(choice: random.Random, file: bytes) -> bytes:
    """Four bytes behind the headers become a word with the opcode of an instruction."""
    if len(file) < 92:
        return file
    at = choice.randrange(84, len(file) - 3) // 4 * 4
    word = choice.getrandbits(25) << 7 | choice.choice(OPCODES)
    return file[:at] + struct.pack("<I", word) + file[at + 4 :]


def repeat_line(choice: random.Random, text: bytes) -> bytes:
    """A line is doubled, left out, or put elsewhere."""
    lines = text.splitlines(keepends=True)
    if not lines:
        return text
    line = lines.pop(choice.randrange(len(lines)))
    for _ in range(choice.choice((0, 1, 2, 2, 65))):
        lines.insert(choice.randrange(len(lines) + 1), line)
    return b"".join(lines)


def put_decimal(choice: random.Random, text: bytes) -> bytes:
    """A number becomes one at an edge."""
    found = list(re.finditer(rb"(?:0x[0-9a-fA-F]+|[0-9]+)", text))
    if not found:
        return text
    where = choice.choice(found)
    number = choice.choice(EDGES) + choice.choice((-1, 0, 0, 1))
    spelled = choice.choice((str(number), hex(number), f"{number}.0", oct(number), f"'{number}'"))
    return text[: where.start()] + spelled.encode() + text[where.end() :]


def put_piece(choice: random.Random, text: bytes) -> bytes:
    """Something stands where it shouldn't."""
    at = choice.randrange(len(text) + 1)
    return text[:at] + choice.choice(PIECES) + text[at + choice.choice((0, 0, 1)) :]


BINARY = (flip, cut, copy, put_number, put_number, put_instruction, put_instruction)
TEXT = (flip, cut, copy, repeat_line, repeat_line, put_decimal, put_decimal, put_piece)


def damaged(choice: random.Random, file: bytes, ways: tuple) -> bytes:
    """A file that is damaged in up to four ways."""
    for _ in range(choice.choice((1, 1, 1, 2, 4))):
        file = choice.choice(ways)(choice, file)
    return file


def other_words(choice: random.Random, words: list[bytes]) -> list[bytes]:
    """Words of which some are left out, doubled, exchanged or others. None has a zero byte, which no word can have."""
    words = list(words)
    for _ in range(choice.choice((1, 1, 2, 3))):
        at = choice.randrange(len(words) + 1)
        how = choice.randrange(5)
        if how == 0:
            words[at : at + 1] = []
        elif how == 1:
            words[at:at] = words[at : at + 1]
        elif how == 2:
            words.insert(at, choice.choice(WORDS))
        elif how == 3:
            words[at : at + 1] = [choice.choice((put_decimal, put_piece, flip))(choice, b"".join(words[at : at + 1]))]
        else:
            choice.shuffle(words)
    return [word.replace(b"\0", b"0") for word in words]
