"""Executables, policies, pairs and words that are damaged at random, and what is answered."""
import itertools
import json
import pathlib
import random
import tempfile
import threading
import time
import tomllib
from collections import Counter
from concurrent.futures import ThreadPoolExecutor
from dataclasses import dataclass, field

from ctrel_ci.report import read_report

from .answers import fault_of
from .mutations import BINARY, TEXT, damaged, other_words
from .programs import EXAMPLES, Ran, run

# A run on damaged input has so many seconds. The slowest are checks of all pairs where much memory is accessible.
SECONDS = 600
# Damaged code may have very many control paths, so a check of it goes no further.
BOUND = 24
BUDGET = 100
DEFAULT_BOUND = 1000
# So many bytes of an answer are kept.
KEPT = 100_000


@dataclass(frozen=True)
class Example:
    """A routine, its policy, and a pair for it."""

    binary: bytes
    policy: bytes
    pair: bytes


@dataclass(frozen=True)
class Attempt:
    """Files and words of a run, of which something is damaged."""

    number: int
    files: dict[str, bytes]
    words: list[bytes]


@dataclass
class Tally:
    """What came of all runs so far, which several threads count."""

    lock: threading.Lock = field(default_factory=threading.Lock)
    came: Counter = field(default_factory=Counter)
    replayed: int = 0
    wrong: int = 0
    slowest: float = 0
    greatest: int = 0

    def count(self, command: str, ran: Ran) -> None:
        with self.lock:
            self.came[command, ran.status] += 1
            self.slowest = max(self.slowest, ran.seconds)
            self.greatest = max(self.greatest, ran.peak)


def zeros(policy: bytes) -> bytes:
    """The text of a pair of a policy, all of whose bytes are 0."""
    counts = Counter()
    for given in tomllib.loads(policy.decode()).get("input", []):
        counts[given["kind"]] += given.get("length", given.get("bytes", 4))
    public, secret = ("00" * counts[kind] or "-" for kind in ("public", "secret"))
    return f"pair 1\nshared {public}\nleft {secret}\nright {secret}\n".encode()


def examples() -> list[Example]:
    found = []
    for path in sorted(EXAMPLES.glob("*.toml")):
        binary, pair = path.with_suffix(".elf"), path.with_suffix(".pair")
        if binary.exists():
            policy = path.read_bytes()
            found.append(Example(binary.read_bytes(), policy, pair.read_bytes() if pair.exists() else zeros(policy)))
    return found


def command_of(choice: random.Random) -> list[bytes]:
    """A command that is right, over files of these names."""
    bound = str(choice.choice((1, 10, 100, 1000, 100_000))).encode()
    entry = choice.choice((b"0x10000", b"0x10054", b"decode_digit", b"compare", b"0"))
    return choice.choice((
        [b"check", b"binary", b"policy"],
        [b"check", b"binary", b"policy"],
        [b"check", b"binary", b"policy", b"--workers", str(choice.randint(1, 16)).encode()],
        [b"replay", b"binary", b"policy", b"pair"],
        [b"byte", b"binary", entry, bound],
        [b"trace", b"binary", entry, bound],
        [b"list", b"binary"],
        [b"gen", str(choice.getrandbits(32)).encode(), str(choice.randint(1, 3)).encode()],
    ))


def attempt(number: int, seed: int, known: list[Example]) -> Attempt:
    """The attempt of this number. Either its words are damaged, or its files are."""
    choice = random.Random(f"{seed} {number}")
    example = choice.choice(known)
    files = {"binary": example.binary, "policy": example.policy, "pair": example.pair}
    words = command_of(choice)
    if choice.random() < 0.15 or words[0] == b"gen":
        return Attempt(number, files, other_words(choice, words))
    named = [name for name in files if name.encode() in words]
    for name in choice.choice((named, [choice.choice(named)])):
        files[name] = damaged(choice, files[name], BINARY if name == "binary" else TEXT)
    if words[0] == b"check":
        words += [b"--bound", b"%d" % BOUND, b"--budget", b"%d" % choice.choice((0, BUDGET))]
    return Attempt(number, files, words)


def placed(attempt: Attempt, folder: pathlib.Path) -> list[bytes]:
    """Puts the files into a folder. Gives the words with their paths."""
    for name, held in attempt.files.items():
        (folder / name).write_bytes(held)
    paths = {name.encode(): bytes(folder / name) for name in attempt.files}
    return [paths.get(word, word) for word in attempt.words]


def bound_of(policy: bytes) -> int:
    """The bound of a policy; 0 where it can't be told, since ctrel reads a later form of TOML."""
    try:
        bound = tomllib.loads(policy.decode()).get("bound", DEFAULT_BOUND)
    except (tomllib.TOMLDecodeError, UnicodeDecodeError):
        return 0
    return bound if isinstance(bound, int) else 0


def fault_of_pairs(program: str, attempt: Attempt, ran: Ran, folder: pathlib.Path, tally: Tally) -> str | None:
    """What is wrong with the pairs of a report: each is to be replayed to its site and step."""
    bound = bound_of(attempt.files["policy"])
    for site in read_report(ran.out).sites[:3]:
        if bound < site.step:
            continue
        text = f"pair 1\nshared {site.shared}\nleft {site.left}\nright {site.right}\n"
        (folder / "shown").write_text(text)
        again = run([program, "replay", *(folder / name for name in ("binary", "policy", "shown"))], SECONDS)
        with tally.lock:
            tally.replayed += 1
        if not again.out.startswith(f"differ step {site.step} site {site.address:#010x}\n".encode()):
            return f"the pair of {site.address:#010x} isn't replayed to its site and step"
    return None


def keep(attempt: Attempt, ran: Ran, fault: str, folder: pathlib.Path) -> None:
    """Keeps the files, the words and the answer of an attempt."""
    kept = folder / str(attempt.number)
    kept.mkdir(parents=True, exist_ok=True)
    placed(attempt, kept)
    (kept / "out").write_bytes(ran.out[:KEPT])
    (kept / "err").write_bytes(ran.err)
    words = [word.decode("utf-8", "surrogateescape") for word in attempt.words]
    (kept / "said.json").write_text(json.dumps({"fault": fault, "status": ran.status, "words": words}))


def tried(program: str, attempt: Attempt, kept: pathlib.Path, tally: Tally) -> None:
    """Runs one attempt, and counts it; keeps it where its answer is wrong."""
    with tempfile.TemporaryDirectory() as name:
        folder = pathlib.Path(name)
        ran = run([program, *placed(attempt, folder)], SECONDS)
        command = attempt.words[0].decode("utf-8", "replace") if attempt.words else ""
        fault = fault_of(command, ran)
        if fault is None and command == "check" and ran.status == 1:
            fault = fault_of_pairs(program, attempt, ran, folder, tally)
    tally.count(command if ran.status != 64 else "words", ran)
    if fault:
        with tally.lock:
            tally.wrong += 1
        print(f"attempt {attempt.number}: {fault}", flush=True)
        keep(attempt, ran, fault, kept)


def try_inputs(program: str, seconds: float, jobs: int, kept: pathlib.Path, seed: int | None) -> int:
    """Damages input for so many seconds. Gives how many answers were wrong."""
    seed = random.getrandbits(32) if seed is None else seed
    print(f"seed {seed}", flush=True)
    known = examples()
    numbers = itertools.count()
    tally = Tally()
    until = time.monotonic() + seconds

    def work() -> None:
        while time.monotonic() < until:
            tried(program, attempt(next(numbers), seed, known), kept, tally)

    with ThreadPoolExecutor(jobs) as pool:
        for worker in [pool.submit(work) for _ in range(jobs)]:
            worker.result()
    for (command, status), count in sorted(tally.came.items(), key=str):
        print(f"{command}: {count} with status {status}")
    print(
        f"{tally.came.total()} runs, {tally.replayed} reported pairs replayed, {tally.wrong} wrong; "
        f"the slowest {tally.slowest:.1f} s, the greatest {tally.greatest >> 20} MB"
    )
    return tally.wrong
