"""What `ctrace` writes."""
from dataclasses import dataclass

from .lines import ADDRESS, Lines

ENDINGS = ("stop", "fetch", "illegal", "call", "fault", "bound")


@dataclass(frozen=True)
class Trace:
    """One run: where it began (nowhere where it made no step), its steps, and how it ended."""

    entry: int | None
    steps: int
    ending: str

    def ending_within(self, bound: int) -> str:
        """How the run ends that has at most so many steps."""
        return self.ending if self.steps <= bound else "bound"


def read_step(lines: Lines, number: int) -> int:
    touch = f"-|(?:load|store) {ADDRESS}"
    found = lines.take(f"step {number} pc ({ADDRESS}) touch (?:{touch}) next (?:-|{ADDRESS})")
    return int(found[1], 16)


def read_trace(text: bytes) -> Trace:
    """The trace that a text is. Every other text raises FormError."""
    lines = Lines("trace", text)
    steps = len(lines.lines) - 1
    pcs = [read_step(lines, number) for number in range(1, steps + 1)]
    ending = lines.take(f"end ({'|'.join(ENDINGS)})")[1]
    return Trace(pcs[0] if pcs else None, steps, ending)
