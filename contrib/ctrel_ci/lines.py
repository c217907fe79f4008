"""Texts of lines, read strictly."""
import re
from typing import Callable

ADDRESS = "0x[0-9a-f]{8}"
NUMBER = "0|[1-9][0-9]*"


class FormError(Exception):
    """A text isn't in its form."""


class Lines:
    """The lines of a text that are still to be read."""

    def __init__(self, what: str, text: bytes):
        self.what = what
        self.done = 0
        try:
            whole = text.decode("ascii")
        except UnicodeDecodeError:
            raise FormError(f"{what}: a byte is no ASCII") from None
        if not whole.endswith("\n"):
            raise FormError(f"{what}: the last line has no end")
        self.lines = whole[:-1].split("\n")

    def error(self) -> FormError:
        return FormError(f"{self.what}: line {self.done + 1} isn't in its form")

    def ended(self) -> bool:
        return self.done == len(self.lines)

    def take(self, pattern: str) -> re.Match:
        """The next line, which must be as the pattern says."""
        found = None if self.ended() else re.fullmatch(pattern, self.lines[self.done])
        if found is None:
            raise self.error()
        self.done += 1
        return found

    def take_many(self, count: int, read: Callable[["Lines"], object]) -> tuple:
        return tuple(read(self) for _ in range(count))

    def end(self) -> None:
        if not self.ended():
            raise self.error()
