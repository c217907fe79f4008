"""Texts from outside, made fit to be shown."""


def printable(text: str) -> str:
    """The text with each character that isn't printable, as a line feed or an escape, spelled out."""
    return "".join(letter if letter.isprintable() else spelled(letter) for letter in text)


def spelled(letter: str) -> str:
    return letter.encode("unicode_escape").decode("ascii")


def harmless(line: str) -> str:
    """A line in which a build server finds no command of its own, as '::error::' at its start."""
    line = line.replace("##[", "\\x23#[")
    return line.replace(":", "\\x3a", 1) if line.lstrip().startswith("::") else line


def numbered(count: int, noun: str) -> str:
    """A count with its noun, as '1 site' and '2 sites'."""
    return f"{count} {noun}" if count == 1 else f"{count} {noun}s"
