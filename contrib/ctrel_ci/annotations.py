"""Findings as annotations: lines that a GitHub workflow shows beside the source."""
from .findings import RULES, Finding
from .texts import harmless, printable

COMMANDS = {"error": "error", "warning": "warning", "note": "notice"}


def escaped(text: str, more: str = "") -> str:
    """The text with the letters spelled by their codes that would end it."""
    return "".join(f"%{ord(letter):02X}" if letter in "%\r\n" + more else letter for letter in text)


def annotation_of(finding: Finding) -> str:
    line = {"line": str(finding.origin.line)} if finding.origin.line else {}
    keys = {"file": printable(finding.path()), **line, "title": f"ctrel: {RULES[finding.rule]}"}
    properties = ",".join(f"{key}={escaped(value, ':,')}" for key, value in keys.items())
    return f"::{COMMANDS[finding.level]} {properties}::{escaped(harmless(finding.message))}\n"


def annotations_text(findings: list[Finding]) -> str:
    return "".join(map(annotation_of, findings))
