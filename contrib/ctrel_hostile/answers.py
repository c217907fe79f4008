"""What is right of an answer of ctrel, whatever it was given."""
import re

from ctrel_ci.lines import ADDRESS, NUMBER, FormError
from ctrel_ci.report import read_report
from ctrel_ci.trace import read_trace

from .programs import Ran

# The status of each refusal, and its line on standard error.
REFUSALS = {
    64: "words",
    65: "elf E(?:[1-9]|10|11 N|12 N N|13)",
    66: "policy P(?:[1-5]|6 N|7 N N|8|9|10)",
    67: "long",
    68: "pair line [1-5]",
    70: "memory",
    74: "read",
}
VERDICTS = {"secure": 0, "insecure": 1, "unknown": 2}
TOUCH = f"touch (?:-|(?:load|store) {ADDRESS}) next (?:-|{ADDRESS})"
DIFFER = f"differ step (?:{NUMBER}) site {ADDRESS}\nleft {TOUCH}\nright {TOUCH}\n"
LISTED = f"(?:{ADDRESS} [0-9a-f]{{8}} [ -~]+\n)*"
SUMMED = (
    f"gen (?:{NUMBER}) (?:{NUMBER}): (?:{NUMBER}) words, (?:{NUMBER}) sites, (?:{NUMBER}) places, "
    f"(?:{NUMBER}) doubts, (?:{NUMBER}) paths, (secure|insecure|unknown)\n"
)
# So many bytes of a list are looked at.
LOOKED_AT = 100_000


def status_of(command: str, text: bytes) -> int:
    """The status that goes with a text that a command wrote. A text of no such form raises FormError."""
    if command in ("check", "byte"):
        return VERDICTS[read_report(text).verdict]
    if command == "trace":
        read_trace(text)
        return 0
    if command == "list":
        front = text[: text.rfind(b"\n", 0, LOOKED_AT) + 1] if LOOKED_AT < len(text) else text
        found = re.fullmatch(LISTED, front.decode("ascii", "replace"))
        status = 0
    elif command == "replay":
        said = text.decode("ascii", "replace")
        found = re.fullmatch(f"agree steps (?:{NUMBER})\n|{DIFFER}", said)
        status = 0 if said.startswith("agree") else 1
    else:
        found = re.fullmatch(SUMMED, text.decode("ascii", "replace"))
        status = VERDICTS[found[1]] if found else None
    if found is None:
        raise FormError(f"what {command} wrote isn't in its form")
    return status


def fault_of_refusal(ran: Ran) -> str | None:
    """What is wrong with a refusal."""
    line = f"ctrel: {REFUSALS[ran.status]}\n".replace("N", f"(?:{NUMBER})")
    if ran.status == 64:
        line += "(?s:.*)Usage: (?s:.*)"
    if ran.out:
        return f"status {ran.status} with a text on standard output"
    if not re.fullmatch(line.encode(), ran.err):
        return f"status {ran.status} with another line on standard error"
    return None


def fault_of(command: str, ran: Ran) -> str | None:
    """What is wrong with an answer; nothing where all is right."""
    if ran.status is None:
        return "it hadn't ended in time"
    if ran.status < 0:
        return f"it ended by signal {-ran.status}"
    if ran.status in REFUSALS:
        return fault_of_refusal(ran)
    if ran.status not in VERDICTS.values():
        return f"status {ran.status}, which the program hasn't"
    if ran.err:
        return f"status {ran.status} with a line on standard error"
    try:
        wanted = status_of(command, ran.out)
    except FormError as error:
        return str(error)
    return None if ran.status == wanted else f"status {ran.status} with a text of status {wanted}"
