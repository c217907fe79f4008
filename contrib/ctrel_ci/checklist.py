"""Lists of checks, as TOML documents."""
import os
import pathlib
import tomllib
from dataclasses import dataclass

from .report import VERDICTS

OPTIONS = ("bound", "budget", "targets", "workers")
NAMES = ("name", "binary", "policy", "expected")
USUAL_BOUND = 1000


class ListError(Exception):
    """A list can't be read, or says what none says."""


@dataclass(frozen=True)
class Check:
    """One routine: its files, the verdict that is expected, and the options of `check`."""

    name: str
    binary: str
    policy: str
    expected: str
    options: tuple[tuple[str, int], ...]
    seconds: int | None

    def words(self) -> list[str]:
        return [self.binary, self.policy, *(word for key, value in self.options for word in (f"--{key}", str(value)))]

    def bound(self) -> int | None:
        """The bound that is asked for; nothing where the policy's can't be read here."""
        given = dict(self.options).get("bound")
        return policy_bound(self.policy) if given is None else given

    def with_bound(self, bound: int) -> "Check":
        options = tuple(pair for pair in self.options if pair[0] != "bound") + (("bound", bound),)
        return Check(self.name, self.binary, self.policy, self.expected, options, self.seconds)


def policy_bound(policy: str) -> int | None:
    try:
        document = tomllib.loads(pathlib.Path(policy).read_text(encoding="utf-8"))
    except (OSError, ValueError):
        return None
    bound = document.get("bound", USUAL_BOUND)
    return bound if is_count(bound) else None


def is_count(value: object) -> bool:
    return isinstance(value, int) and not isinstance(value, bool) and value >= 0


def is_name(value: object) -> bool:
    return isinstance(value, str) and value != "" and "\0" not in value


def read_check(folder: pathlib.Path, number: int, row: object) -> Check:
    """The check of a row of a list; its files are named from the list's folder."""
    where = f"check {number}"
    if not isinstance(row, dict):
        raise ListError(f"{where}: no table")
    for key, value in row.items():
        if key not in (*NAMES, *OPTIONS, "seconds"):
            raise ListError(f"{where}: the key {key!r} is unknown")
        if not (is_name(value) if key in NAMES else is_count(value)):
            raise ListError(f"{where}: the value of {key} has another type or is empty")
    for key in ("binary", "policy", "expected"):
        if key not in row:
            raise ListError(f"{where}: the key {key} is missing")
    if row["expected"] not in VERDICTS:
        raise ListError(f"{where}: expected is none of {', '.join(VERDICTS)}")
    options = tuple((key, row[key]) for key in OPTIONS if key in row)
    binary, policy = (os.path.join(folder, row[key]) for key in ("binary", "policy"))
    name = row.get("name", pathlib.Path(row["policy"]).stem)
    return Check(name, binary, policy, row["expected"], options, row.get("seconds"))


def read_list(path: str) -> list[Check]:
    """The checks of a list, whose names differ from one another."""
    try:
        document = tomllib.loads(pathlib.Path(path).read_text(encoding="utf-8"))
    except OSError as error:
        raise ListError(error.strerror) from None
    except ValueError as error:
        raise ListError(f"no TOML document: {error}") from None
    rows = document.pop("check", None)
    if document or not isinstance(rows, list) or not rows:
        raise ListError("a list has rows [[check]] and nothing else")
    folder = pathlib.Path(path).absolute().parent
    checks = [read_check(folder, number, row) for number, row in enumerate(rows, 1)]
    names = [check.name for check in checks]
    for name in names:
        if names.count(name) > 1:
            raise ListError(f"two checks have the name {name!r}")
    return checks
