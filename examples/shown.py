#!/usr/bin/env python3
"""Runs the commands that the documents show, and compares what they write with what is shown.

In a document a block with the mark 'console' has commands, each after '$ ', with what
it writes below it. A block whose mark ends with a file's name is written to that file
first. All blocks of a section are run in one new folder that has the programs CTREL
and CTRACE as ctrel and ctrace, and copies of examples/ and contrib/. A section is
passed over from the first command on whose program isn't there, or is a compiler of
another version.
"""
import dataclasses
import os
import pathlib
import re
import shutil
import subprocess
import sys
import tempfile

TOP = pathlib.Path(__file__).resolve().parent.parent
DOCUMENTS = ("README.md", "docs/CI.md")
OUTPUTS = "crates/ctrel_examples"
BLOCK = re.compile(r"^```([^\n]+)\n(.*?)^```$", re.M | re.S)
SECONDS = re.compile(r" *[0-9]+\.[0-9]$", re.M)
MARK = "\0"
COMPILER = "riscv64-unknown-elf-gcc"
VERSION = "12.2.0"


@dataclasses.dataclass
class Command:
    """A command, and what is shown below it."""

    line: str
    shown: str


def commands_of(text: str) -> list[Command]:
    """The commands of a block. A line that ends with a backslash goes on in the next one."""
    commands = []
    goes_on = False
    for line in text.splitlines(keepends=True):
        if goes_on:
            commands[-1].line += line
        elif line.startswith("$ "):
            commands.append(Command(line[2:], ""))
        else:
            commands[-1].shown += line
        goes_on = line.endswith("\\\n") and (goes_on or line.startswith("$ "))
    return commands


def prepare(folder: pathlib.Path) -> None:
    for name in ("examples", "contrib"):
        shutil.copytree(TOP / name, folder / name)
    for name in ("ctrel", "ctrace"):
        (folder / name).symlink_to(os.environ[name.upper()])


def is_there(command: Command) -> bool:
    """Whether the command's program is there."""
    program = command.line.split()[0].lstrip("(")
    if program == COMPILER and shutil.which(COMPILER):
        return subprocess.run([COMPILER, "-dumpversion"], capture_output=True, text=True).stdout.strip() == VERSION
    return "/" in program or shutil.which(program) is not None


def written(commands: list[Command], folder: pathlib.Path) -> list[str]:
    """What each command writes, on the output and on standard error, in one shell."""
    script = "".join(f"status=$?; printf '\\000'; (exit $status)\n{command.line}" for command in commands)
    ran = subprocess.run(
        ["sh", "-c", script], cwd=folder, stdin=subprocess.DEVNULL, stdout=subprocess.PIPE, stderr=subprocess.STDOUT
    )
    return ran.stdout.decode("utf-8", "replace").split(MARK)[1:]


def without_seconds(text: str) -> str:
    return SECONDS.sub("-", text)


def differing(where: str, commands: list[Command], texts: list[str]) -> int:
    """How many commands write something else than is shown; each is named."""
    wrong = [
        (command, text)
        for command, text in zip(commands, texts)
        if without_seconds(command.shown) != without_seconds(text)
    ]
    for command, text in wrong:
        print(f"{where}: $ {command.line}--- writes\n{text}--- and this is shown\n{command.shown}")
    return len(wrong)


def commands_in(section: str) -> list[Command]:
    """The commands of a section's blocks, and those that write its files."""
    commands = []
    for mark, text in BLOCK.findall(section):
        if mark == "console":
            commands += commands_of(text)
        elif " " in mark:
            commands.append(Command(f"cat >{mark.split()[1]} <<'END'\n{text}END\n", ""))
    return commands


def check_section(name: str, section: str) -> tuple[int, int]:
    """How many commands of a section are run, and how many of them write something else."""
    commands = commands_in(section)
    missing = next((at for at, command in enumerate(commands) if not is_there(command)), len(commands))
    if missing < len(commands):
        print(f"{name}: passed over to the end of the section: {commands[missing].line}", end="")
    with tempfile.TemporaryDirectory() as folder:
        prepare(pathlib.Path(folder))
        return missing, differing(name, commands[:missing], written(commands[:missing], pathlib.Path(folder)))


def check_outputs() -> tuple[int, int]:
    """The same for what the gate compares of the examples, where it doesn't depend on passes."""
    text = (TOP / OUTPUTS / "stdout").read_text(encoding="utf-8")
    parts = [part.partition("\n") for part in re.split(r"^\$ ctrel ", text, flags=re.M)[1:]]
    commands = [
        Command(f"{os.environ['CTREL']} {line}; echo status $?\n", shown)
        for line, _, shown in parts
        if "#" not in line and not line.startswith("check")
    ]
    return len(commands), differing(OUTPUTS, commands, written(commands, TOP / OUTPUTS / "data"))


def main() -> int:
    sections = [
        (name, section) for name in DOCUMENTS for section in (TOP / name).read_text(encoding="utf-8").split("\n## ")
    ]
    results = [check_section(*section) for section in sections] + [check_outputs()]
    total, wrong = (sum(column) for column in zip(*results))
    print(f"documents: {total} commands run, {wrong} write something else than is shown")
    return 1 if wrong else 0


sys.exit(main())
