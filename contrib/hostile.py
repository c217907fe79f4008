#!/usr/bin/env python3
"""Tries ctrel with refused memory, damaged input, many workers, and sizes at their limits.

CTREL may name the program; without it that of the launcher is tried. Ends with 0 where nothing was wrong.
"""
import argparse
import pathlib
import resource
import sys

sys.path.insert(0, str(pathlib.Path(__file__).resolve().parent))
sys.dont_write_bytecode = True

from ctrel_hostile.crew import try_crew
from ctrel_hostile.inputs import try_inputs
from ctrel_hostile.limits import try_limits
from ctrel_hostile.memory import MOST, try_memory
from ctrel_hostile.programs import find_program


def words() -> argparse.Namespace:
    parser = argparse.ArgumentParser(description=__doc__)
    kinds = parser.add_subparsers(dest="kind", required=True)
    memory = kinds.add_parser("memory", help="refuse each allocation of a few runs in turn (Linux, a C compiler)")
    memory.add_argument("--most", type=int, default=MOST, help=f"try at most so many of each run; {MOST} without it")
    inputs = kinds.add_parser("input", help="damage executables, policies, pairs and words")
    inputs.add_argument("seconds", type=float)
    inputs.add_argument("--jobs", type=int, default=1, help="how many runs at a time")
    inputs.add_argument("--keep", type=pathlib.Path, default=pathlib.Path("kept"), help="where inputs with a wrong answer go")
    inputs.add_argument("--seed", type=int, help="a number that says which inputs are made")
    crew = kinds.add_parser("crew", help="check by 2 to 16 workers")
    crew.add_argument("seconds", type=float)
    kinds.add_parser("limits", help="run each size at its limit once")
    return parser.parse_args()


def main() -> int:
    given = words()
    resource.setrlimit(resource.RLIMIT_CORE, (0, 0))
    program = find_program()
    if given.kind == "memory":
        wrong = try_memory(program, given.most)
    elif given.kind == "input":
        wrong = try_inputs(program, given.seconds, given.jobs, given.keep, given.seed)
    elif given.kind == "crew":
        wrong = try_crew(program, given.seconds)
    else:
        wrong = try_limits(program)
    return 0 if wrong == 0 else 1


if __name__ == "__main__":
    sys.exit(main())
