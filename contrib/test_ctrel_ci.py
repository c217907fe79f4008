#!/usr/bin/env python3
"""Tests of ctrel-ci over stand-in programs, and over the examples where the programs are there."""
import contextlib
import io
import json
import os
import pathlib
import re
import stat
import sys
import tempfile
import time
import tomllib
import unittest
from html.parser import HTMLParser
from xml.etree import ElementTree

sys.dont_write_bytecode = True
HERE = pathlib.Path(__file__).resolve().parent
TOP = HERE.parent
sys.path.insert(0, str(HERE))

from ctrel_ci.lines import FormError
from ctrel_ci.program import main
from ctrel_ci.programs import run
from ctrel_ci.report import read_report
from ctrel_ci.trace import read_trace

SECURE = "ctrel report 1\nverdict secure\nbound 1000\npaths 1\ndoubts 0\nsites 0\nplaces 0\n"
SITE = "site 0x0001000c step 4 load lbu a0, 0(a5)\nshared -\nleft 01\nright 00\n"
INSECURE = SECURE.replace("secure", "insecure").replace("sites 0\n", "sites 1\n" + SITE)
OVER = "place over 0x00010000 after 0 seen 0x00000004 turns -\n"
NEXT = "place next 0x00010000 after 2 lines 7 explored - turns 01(00010000)\n"
UNKNOWN = SECURE.replace("secure", "unknown").replace("places 0\n", "places 2\n" + OVER + NEXT)
STEP = "step 1 pc 0x0001000c touch load 0x00020000 next -\n"
HOSTILE = "<script>alert('a')</script> \"b\" & 100%,:\x1b[31m\n::error::c"


def toml_text(text: str) -> str:
    return json.dumps(text)


class Folder(unittest.TestCase):
    """A new folder with stand-ins for ctrel and ctrace, and a list of checks."""

    def setUp(self):
        place = tempfile.TemporaryDirectory()
        self.addCleanup(place.cleanup)
        self.folder = pathlib.Path(place.name)
        self.stand_in("ctrel", INSECURE, 1)
        self.stand_in("ctrace", STEP + "end stop\n", 0)

    def stand_in(self, name: str, out: str, status: int, first: str = "") -> None:
        """A program that writes this and ends so; without words it ends as one that refuses them."""
        (self.folder / f"{name}.out").write_text(out)
        program = self.folder / name
        program.write_text(
            f'#!/bin/sh\n[ $# -eq 0 ] && exit 64\n[ "$1" = list ] && exit 0\n{first}\n'
            f"cat {self.folder}/{name}.out\nexit {status}\n"
        )
        program.chmod(program.stat().st_mode | stat.S_IXUSR)

    def run_list(self, *rows: str, words: tuple[str, ...] = ()) -> tuple[int, str]:
        """The status, and what is written on the output and on standard error."""
        (self.folder / "list.toml").write_text("".join(f"[[check]]\n{row}\n" for row in rows))
        programs = ("--ctrel", str(self.folder / "ctrel"), "--ctrace", str(self.folder / "ctrace"))
        written = io.TextIOWrapper(io.BytesIO(), encoding="utf-8")
        with contextlib.redirect_stdout(written), contextlib.redirect_stderr(written):
            status = main([*programs, *words, str(self.folder / "list.toml")])
        written.flush()
        return status, written.buffer.getvalue().decode()

    def row(self, expected: str, name: str = "routine") -> str:
        return f'name = {toml_text(name)}\nbinary = "a.elf"\npolicy = "a.toml"\nexpected = "{expected}"'


class Forms(unittest.TestCase):
    def test_reports_are_read_strictly(self):
        self.assertEqual(read_report(SECURE.encode()).verdict, "secure")
        self.assertEqual(read_report(INSECURE.encode()).sites[0].instruction, "lbu a0, 0(a5)")
        self.assertEqual([place.cause for place in read_report(UNKNOWN.encode()).places], ["over", "next"])
        for wrong in (
            "",
            SECURE[:-1],
            SECURE + "\n",
            SECURE.replace("report 1", "report 2"),
            SECURE.replace("secure", "insecure"),
            SECURE.replace("1000", "01000"),
            SECURE.replace("paths 1\n", ""),
            INSECURE.replace("sites 1", "sites 2"),
            INSECURE.replace("left 01", "left 0101"),
            INSECURE.replace("left 01", "left 1"),
            INSECURE.replace("load", "call"),
            INSECURE.replace("sites 1\n" + SITE, "sites 2\n" + SITE + SITE),
            UNKNOWN.replace("over", "leak"),
            UNKNOWN.replace("turns -", "turns 2"),
            UNKNOWN + "é",
        ):
            with self.subTest(wrong), self.assertRaises(FormError):
                read_report(wrong.encode())

    def test_reports_that_the_gate_compares_are_read(self):
        text = (TOP / "crates/ctrel_examples/stdout").read_text()
        reports = re.findall(r"^(ctrel report 1\n(?:.*\n)*?places .*\n(?:place .*\n)*)status", text, re.M)
        self.assertEqual({read_report(report.encode()).verdict for report in reports}, {"secure", "insecure", "unknown"})

    def test_traces_are_read_strictly(self):
        trace = read_trace((STEP + "end fault\n").encode())
        self.assertEqual((trace.entry, trace.steps, trace.ending), (0x1000C, 1, "fault"))
        self.assertEqual(trace.ending_within(0), "bound")
        for wrong in ("", "end\n", STEP, "end stop\n" + STEP, STEP.replace("1", "2", 1) + "end stop\n"):
            with self.subTest(wrong), self.assertRaises(FormError):
                read_trace(wrong.encode())


class Statuses(Folder):
    def test_as_expected(self):
        status, text = self.run_list(self.row("insecure"))
        self.assertEqual(status, 0, text)
        self.assertIn("1 check, 0 not as expected", text)

    def test_not_as_expected(self):
        status, text = self.run_list(self.row("secure"), self.row("insecure", "other"))
        self.assertEqual(status, 1, text)
        self.assertIn("routine: not as expected: secure was expected, and insecure was found", text)

    def test_errors(self):
        self.stand_in("ctrel", "", 66, "echo 'ctrel: policy P6 1' >&2")
        self.assertEqual(self.run_list(self.row("secure"))[0], 2)
        self.assertIn("ctrel: policy P6 1", self.run_list(self.row("secure"))[1])
        for out, end in ((SECURE, 1), (INSECURE, 0), (SECURE[:-1], 0), (SECURE, -9 & 255)):
            self.stand_in("ctrel", out, end)
            self.assertEqual(self.run_list(self.row("secure"))[0], 2, (out, end))

    def test_wrong_lists(self):
        for wrong in ("", 'binary = "a"', self.row("safe"), self.row("secure") + "\nbound = -1", self.row("secure") + "\nx = 1"):
            with self.subTest(wrong):
                self.assertEqual(self.run_list(wrong)[0], 2)
        self.assertEqual(self.run_list(self.row("secure"), self.row("secure"))[0], 2)

    def test_a_missing_program(self):
        (self.folder / "ctrace").unlink()
        self.assertEqual(self.run_list(self.row("secure"))[0], 2)


class Warnings(Folder):
    def test_secure_that_ends_early(self):
        self.stand_in("ctrel", SECURE, 0)
        for ending in ("fault", "illegal", "fetch", "bound"):
            self.stand_in("ctrace", STEP + f"end {ending}\n", 0)
            status, text = self.run_list(self.row("secure"))
            self.assertEqual(status, 0)
            self.assertIn("routine: warning: secure leaves out what comes later", text)

    def test_secure_that_ends_as_it_should(self):
        self.stand_in("ctrel", SECURE, 0)
        self.assertNotIn("warning", self.run_list(self.row("secure"))[1])

    def test_secure_whose_run_is_not_known(self):
        self.stand_in("ctrel", SECURE, 0)
        self.stand_in("ctrace", STEP + "end stop\n", 0, "sleep 60")
        self.assertIn("warning: how the run", self.run_list(self.row("secure"), words=("--seconds", "1"))[1])

    def test_insecure(self):
        self.stand_in("ctrace", STEP + "end fault\n", 0)
        self.assertNotIn("warning", self.run_list(self.row("insecure"))[1])


class TimeLimits(Folder):
    def setUp(self):
        super().setUp()
        (self.folder / "a.toml").write_text("format = 1\nbound = 5000\n")

    def stand_in_that_sleeps(self, out: str, status: int) -> None:
        """A program that answers at once for --bound, and else not within a minute."""
        below = f'[ "$4" = --bound ] && sed "s/^bound .*/bound $5/" {self.folder}/ctrel.out && exit {status}'
        self.stand_in("ctrel", out, status, f"{below}\nsleep 60")

    def test_a_smaller_bound_answers(self):
        self.stand_in_that_sleeps(INSECURE, 1)
        began = time.monotonic()
        status, text = self.run_list(self.row("insecure"), words=("--seconds", "1"))
        self.assertEqual(status, 0, text)
        self.assertIn("10 of 5000", text)
        self.assertLess(time.monotonic() - began, 30)

    def test_secure_below_the_bound_is_not_enough(self):
        self.stand_in_that_sleeps(SECURE, 0)
        status, text = self.run_list(self.row("secure"), words=("--seconds", "1"))
        self.assertEqual(status, 1, text)
        self.assertIn("3000 of 5000", text)
        self.assertIn("didn't end in its time", text)

    def test_nothing_in_time(self):
        self.stand_in("ctrel", SECURE, 0, "sleep 60")
        status, text = self.run_list(self.row("secure") + "\nseconds = 1")
        self.assertEqual(status, 1, text)
        self.assertIn("no verdict was found", text)


class Page(HTMLParser):
    """The tags of a page, and the files that it asks for."""

    def __init__(self, text: str):
        super().__init__()
        self.tags, self.asked = set(), []
        self.feed(text)

    def handle_starttag(self, tag, attributes):
        self.tags.add(tag)
        self.asked += [value for key, value in attributes if key in ("src", "href", "srcset", "data")]


class Written(Folder):
    """The written forms, with a name that would break each of them."""

    def setUp(self):
        super().setUp()
        names = ("sarif", "junit", "html")
        files = {name: self.folder / f"out.{name}" for name in names}
        words = [word for name in names for word in (f"--{name}", str(files[name]))]
        status, self.text = self.run_list(self.row("secure", HOSTILE), words=(*words, "--github"))
        self.assertEqual(status, 1, self.text)
        self.files = {name: file.read_text() for name, file in files.items()}

    def test_sarif_has_what_the_standard_requires(self):
        log = json.loads(self.files["sarif"])
        self.assertEqual(log["version"], "2.1.0")
        for run in log["runs"]:
            rules = [rule["id"] for rule in run["tool"]["driver"]["rules"]]
            self.assertTrue(run["tool"]["driver"]["name"])
            self.assertEqual(len(run["results"]), 2)
            for result in run["results"]:
                self.assertEqual(rules[result["ruleIndex"]], result["ruleId"])
                self.assertTrue(result["message"]["text"])
                self.assertIn(result["level"], ("none", "note", "warning", "error"))
                for location in result["locations"]:
                    self.assertRegex(location["physicalLocation"]["artifactLocation"]["uri"], r"^[!-~]+$")
        addresses = [result["locations"][0]["physicalLocation"].get("address") for result in log["runs"][0]["results"]]
        self.assertIn({"absoluteAddress": 0x1000C}, addresses)

    def test_junit(self):
        suite = ElementTree.fromstring(self.files["junit"]).find("testsuite")
        self.assertEqual((suite.get("tests"), suite.get("failures"), suite.get("errors")), ("1", "1", "0"))
        case = suite.find("testcase")
        self.assertIn("<script>", case.get("name"))
        self.assertIn("secure was expected", case.find("failure").get("message"))
        self.assertIn("lbu a0, 0(a5)", case.find("system-out").text)

    def test_annotations_stand_on_lines_of_their_own(self):
        lines = [line for line in self.text.splitlines() if line.startswith("::")]
        self.assertEqual(len(lines), 2)
        for line in lines:
            self.assertRegex(line, r"^::error file=[^,:]+,title=[^,:]+::.*100%25,")
        self.assertNotIn("\x1b", self.text)

    def test_no_name_is_a_command_of_the_build_server(self):
        status, text = self.run_list(self.row("insecure", "::error::a"), self.row("insecure", "##[error]b"))
        self.assertEqual(status, 0, text)
        for line in text.splitlines():
            self.assertFalse(line.lstrip().startswith("::") or "##[" in line, line)

    def test_the_page_is_escaped_and_needs_no_other_file(self):
        page = Page(self.files["html"])
        self.assertNotIn("script", page.tags)
        self.assertEqual(page.asked, [])
        for word in ("http", "@import", "url(", "\x1b"):
            self.assertNotIn(word, self.files["html"])
        self.assertIn("&lt;script&gt;", self.files["html"])


def built(name: str) -> str | None:
    """The program: by its variable, else the proved one, else the unproved one."""
    places = (os.environ.get(name.upper(), ""), TOP / f"crates/{name}/out/{name}", TOP / f"out/{name}-unproved")
    return next((str(place) for place in places if os.access(place, os.X_OK)), None)


@unittest.skipUnless(built("ctrel") and built("ctrace"), "no ctrel and ctrace are built")
class Examples(unittest.TestCase):
    def test_quick_ones(self):
        with tempfile.TemporaryDirectory() as place:
            quick = ("compare_fault", "compare_late", "decode_table", "mask_global")
            rows = tomllib.loads((TOP / "examples/checks.toml").read_text())["check"]
            path = pathlib.Path(place, "list.toml")
            path.write_text(
                "".join(
                    f'[[check]]\nexpected = "{row["expected"]}"\n'
                    + "".join(f"{key} = {toml_text(str(TOP / 'examples' / row[key]))}\n" for key in ("binary", "policy"))
                    for row in rows
                    if row["binary"].removesuffix(".elf") in quick
                )
            )
            written = io.TextIOWrapper(io.BytesIO(), encoding="utf-8")
            page = pathlib.Path(place, "page.html")
            with contextlib.redirect_stdout(written):
                status = main(["--ctrel", built("ctrel"), "--ctrace", built("ctrace"), "--html", str(page), str(path)])
            written.flush()
            text = written.buffer.getvalue().decode()
            self.assertEqual(status, 0, text)
            self.assertIn("compare_fault: warning", text)
            self.assertIn("in compare_bytes", text)
            self.assertIn("<td>beq a0, a1, 0x00010034</td>", page.read_text())

    def test_ctrel_refuses_what_the_schema_refuses(self):
        with tempfile.TemporaryDirectory() as place:
            policy = pathlib.Path(place, "policy.toml")
            for wrong in WRONG:
                policy.write_text(wrong)
                ran = run([built("ctrel"), "check", str(TOP / "examples/decode_table.elf"), str(policy)], 60)
                self.assertEqual(ran.status, 66, wrong)


SCHEMA = json.loads((TOP / "docs/policy.schema.json").read_text())
TYPES = {"object": dict, "array": list, "string": str, "integer": int}
CHECKED = {
    "$ref": lambda schema, value: fits(SCHEMA["$defs"][schema.removeprefix("#/$defs/")], value),
    "type": lambda name, value: isinstance(value, TYPES[name]) and not isinstance(value, bool),
    "const": lambda wanted, value: value == wanted and not isinstance(value, bool),
    "enum": lambda wanted, value: value in wanted,
    "minimum": lambda least, value: not isinstance(value, int) or value >= least,
    "maximum": lambda most, value: not isinstance(value, int) or value <= most,
    "anyOf": lambda schemas, value: any(fits(schema, value) for schema in schemas),
    "allOf": lambda schemas, value: all(fits(schema, value) for schema in schemas),
    "not": lambda schema, value: not fits(schema, value),
    "required": lambda keys, value: not isinstance(value, dict) or all(key in value for key in keys),
    "maxItems": lambda most, value: not isinstance(value, list) or len(value) <= most,
    "items": lambda schema, value: not isinstance(value, list) or all(fits(schema, item) for item in value),
    "propertyNames": lambda schema, value: not isinstance(value, dict) or all(fits(schema, key) for key in value),
    "properties": lambda schemas, value: not isinstance(value, dict)
    or all(fits(schemas[key], value[key]) for key in schemas.keys() & value.keys()),
}
SAID_ONLY = ("$schema", "$defs", "title", "description", "default", "additionalProperties")


def fits(schema: dict, value: object) -> bool:
    """Whether a value is as a schema says, by the keywords that the policy's schema uses."""
    if isinstance(value, dict) and "additionalProperties" in schema:
        more = schema["additionalProperties"]
        rest = value.keys() - schema.get("properties", {}).keys()
        if rest and (more is False or not all(fits(more, value[key]) for key in rest)):
            return False
    return all(CHECKED[key](schema[key], value) for key in schema if key not in SAID_ONLY)


WRONG = (
    "",
    "format = 2",
    "format = true",
    "format = 1\nsecret = 1",
    "format = 1\nbound = 0",
    "format = 1\nbound = 100001",
    "format = 1\nbound = 1.5",
    "format = 1\nentry = -1",
    "format = 1\nentry = 4294967296",
    "format = 1\nentry = []",
    "format = 1\nstop = 0",
    f"format = 1\nstop = {[0] * 65}",
    "format = 1\n[registers]\nx0 = 0",
    "format = 1\n[registers]\nA0 = 0",
    "format = 1\n[registers]\nsp = 1\nx2 = 1",
    "format = 1\n[[memory]]\nat = 0",
    "format = 1\n[[memory]]\nat = 0\nlength = 0",
    "format = 1\n[[input]]\nregister = 'a0'",
    "format = 1\n[[input]]\nregister = 'a0'\nbytes = 5\nkind = 'secret'",
    "format = 1\n[[input]]\nregister = 'a0'\nlength = 1\nkind = 'secret'",
    "format = 1\n[[input]]\nat = 0\nlength = 4097\nkind = 'secret'",
    "format = 1\n[[input]]\nat = 0\nlength = 1\nkind = 'private'",
)


class Schema(unittest.TestCase):
    def checkers(self):
        yield fits
        with contextlib.suppress(ImportError):
            import jsonschema

            jsonschema.Draft202012Validator.check_schema(SCHEMA)
            validator = jsonschema.Draft202012Validator(SCHEMA)
            yield lambda _, value: validator.is_valid(value)

    def test_policies(self):
        policies = [path for path in (TOP / "examples").glob("*.toml") if path.name != "checks.toml"]
        self.assertGreater(len(policies), 10)
        for checks in self.checkers():
            for path in policies:
                self.assertTrue(checks(SCHEMA, tomllib.loads(path.read_text())), path)
            for wrong in WRONG:
                self.assertFalse(checks(SCHEMA, tomllib.loads(wrong)), wrong)


if __name__ == "__main__":
    unittest.main()
