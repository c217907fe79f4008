"""Checks as the test cases of a JUnit report."""
from xml.etree import ElementTree

from .checking import Outcome
from .source import Sources
from .table import remarks_of
from .texts import printable


def add_case(suite: ElementTree.Element, outcome: Outcome, sources: Sources) -> None:
    case = ElementTree.SubElement(suite, "testcase")
    case.set("classname", "ctrel")
    case.set("name", printable(outcome.check.name))
    case.set("time", f"{outcome.seconds:.3f}")
    complaint = outcome.complaint()
    if complaint:
        bad = ElementTree.SubElement(case, "error" if outcome.error else "failure")
        bad.set("message", printable(complaint))
    remarks = remarks_of(outcome, sources)
    if remarks:
        ElementTree.SubElement(case, "system-out").text = "\n".join(remarks) + "\n"


def junit_text(outcomes: list[Outcome], sources: list[Sources]) -> str:
    errors = sum(outcome.error is not None for outcome in outcomes)
    failures = sum(not outcome.as_expected() for outcome in outcomes) - errors
    suites = ElementTree.Element("testsuites")
    suite = ElementTree.SubElement(suites, "testsuite", name="ctrel")
    suite.set("tests", str(len(outcomes)))
    suite.set("failures", str(failures))
    suite.set("errors", str(errors))
    suite.set("time", f"{sum(outcome.seconds for outcome in outcomes):.3f}")
    for outcome, known in zip(outcomes, sources):
        add_case(suite, outcome, known)
    ElementTree.indent(suites)
    return '<?xml version="1.0" encoding="UTF-8"?>\n' + ElementTree.tostring(suites, encoding="unicode") + "\n"
