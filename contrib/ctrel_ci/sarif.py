"""Findings in the Static Analysis Results Interchange Format, version 2.1.0 (OASIS standard)."""
import json
import pathlib
import urllib.parse

from .findings import RULES, Finding

SCHEMA = "https://docs.oasis-open.org/sarif/sarif/v2.1.0/errata01/os/schemas/sarif-schema-2.1.0.json"


def uri_of(path: str) -> str:
    """A path as a URI reference: from the root a whole one, else a relative one."""
    if path.startswith("/"):
        return pathlib.PurePosixPath(path).as_uri()
    return urllib.parse.quote(path.encode("utf-8", "surrogateescape"))


def location_of(finding: Finding) -> dict:
    physical = {"artifactLocation": {"uri": uri_of(finding.path())}}
    if finding.origin.line:
        physical["region"] = {"startLine": finding.origin.line}
    if finding.address is not None:
        physical["address"] = {"absoluteAddress": finding.address}
    location = {"physicalLocation": physical}
    if finding.origin.function:
        location["logicalLocations"] = [{"name": finding.origin.function, "kind": "function"}]
    return location


def result_of(finding: Finding) -> dict:
    return {
        "ruleId": finding.rule,
        "ruleIndex": list(RULES).index(finding.rule),
        "level": finding.level,
        "message": {"text": finding.message},
        "locations": [location_of(finding)],
    }


def sarif_text(findings: list[Finding]) -> str:
    rules = [{"id": key, "shortDescription": {"text": text}} for key, text in RULES.items()]
    run = {
        "tool": {"driver": {"name": "ctrel", "rules": rules}},
        "columnKind": "unicodeCodePoints",
        "results": [result_of(finding) for finding in findings],
    }
    return json.dumps({"$schema": SCHEMA, "version": "2.1.0", "runs": [run]}, indent=2) + "\n"
