"""All checks as one HTML page, which needs no other file."""
from html import escape

from .checking import Outcome
from .findings import place_text
from .listing import Part, Word
from .report import Site
from .source import Origin, Sources
from .table import HEAD, origin_text, remarks_of, row_of, summary
from .texts import printable

STYLE = """
body { font-family: sans-serif; margin: 2em; }
table { border-collapse: collapse; }
td, th { padding: 0.1em 0.8em; text-align: left; vertical-align: top; }
.code td { font-family: monospace; white-space: pre; }
.site td { background: #fdd; }
.pair td { background: #fee; }
.wrong { color: #a00; }
b { color: #a00; }
"""


def shown(text: str) -> str:
    """A text as HTML."""
    return escape(printable(text))


def marked(bytes_text: str, other: str) -> str:
    """Bytes, those in bold that differ from the other's."""
    pairs = zip(two_by_two(bytes_text), two_by_two(other))
    return "".join(f"<b>{here}</b>" if here != there else here for here, there in pairs)


def two_by_two(text: str) -> list[str]:
    return [text[at : at + 2] for at in range(0, len(text), 2)]


def row(cells: list[str], kind: str = "", tag: str = "td") -> str:
    inner = "".join(f"<{tag}>{cell}</{tag}>" for cell in cells)
    mark = f' class="{kind}"' if kind else ""
    return f"<tr{mark}>{inner}</tr>\n"


def site_rows(site: Site, origin: Origin) -> str:
    """What is said of a site below its instruction: its source line, and the pair that differs."""
    lines = [f"{site.kind}, step {site.step}{origin_text(origin)}", origin.text()]
    rows = [row(["", "", shown(line)], "pair") for line in lines if line]
    for name, mine, other in (
        ("shared", site.shared, site.shared),
        ("left", site.left, site.right),
        ("right", site.right, site.left),
    ):
        rows.append(row(["", name, marked(mine, other)], "pair"))
    return "".join(rows)


def word_rows(word: Word, sites: dict[int, Site], sources: Sources) -> str:
    site = sites.get(word.address)
    cells = [f"0x{word.address:08x}", word.digits, shown(word.instruction)]
    below = site_rows(site, sources.origins[site.address]) if site else ""
    return row(cells, "site" if site else "") + below


def part_text(part: Part, sites: dict[int, Site], sources: Sources) -> str:
    rows = "".join(word_rows(word, sites, sources) for word in part.words)
    return f'<h3>{shown(part.name)}</h3>\n<table class="code">\n{rows}</table>\n'


def section_of(outcome: Outcome, sources: Sources, parts: list[Part]) -> str:
    report = outcome.report
    kind = "" if outcome.as_expected() else ' class="wrong"'
    remarks = [f"<p>{escape(line)}</p>\n" for line in remarks_of(outcome, sources)]
    places = [f"<p>{shown(place_text(place))}</p>\n" for place in (report.places if report else ())]
    sites = {site.address: site for site in (report.sites if report else ())}
    code = [part_text(part, sites, sources) for part in parts]
    return f"<h2{kind}>{shown(outcome.check.name)}: {outcome.verdict()}</h2>\n" + "".join(remarks + places + code)


def page_text(outcomes: list[Outcome], sources: list[Sources], parts: list[list[Part]]) -> str:
    head = row(list(map(escape, HEAD)), tag="th")
    rows = "".join(
        row(list(map(escape, row_of(outcome))), "" if outcome.as_expected() else "wrong") for outcome in outcomes
    )
    sections = "".join(map(section_of, outcomes, sources, parts))
    return (
        '<!DOCTYPE html>\n<html lang="en">\n<head>\n<meta charset="utf-8">\n<title>ctrel</title>\n'
        f"<style>{STYLE}</style>\n</head>\n<body>\n<h1>Checks</h1>\n<p>{escape(summary(outcomes))}</p>\n"
        f"<table>\n{head}{rows}</table>\n{sections}</body>\n</html>\n"
    )
