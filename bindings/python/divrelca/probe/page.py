"""The report as one page of HTML, without scripts: findings, and a matrix of states and messages. What a cell means is told by colour and
by a mark."""

import html
import pathlib

from .judgement import LEVELS, WORDS
from .report import both, grouped, what

ALL = [*LEVELS, "untried"]
MARKS = {"equal": "", "allowed": "~", "should": "s", "must": "M", "guard": "G!", "breach": "!!", "untried": "?"}
STYLE = (pathlib.Path(__file__).parent / "page.css").read_text()
STYLE += "".join(f".{level} {{ background: var(--{level}); }}\n" for level in ALL)


def escaped(text):
    """Text of a peer in a page: what is not printable is shown by a mark."""
    return html.escape("".join(it if it.isprintable() else "\ufffd" for it in str(text)))


def badge(level, count=""):
    mark = f"{MARKS[level]} " if MARKS[level] else ""
    return f'<span class="b {level}">{mark}{count} {escaped(WORDS[level])}</span>'


def place(verdict, places):
    """The name of the part of the page that has both transcripts."""
    return f"p{places[id(verdict)]}"


def findings(report, places):
    """A row for findings that are alike."""
    lines = ['<table class="findings"><thead><tr><th>level<th>what<th>answer<th>proved end<th>rule</tr></thead><tbody>']
    for group in grouped(report):
        it = group[0]
        steady = "" if all(one.steady for one in group) else " <small>(not each time)</small>"
        answer = f"{escaped(it.got)} <small>{escaped(it.result.note)}</small>{steady}"
        rule = escaped(it.rule)
        lines.append(
            f'<tr><td><span class="b {it.level}">{MARKS[it.level]} {it.level}</span>'
            f'<td><a href="#{place(it, places)}">{escaped(what(group))}</a>'
            f'<td data-is="answer">{answer}<td data-is="proved end">{escaped(it.wanted)}<td data-is="rule">{rule}</tr>'
        )
    return "\n".join([*lines, "</tbody></table>"]) if len(lines) > 1 else "<p>None.</p>"


def answer_mark(verdict):
    """What the peer did, in a character or a number, beside the mark of the level."""
    got = verdict.got
    if verdict.level == "untried":
        return ""
    if got.startswith("ended"):
        return "\u00d7"
    if got.startswith(("silent", "broke")):
        return "\u2026"
    sent = got.partition("sends ")[2].split()
    return "u" if "3" in sent else sent[0] if sent else "\u00b7"


def cell(verdict, places):
    if verdict is None:
        return '<td class="soft">due'
    title = f"{verdict.probe.name} in {verdict.probe.state}: {verdict.got}; the proved end: {verdict.wanted}. {verdict.rule}"
    words = f"{answer_mark(verdict)} <b>{MARKS[verdict.level]}</b>" if MARKS[verdict.level] else answer_mark(verdict)
    return f'<td class="{verdict.level}"><a href="#{place(verdict, places)}" title="{escaped(title)}">{words or "&nbsp;"}</a>'


def matrix(report, places):
    cells = {(it.probe.state, it.probe.name): it for it in report.verdicts if it.probe.group == "messages"}
    messages = [it.name for it in report.role.messages if any(name == it.name for _, name in cells)]
    heads = "".join(f'<th title="{escaped(state.words)}">{escaped(state.name)}' for state in report.role.states)
    lines = [f'<div class="scroll"><table class="matrix"><thead><tr><th>{heads}</tr></thead><tbody>']
    for name in messages:
        row = "".join(cell(cells.get((state.name, name)), places) for state in report.role.states)
        lines.append(f"<tr><th>{escaped(name)}{row}</tr>")
    return "\n".join([*lines, "</tbody></table></div>"])


KEY = """<p class="soft">In a cell: \u00d7 ends the session, \u00b7 goes on without an answer, u answers UNIMPLEMENTED,
a number is the message that answers, \u2026 neither answers nor ends, <i>due</i> the message that is due.
Then the mark of the level. A cell leads to both transcripts.</p>"""


def transcripts(report, places):
    """Both transcripts of every probe, folded."""
    lines = []
    for it in report.verdicts:
        mark = f"{MARKS[it.level]} " if MARKS[it.level] else ""
        rows = "".join(f"<tr><td>{escaped(left)}<td>{escaped(right)}</tr>" for left, right in both(it))
        lines.append(
            f'<details id="{place(it, places)}"><summary><span class="b {it.level}">{mark}{it.level}</span> {escaped(it.probe.title)} '
            f"<small>{escaped(it.rule)}</small></summary>"
            f'<div class="scroll"><table class="both"><tr><td>the peer<td>the proved end</tr>{rows}</table></div></details>'
        )
    return "\n".join(lines)


def as_html(report):
    """The whole page."""
    places = {id(it): number for number, it in enumerate(report.verdicts)}
    session = "strict key exchange" if report.session == "strict" else "no strict key exchange"
    title = f"{escaped(report.title)}: what it takes in which state"
    badges = " ".join(badge(level, count) for level, count in report.counts.items())
    return (
        f'<!doctype html>\n<html lang="en"><head><meta charset="utf-8"><meta name="viewport" content="width=device-width, initial-scale=1">'
        f"<title>{title}</title><style>{STYLE}</style></head><body>\n<h1>{title}</h1>\n"
        f"<p>{len(report.verdicts)} probes beside a proved {report.role.name}; {session}; worst: {escaped(WORDS[report.worst])}.</p>"
        f"<p>{badges}</p>\n"
        f"<h2>Findings</h2>\n{findings(report, places)}\n<h2>Every message in every state</h2>\n{matrix(report, places)}\n{KEY}\n"
        f"<h2>Every probe, with both transcripts</h2>\n{transcripts(report, places)}\n</body></html>\n"
    )



