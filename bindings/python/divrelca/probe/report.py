"""Reports as text."""

from .. import message_name
from .judgement import WORDS
from .run import rank


def grouped(report):
    """The findings that are alike, as lists of verdicts, the worst first: messages by level, reason and answer, special probes one by
    one."""
    groups = {}
    for it in report.verdicts:
        if rank(it.level) >= rank("should"):
            key = (it.level, it.why, it.got) if it.probe.group == "messages" else (it.level, it.probe.group, it.probe.name)
            groups.setdefault(key, []).append(it)
    return sorted(groups.values(), key=lambda group: -rank(group[0].level))


def what(group):
    """What a group of findings is about."""
    first = group[0].probe
    if first.group != "messages":
        return f"{first.group}: {first.name} ({first.state})"
    found = sorted({int(it.probe.name.split()[0]) for it in group})
    states = dict.fromkeys(it.probe.state for it in group)
    return f"{'messages' if len(found) > 1 else 'message'} {', '.join(map(str, found))} in {', '.join(states)}"


def counted(report):
    """One line about all probes."""
    session = "strict key exchange" if report.session == "strict" else "no strict key exchange"
    counts = ", ".join(f"{count} {level}" for level, count in report.counts.items())
    return f"{len(report.verdicts)} probes, {session}: {counts}"


def text(report):
    """The findings, and a line about all."""
    lines = []
    for group in grouped(report):
        it = group[0]
        answer = f"{it.got} ({it.result.note})" if it.result.note else it.got
        unsteady = "" if all(one.steady for one in group) else " (not each time)"
        lines.append(f"{it.level:8}{what(group)}: {answer}; the proved end: {it.wanted}. {it.rule}{unsteady}")
    skipped = {it.result.why for it in report.verdicts if it.level == "untried"}
    lines += [f"skipped  {why}" for why in sorted(skipped)]
    return "\n".join([*lines, counted(report)]) + "\n"


def row(line):
    """A row of a transcript in words."""
    direction, number, sealed, payload, changes = line
    name = f"{payload[0]} {message_name(payload[0])}" if payload else "no payload"
    return f"{direction} {number} {'sealed' if sealed else 'clear'} {name}, {len(payload)} bytes {changes}".strip()


def both(verdict):
    """The transcripts of the peer and of the proved end, row by row."""
    here, there = ([row(it) for it in end.transcript] for end in (verdict.result, verdict.oracle))
    here.append(verdict.got)
    there.append(verdict.wanted)
    size = max(len(here), len(there))
    return list(zip(here + [""] * (size - len(here)), there + [""] * (size - len(there))))


def show(report):
    """Each probe with both transcripts side by side."""
    lines = []
    for it in report.verdicts:
        lines.append(f"{it.probe.title}    {it.section}")
        lines.append(f"  {it.level}: {WORDS[it.level]}. {it.why}".rstrip())
        width = max(len(left) for left, _ in both(it))
        lines += [f"    {left:{width}} | {right}".rstrip() for left, right in both(it)]
    return "\n".join(lines) + "\n"


def listing(role):
    """All probes of a role, a line each."""
    return "".join(f"{role.name} | {it.group} | {it.title}\n" for it in role.probes())
