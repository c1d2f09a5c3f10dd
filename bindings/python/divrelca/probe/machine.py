"""Reports for programs: JSON and JUnit."""

import json
import xml.sax.saxutils

from .judgement import LEVELS
from .report import both, counted
from .run import rank

SCHEMA = {
    "$schema": "https://json-schema.org/draft/2020-12/schema",
    "title": "A report of divrelca.probe",
    "type": "object",
    "required": ["schema", "peer", "role", "session", "counts", "probes"],
    "properties": {
        "schema": {"const": 1},
        "peer": {"type": "string"},
        "role": {"enum": ["server", "client"]},
        "session": {"enum": ["strict", "plain"]},
        "counts": {"type": "object", "additionalProperties": {"type": "integer"}},
        "probes": {
            "type": "array",
            "items": {
                "type": "object",
                "required": ["group", "state", "name", "level", "section", "why", "got", "wanted", "transcript"],
                "properties": {
                    "group": {"type": "string"},
                    "state": {"type": "string"},
                    "name": {"type": "string"},
                    "level": {"enum": [*LEVELS, "untried"]},
                    "differs": {"type": "string"},
                    "section": {"type": "string"},
                    "why": {"type": "string"},
                    "got": {"type": "string"},
                    "wanted": {"type": "string"},
                    "note": {"type": "string"},
                    "steady": {"type": "boolean"},
                    "transcript": {"type": "array", "items": {"type": "array", "items": {"type": "string"}, "minItems": 2, "maxItems": 2}},
                },
            },
        },
    },
}


def as_object(verdict):
    probe = verdict.probe
    fields = ("level", "differs", "section", "why", "got", "wanted", "steady")
    named = {"group": probe.group, "state": probe.state, "name": probe.name}
    named.update({it: getattr(verdict, it) for it in fields})
    return {**named, "note": verdict.result.note, "transcript": [list(it) for it in both(verdict)]}


def as_json(report):
    """An object of the form of SCHEMA."""
    head = {"schema": 1, "peer": report.title, "role": report.role.name, "session": report.session, "counts": report.counts}
    return json.dumps({**head, "probes": [as_object(it) for it in report.verdicts]}, indent=1) + "\n"


def as_junit(report, fail_on):
    """A suite with a case for each probe. A finding at or above the level is a failure, and so much as was not tried is skipped."""
    quoted, escaped = xml.sax.saxutils.quoteattr, xml.sax.saxutils.escape
    failed = [it for it in report.verdicts if rank(it.level) >= rank(fail_on)]
    skipped = report.counts.get("untried", 0)
    lines = ['<?xml version="1.0" encoding="UTF-8"?>']
    lines.append(f'<testsuite name={quoted(report.title)} tests="{len(report.verdicts)}" failures="{len(failed)}" skipped="{skipped}">')
    for it in report.verdicts:
        where = f"{report.role.name}.{it.probe.group}.{it.probe.state}"
        lines.append(f'<testcase classname={quoted(where)} name={quoted(it.probe.name)} time="{it.result.seconds:.3f}">')
        if it in failed:
            body = "\n".join(f"{left} | {right}" for left, right in both(it))
            lines.append(f"<failure type={quoted(it.level)} message={quoted(it.rule)}>{escaped(body)}</failure>")
        elif it.level == "untried":
            lines.append(f"<skipped message={quoted(it.why)}/>")
        lines.append("</testcase>")
    lines += [f"<system-out>{escaped(counted(report))}</system-out>", "</testsuite>"]
    return "\n".join(lines) + "\n"
