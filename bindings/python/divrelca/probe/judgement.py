"""What a difference means. Nothing is decided here: a difference is looked up in `judgement.tsv`, whose rows are the judgement of the
authors with the section of the standard, and in the table of the points in which the proved ends are stricter than the standards,
docs/stricter.tsv. The first row that fits counts.

The columns of `judgement.tsv`, with a tab between two:

    role      server, client, both: of the peer
    where     states, parts of a session, `any`; the group of a special probe; `probe` for all of these; `fault` for what a probe saw itself
    what      numbers, `4 to 7`, `unknown`, `all`; the name of a special probe; the kind of a fault
    session   strict, plain, any
    differs   differences, as `verdict.difference` names them
    level     a word of LEVELS; `-` where the table of stricter points has it
    section, why
"""

import dataclasses
import pathlib

LEVELS = ["equal", "allowed", "should", "must", "guard", "breach"]
WORDS = {
    "equal": "as the proved end",
    "allowed": "differs, and may",
    "should": "differs from a SHOULD, or harmless",
    "must": "differs from a MUST",
    "guard": "breaks a rule that keeps attackers out",
    "breach": "a login passed by, or a crash",
    "untried": "not tried",
}
UNKNOWN = {*range(8, 20), *range(22, 30), *range(62, 80), *range(83, 90), *range(101, 128)}
PHASES = {
    "first": {"line", "any", "first exchange", "exchange"},
    "login": {"any", "login"},
    "connection": {"any", "connection"},
    "later": {"any", "exchange", "connection"},
}
EVERY_PHASE = set().union(*PHASES.values())
HERE = pathlib.Path(__file__).resolve().parent


@dataclasses.dataclass(frozen=True)
class Rule:
    """What was found for a difference: its level, the section, and what that says."""

    level: str
    section: str
    why: str


def numbers(cell):
    """The numbers that a cell names, `4 to 7` for several in a row; -1 stands for a line."""
    words, found, at = cell.split(), set(), 0
    while at < len(words):
        if words[at + 1 : at + 2] == ["to"]:
            found |= set(range(int(words[at]), int(words[at + 2]) + 1))
            at += 2
        elif words[at] in ("all", "unknown", "line"):
            found |= {"all": set(range(256)), "unknown": UNKNOWN, "line": {-1}}[words[at]]
        else:
            found.add(int(words[at]))
        at += 1
    return found


def _rows(file):
    return [line.split("\t") for line in file.read_text().split("\n")[1:] if line]


def _stricter_file():
    """The table is part of an installed package, and stands in docs/ of the repository."""
    installed = HERE / "stricter.tsv"
    return installed if installed.is_file() else HERE.parents[3] / "docs" / "stricter.tsv"


class Judgement:
    """Both tables, for peers of a role."""

    def __init__(self, role):
        self._messages, self._probes = [], {}
        for row in _rows(HERE / "judgement.tsv"):
            if row[0] not in (role, "both"):
                continue
            places, rule = set(row[1].split()), Rule(row[5], row[6], row[7])
            if row[1] in ("probe", "fault") or not self._is_place(places):
                self._probes.setdefault((row[1], row[2]), []).append((row[3], set(row[4].split(", ")), rule))
            else:
                self._messages.append((places, numbers(row[2]), row[3], self._differences(row[4]), rule))
        self._stricter = _rows(_stricter_file())

    @staticmethod
    def _differences(cell):
        known = ("silent refused", "no UNIMPLEMENTED", "no FAILURE", "other answer")
        return {cell} if cell in known else set(cell.split())

    @staticmethod
    def _is_place(words):
        states = "start lines kexinit reply keys service failed probed authed open exec eof closed rekey1 rekey2 rekeyed"
        return words <= {*states.split(), *PHASES, "any"}

    def of_message(self, state, number, session, difference):
        """The rule for a message of the matrix, or None."""
        for places, whom, when, differences, rule in self._messages:
            if places & {state.name, state.part, "any"} and number in whom and when in (session, "any") and difference in differences:
                return rule
        return None

    def of_probe(self, group, name, session, difference):
        """The rule for a special probe, or None. One of its own comes first, then that of all of them."""
        for key in ((group, name), ("probe", "all")):
            for when, differences, rule in self._probes.get(key, []):
                if when in (session, "any") and difference in differences:
                    return rule
        return None

    def section_of(self, group, name):
        """The section that a special probe is about, or None."""
        rows = self._probes.get((group, name))
        return rows[0][2] if rows else None

    def of_fault(self, kind):
        """The rule for what a probe saw itself."""
        return self._probes["fault", kind][0][2]

    def stricter(self, refusal, whom, phases=frozenset(EVERY_PHASE)):
        """The row of the stricter points by which the proved end refuses one of these messages, as a rule that allows the difference; None
        where there is none."""
        for _, refused, phase, messages, section, rule, here, _ in self._stricter:
            if refusal in refused.split(", ") and phase in phases and numbers(messages) & set(whom):
                return Rule("allowed", section, f"stricter: {here}" + (f" (the standard: {rule})" if rule else ""))
        return None
