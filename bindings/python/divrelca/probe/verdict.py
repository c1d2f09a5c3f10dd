"""Sets a peer's answer beside that of the proved end, and looks up what the difference means."""

import collections
import dataclasses

from .judgement import EVERY_PHASE, LEVELS, PHASES, Judgement, Rule
from .play import BROKE, ENDED, GOES_ON, SILENT, SKIPPED, UNREACHED, Result

# what a program sends when it likes: it says nothing about the message before it
QUIET = (1, 2, 4, 93, 94, 95, 96, 97, 98)
NO_RULE = Rule("should", "-", "no row of the judgement and none of the stricter points has this: a gap of the tester")


@dataclasses.dataclass
class Verdict:
    """What came of a probe. `got` and `wanted` are words for both answers."""

    probe: object
    level: str
    differs: str
    section: str
    why: str
    got: str
    wanted: str
    result: Result
    oracle: Result
    steady: bool = True

    @property
    def rule(self):
        """The section and what it says, in one text."""
        return f"{self.section}: {self.why}" if self.why else self.section


def _extra(result, base):
    """The messages that came more than without the probe."""
    counts = collections.Counter(it for it in result.got if it not in QUIET)
    counts.subtract(it for it in base.got if it not in QUIET)
    return sorted(counts.elements())


def _short(result, extra):
    if result.end == GOES_ON and result.note in ("SUCCESS", "FAILURE", "PK_OK"):
        return f"{GOES_ON}, {result.note}"
    if result.end == GOES_ON and extra:
        return f"{GOES_ON}, sends {' '.join(map(str, extra[:6]))}" + (" .." if len(extra) > 6 else "")
    return f"{result.end}, {result.refused}" if result.refused else result.end


def difference(result, oracle, extra, wanted):
    """The name of the difference of two answers to a message, None where there is none."""
    if result.end == BROKE:
        return "broke"
    if result.end == SILENT:
        return "silent refused" if oracle.end == ENDED else None if oracle.end == SILENT else "silent"
    if oracle.end == ENDED and result.end == GOES_ON:
        named = [name for number, name in ((91, "opened"), (3, "unimplemented")) if number in extra]
        return named[0] if named else "answered" if extra else "taken"
    if oracle.end != ENDED and result.end == ENDED:
        return "ended"
    if result.end == oracle.end == GOES_ON and extra != wanted:
        named = [name for number, name in ((3, "no UNIMPLEMENTED"), (51, "no FAILURE")) if number in wanted and number not in extra]
        return named[0] if named else "other answer"
    return None


def special_difference(probe, result, oracle, extra, wanted):
    """The same for a special probe, whose note counts and whose further answers do not."""
    if result.note == "SUCCESS" and oracle.note == "FAILURE":
        return "taken"
    if result.end == BROKE:
        return "broke refused" if oracle.end == ENDED else "broke"
    named = difference(result, oracle, extra, wanted)
    if named in ("opened", "answered", "taken"):
        if result.note in ("FAILURE", "PK_OK"):
            return "FAILURE"
        return "channel refused" if ", then CHANNEL_OPEN" in probe.name and 92 in result.got else "taken"
    if named in ("no UNIMPLEMENTED", "no FAILURE", "other answer"):
        return "other answer" if result.note != oracle.note and oracle.note in ("FAILURE", "SUCCESS") else None
    return named


class Judge:
    """Judges the answers of peers of a role. `bases` are the answers to no probe at all, of the peer and of the proved end, by states."""

    def __init__(self, role, bases, oracle_bases):
        self._role, self._judgement = role, Judgement(role.name)
        self._bases, self._oracle_bases = bases, oracle_bases
        self.session = "strict" if any(it.is_strict for it in bases.values()) else "plain"

    def _rule(self, probe, oracle, differs, session):
        """The rule for a difference: the judgement first, then the stricter points."""
        state = self._role.state(probe.state)
        if probe.group == "messages":
            number = int(probe.name.split()[0])
            rule = self._judgement.of_message(state, number, session, differs)
            whom, phases = {number, -1} if state.name == "start" else {number}, PHASES[state.part]
        else:
            rule = self._judgement.of_probe(probe.group, probe.name, session, differs)
            rule = rule or self._judgement.of_message(state, 0, session, differs)
            whom, phases = oracle.sent, EVERY_PHASE
        if rule is not None and rule.level != "-":
            return rule
        stricter = self._judgement.stricter(oracle.refused, whom, phases) if oracle.refused else None
        if stricter is None and rule is not None:
            return Rule("allowed", rule.section, rule.why)
        return stricter or NO_RULE

    def section(self, probe, oracle):
        """The rule that the proved end's own answer is by: what a peer that differs would break."""
        if probe.group != "messages":
            return self._judgement.section_of(probe.group, probe.name) or NO_RULE
        return self._rule(probe, oracle, "taken" if oracle.end == ENDED else "ended", "strict")

    def verdict(self, probe, result, oracle):
        """What an answer of the peer means beside that of the proved end."""
        if probe.cipher is not None and oracle.end == GOES_ON:
            # AES-GCM has no number on the wire: the rule itself says what is expected
            oracle = dataclasses.replace(oracle, end=ENDED)
        extra, wanted = _extra(result, self._bases[probe.state]), _extra(oracle, self._oracle_bases[probe.state])
        if result.end in (SKIPPED, UNREACHED):
            rule, differs = Rule("untried", self.section(probe, oracle).section, result.why), result.end
        elif result.faults:
            rules = [(self._judgement.of_fault(kind), words) for kind, words in result.faults]
            rule, words = max(rules, key=lambda it: LEVELS.index(it[0].level))
            rule, differs = dataclasses.replace(rule, why=f"{rule.why}: {words}"), "fault"
        else:
            special = probe.group not in ("messages", "nothing")
            differs = special_difference(probe, result, oracle, extra, wanted) if special else difference(result, oracle, extra, wanted)
            found = self._rule(probe, oracle, differs, self.session) if differs else self.section(probe, oracle)
            rule = found if differs else Rule("equal", found.section, "")
        answers = _short(result, extra), _short(oracle, wanted)
        return Verdict(probe, rule.level, differs or "", rule.section, rule.why, *answers, result, oracle)
