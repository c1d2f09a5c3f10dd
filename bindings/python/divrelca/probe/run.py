"""Runs all probes against a peer, several at a time, and judges them."""

import concurrent.futures
import dataclasses
import random
import threading

from .catalogue import Probe
from .judgement import LEVELS
from .peers import NotThere
from .play import GOES_ON, SILENT, UNREACHED, Result, expected, play
from .suites import SUITES
from .verdict import Judge

PARALLEL, SECONDS, AGAIN = 4, 4.0, 1
# messages that turn a session into another state
TURNING = (1, 5, 20, 21, 30, 31, 50)


@dataclasses.dataclass(frozen=True)
class Settings:
    """`parallel` probes at a time; `seconds` for each answer; `again` is how often a finding is tried again alone, and stands only if it is
    found each time. `sequences` is how many sequences of messages are drawn by `seed`, and tried after the other probes."""

    parallel: int = PARALLEL
    seconds: float = SECONDS
    again: int = AGAIN
    sequences: int = 0
    seed: int = 1
    progress: "object" = None


class Runner:
    """A peer and all that is known of it."""

    def __init__(self, role, target, peer, settings):
        self.role, self.target, self.peer, self.settings = role, target, peer, settings
        self._done, self._lock = 0, threading.Lock()

    def one(self, probe, seconds=None):
        """One probe. A crash that was seen while others ran too may be another probe's: it is looked at again alone."""
        if probe.cipher is not None and probe.cipher not in SUITES:
            return Result(UNREACHED, f"the cipher {probe.cipher.decode()} needs the package cryptography")
        try:
            with self.peer.session() as (link, crash):
                result = play(self.role, probe, self.target, link, seconds or self.settings.seconds)
                words = crash()
                if words:
                    result.faults += (("crash", words),)
                return result
        except NotThere as error:
            return Result(UNREACHED, str(error))

    def _counted(self, probe, total):
        result = self.one(probe)
        with self._lock:
            self._done += 1
            if self.settings.progress:
                self.settings.progress(self._done, total)
        return result

    def some(self, probes):
        """The results of these, in their order."""
        with concurrent.futures.ThreadPoolExecutor(self.settings.parallel) as pool:
            return list(pool.map(self.one, probes))

    def all(self, probes):
        """The results of all, in their order. NotThere where not even one sign of life came."""
        alone = [it for it in probes if it.group == "nothing"]
        first = [self._counted(it, len(probes)) for it in alone]
        if all(it.end != GOES_ON for it in first):
            best = next((it for it in first if it.end != UNREACHED), first[-1])
            raise NotThere(f"no session came about: {best.why or best.end}")
        others = [it for it in probes if it.group != "nothing"]
        with concurrent.futures.ThreadPoolExecutor(self.settings.parallel) as pool:
            return first + list(pool.map(lambda it: self._counted(it, len(probes)), others))

    def steady(self, judge, verdict):
        """A finding that is found again each time, or the mildest verdict that came."""
        for _ in range(self.settings.again):
            if verdict.level in ("equal", "allowed"):
                break
            seconds = self.settings.seconds * (2 if verdict.result.end in (SILENT, UNREACHED) else 1)
            other = judge.verdict(verdict.probe, self.one(verdict.probe, seconds), verdict.oracle)
            if rank(other.level) < rank(verdict.level) and other.level != "untried" or verdict.level == "untried":
                verdict = dataclasses.replace(other, steady=False)
        return verdict


def rank(level):
    """The place of a level, the mildest first; what was not tried is before all."""
    return LEVELS.index(level) if level in LEVELS else -1


@dataclasses.dataclass
class Report:
    """All verdicts, and what they are of."""

    title: str
    role: object
    session: str
    verdicts: list
    accepted: int = 0

    @property
    def counts(self):
        """How many verdicts there are of each level that there is."""
        levels = [it.level for it in self.verdicts]
        return {level: levels.count(level) for level in [*LEVELS, "untried"] if level in levels}

    @property
    def worst(self):
        return max((it.level for it in self.verdicts), key=rank, default="equal")


def oracle_results(role, target, probes):
    """The expected answers: those of the proved end."""
    return [expected(role, it, target) for it in probes]


def judged(role, probes, results, oracles):
    """The judge, and the verdicts of all probes but the signs of life."""
    alone = [(it.state, result, oracle) for it, result, oracle in zip(probes, results, oracles) if it.group == "nothing"]
    judge = Judge(role, {state: it for state, it, _ in alone}, {state: it for state, _, it in alone})
    triples = [it for it in zip(probes, results, oracles) if it[0].group != "nothing"]
    return judge, [judge.verdict(*it) for it in triples]


def sequences(verdicts, count, seed):
    """Probes of sequences of 2 to 7 messages, each of which alone had the answer of the proved end and left the session going on. So a difference comes of
    their order."""
    draw, by_state = random.Random(seed), {}
    for it in verdicts:
        if it.probe.group == "messages" and it.level == "equal" and it.result.end == GOES_ON and int(it.probe.name.split()[0]) not in TURNING:
            by_state.setdefault(it.probe.state, []).append(it.probe)

    def one(state):
        chosen = [draw.choice(by_state[state]) for _ in range(draw.randint(2, 7))]

        def act(end):
            for it in chosen:
                it.act(end)

        return Probe("sequences", ", ".join(it.name.split()[0] for it in chosen), state, act)

    return [one(draw.choice(sorted(by_state))) for _ in range(count if by_state else 0)]


def run(title, role, target, peer, settings, only=None, accepted=frozenset()):
    """Runs the probes whose words have `only`, and returns the report. `accepted` has titles of findings that are known."""
    probes = role.probes(only)
    runner = Runner(role, target, peer, settings)
    results = runner.all(probes)
    judge, verdicts = judged(role, probes, results, oracle_results(role, target, probes))
    more = sequences(verdicts, settings.sequences, settings.seed)
    verdicts += [judge.verdict(*it) for it in zip(more, runner.some(more), oracle_results(role, target, more))]
    verdicts = [runner.steady(judge, it) for it in verdicts]
    known = [it for it in verdicts if it.probe.title in accepted and it.level not in ("equal", "allowed", "untried")]
    for it in known:
        it.level, it.why = "allowed", f"accepted: {it.why}"
    return Report(title, role, judge.session, verdicts, len(known))
