"""What a probe is. A probe is a function of the tester's end, so that the same is done to a peer and to a proved end. It returns the state
from which the session goes on as it should, nothing for the state that it began in, or OVER where it has seen the sign of life itself."""

import dataclasses
import typing

OVER = "over"


@dataclasses.dataclass(frozen=True)
class Message:
    """A message of the matrix: its number and name, and how its payload is made."""

    name: str
    payload: typing.Callable

    @property
    def number(self):
        return int(self.name.split()[0])


@dataclasses.dataclass(frozen=True)
class State:
    """A state: how a session is brought into it from the beginning, and in which part of a session it is: `first`, `login`, `connection` or
    `later`."""

    name: str
    words: str
    part: str
    reach: typing.Callable


@dataclasses.dataclass(frozen=True)
class Probe:
    """One thing that is tried. `group` is `nothing` for the sign of life alone, `messages` for the matrix, else the group of a special
    probe. `cipher` is one that it needs."""

    group: str
    name: str
    state: str
    act: typing.Callable = lambda end: None
    cipher: "bytes | None" = None

    @property
    def title(self):
        return f"{self.state} | {self.name}"

    @property
    def words(self):
        """What --only looks in."""
        return f"{self.group} {self.state} {self.name}"


@dataclasses.dataclass
class Role:
    """All that is tried on peers of a role. `due` are the messages that are due in their state, and so no probe. `goes_on` is the sign of
    life: from a state the session goes on as it should."""

    name: str
    tester: str
    states: list
    messages: list
    due: set
    goes_on: typing.Callable
    specials: list = dataclasses.field(default_factory=list)

    def state(self, name):
        return next(it for it in self.states if it.name == name)

    def special(self, group, name, state, cipher=None):
        """Adds a function as a probe of its own."""

        def added(act):
            self.specials.append(Probe(group, name, state, act, cipher))
            return act

        return added

    def sends(self, group, name, state, *payloads):
        """Adds a probe that sends payloads, given or made from the tester's end."""

        def act(end):
            for payload in payloads:
                end.send(payload(end) if callable(payload) else payload)

        self.special(group, name, state)(act)

    def probes(self, only=None):
        """All probes, or those whose words have a text. The sign of life of each state of these is among them, at the beginning: the others
        are compared with it."""
        found = []
        for state in self.states:
            for message in self.messages:
                if (state.name, message.name) not in self.due:
                    found.append(Probe("messages", message.name, state.name, lambda end, it=message: end.send(it.payload(end))))
        found = [it for it in found + self.specials if only is None or only in it.words]
        states = {it.state for it in found}
        return [Probe("nothing", "the sign of life", it.name) for it in self.states if it.name in states] + found
