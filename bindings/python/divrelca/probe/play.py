"""Plays one probe: to a peer, or to a proved end."""

import contextlib
import dataclasses
import struct
import time

from .links import Closed, Late, Skipped
from .oracle import ClientOracle, ServerOracle
from .suites import GCM, Key
from .tester import Tester

GOES_ON, ENDED, SILENT, BROKE, SKIPPED, UNREACHED = "goes on", "ended", "silent", "broke", "skipped", "not reached"
TRANSCRIPT = 16


@dataclasses.dataclass(frozen=True)
class Target:
    """What the tester knows of a peer. `start` is the kind and the text of a request that starts a command which sends back what it gets,
    `hold` a command that does nothing for some seconds. `host_key` is the tester's own as a server, and that of the proved server. `by_key`
    and `by_password` say whether these let the user in, as at the proved server; `login` is the one of them that the sessions use."""

    user: bytes
    key: Key
    other: Key
    host_key: Key
    by_key: bool = True
    by_password: bool = False
    password: bytes = b"a password that nobody has"
    login: str = "key"
    start: tuple = (b"exec", b"cat")
    hold: bytes = b"sleep 3"
    cipher: bytes = GCM


@dataclasses.dataclass
class Result:
    """What came of a probe at one end. `got` are the numbers of the messages that came after the state was reached, `sent` those that were
    sent, `refused` the name of a proved end's refusal, `faults` pairs of a kind and words."""

    end: str
    why: str = ""
    note: str = ""
    got: tuple = ()
    sent: tuple = ()
    faults: tuple = ()
    refused: "str | None" = None
    is_strict: bool = False
    transcript: tuple = ()
    seconds: float = 0.0


def acted(role, probe, end):
    """Makes the probe, and asks for the sign of life."""
    state = probe.act(end) or probe.state
    role.goes_on(end, state)
    if probe.group == "messages" and probe.name[:2] in ("80", "98"):
        # the reply may come after the sign of life, or be taken for it
        with contextlib.suppress(Closed, Late):
            end.until(3, 81, 82, 99, 100, timeout=0.3)


def play(role, probe, target, link, seconds):
    """Brings a session over the link into the state, makes the probe, and looks whether the session goes on. The link is closed."""
    began, reached = time.monotonic(), None
    end = Tester(link, role.tester, target, seconds)
    if link.is_real:
        end.deadline = began + 15 * seconds
    try:
        if probe.cipher and link.is_real:
            end.cipher = probe.cipher
        role.state(probe.state).reach(end)
        reached = len(end.log), len(end.transcript)
        acted(role, probe, end)
        result = Result(GOES_ON)
    except Closed as error:
        result = Result(ENDED, str(error))
    except Late as error:
        result = Result(SILENT, str(error))
    except Skipped as error:
        result = Result(SKIPPED, str(error))
    except (struct.error, ValueError, IndexError, OverflowError) as error:
        result = Result(BROKE, f"{type(error).__name__}: {error}"[:120])
    finally:
        link.close()
    if reached is None:
        result = Result(UNREACHED, f"the state was not reached: {result.end}, {result.why}")
    else:
        result.got = tuple(it[0] if it else 0 for it in end.log[reached[0] :])
        rows = end.transcript[reached[1] :]
        result.sent = tuple(it[3][0] if it[3] else 0 for it in rows if it[0] == "sends")
        result.faults, result.note = tuple(dict.fromkeys(end.faults)), end.note
    if probe.state in ("start", "lines"):
        result.sent += (-1,)
    result.is_strict, result.refused = end.is_strict, getattr(link, "refused", None)
    result.transcript, result.seconds = tuple(end.transcript[-TRANSCRIPT:]), time.monotonic() - began
    return result


def expected(role, probe, target):
    """The answer of the proved end."""
    own = dataclasses.replace(target, cipher=GCM, start=(b"exec", b"cat"), hold=b"hold")
    link = ServerOracle(own) if role.name == "server" else ClientOracle(own)
    return play(role, probe, own, link, 0.2)
