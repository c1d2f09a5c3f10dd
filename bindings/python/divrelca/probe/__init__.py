"""A tester of SSH: what does a peer take in which state, judged by a proved end. `python3 -m divrelca.probe` is its command; docs/PROBE.md
has a first run.

Each probe is a function that runs twice: against the peer over a socket, and against a proved end in memory. The answer of the proved end
is the expected one."""

from . import client_channels, client_probes, server_channels, server_login, server_start  # noqa: F401 (each adds its probes)
from .client_states import CLIENT
from .play import Result, Target
from .run import Report, Settings, run
from .server_states import SERVER
from .suites import Key

ROLES = {"server": SERVER, "client": CLIENT}

__all__ = ["CLIENT", "ROLES", "SERVER", "Key", "Report", "Result", "Settings", "Target", "run"]
