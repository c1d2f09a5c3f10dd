"""What does an SSH peer take in which state, judged by a proved end?

Exit status: 0 no finding at or above --fail-on, 1 findings, 2 it could not be run, 3 a login was passed by or the peer crashed.
A line of the --accept file is a finding that is known: STATE | NAME."""

import argparse
import base64
import os
import pathlib
import sys
import tempfile

from .. import Error, private_key
from . import ROLES, Key, Settings, Target, machine, page, report
from .judgement import LEVELS
from .messages import blob
from .peers import Client, NotThere, Server
from .run import AGAIN, PARALLEL, SECONDS, rank, run
from .suites import IS_FAST, SUITES


def parser():
    shape = argparse.RawDescriptionHelpFormatter
    top = argparse.ArgumentParser(prog="python3 -m divrelca.probe", description=__doc__, formatter_class=shape)
    commands = top.add_subparsers(dest="command", required=True)
    for name, words in (("server", "probes a server"), ("show", "shows probes of a server with both transcripts")):
        command = commands.add_parser(name, help=words)
        command.add_argument("peer", metavar="HOST:PORT")
        command.add_argument("--login", choices=["key", "password"], help="what the sessions log in by")
        command.add_argument("--password-file", help="a file with the user's password")
        command.add_argument("--start", default="exec:cat", help="KIND:TEXT of a request for a command that sends back what it gets")
        command.add_argument("--hold", default="sleep 3", help="a command that does nothing for some seconds")
        command.add_argument("--serve", help="starts the server, and again where it died")
        common(command)
    client = commands.add_parser("client", help="listens, and starts a client once a probe")
    client.add_argument("--show", action="store_true", help="shows probes with both transcripts")
    client.add_argument("--host-key", help="a private key file; without it each run has a key of its own, see {known_hosts}")
    client.add_argument("words", nargs="+", metavar="-- COMMAND", help="with {port}, and {known_hosts} for a file with the tester's key")
    common(client)
    commands.add_parser("list", help="lists all probes")
    return top


def common(command):
    command.add_argument("--user", default="prober")
    command.add_argument("--user-key", help="a private key file of OpenSSH")
    command.add_argument("--cipher", default="aes128-gcm@openssh.com", choices=[it.decode() for it in SUITES])
    command.add_argument("--only", metavar="TEXT", help="only probes whose group, state or name has this text")
    for name in ("html", "json", "junit", "accept"):
        command.add_argument(f"--{name}", metavar="F")
    command.add_argument("--fail-on", choices=LEVELS[2:], default="must")
    command.add_argument("--parallel", type=int, default=PARALLEL)
    command.add_argument("--seconds", type=float, default=SECONDS, help="for each answer")
    command.add_argument("--sequences", type=int, default=0, metavar="N", help="tries so many sequences of messages too, drawn at random")
    command.add_argument("--seed", type=int, default=1, help="what they are drawn by")
    command.add_argument("--again", type=int, default=AGAIN, help="how often a finding is tried again before it stands")


def key_of(file):
    return Key(private_key(pathlib.Path(file).read_bytes())[0] if file else os.urandom(32))


def target_of(words):
    """What the words say of the peer."""
    own = {"user": words.user.encode(), "key": key_of(words.user_key), "other": Key(os.urandom(32)), "cipher": words.cipher.encode()}
    if words.command == "client":
        return Target(host_key=key_of(words.host_key), **own)
    own["by_key"] = words.user_key is not None
    if words.password_file:
        own["by_password"], own["password"] = True, pathlib.Path(words.password_file).read_bytes().strip(b"\r\n")
    if not own["by_key"] and not words.password_file:
        raise ValueError("a login is needed: --user-key, or --password-file")
    kind, _, text = words.start.partition(":")
    start, login = (kind.encode(), text.encode()), "key" if own["by_key"] else "password"
    return Target(host_key=Key(os.urandom(32)), login=words.login or login, start=start, hold=words.hold.encode(), **own)


def known_hosts(target, folder):
    """A file that has the tester's host key for any host."""
    file = pathlib.Path(folder) / "known_hosts"
    file.write_text(f"* ssh-ed25519 {base64.b64encode(blob(target.host_key)).decode()}\n")
    return str(file)


def bar(done, total):
    """Progress on a terminal."""
    width = 40 * done // total
    sys.stderr.write(f"\r[{'#' * width}{'.' * (40 - width)}] {done} of {total}" + ("\n" if done == total else ""))
    sys.stderr.flush()


def accepted_in(file):
    """The titles of findings that are known."""
    lines = pathlib.Path(file).read_text().splitlines() if file else []
    return frozenset(" | ".join(part.strip() for part in line.split("|")) for line in lines if line.strip() and not line.startswith("#"))


def written(words, found):
    """Writes the reports that were asked for."""
    for file, make in (
        (words.html, page.as_html),
        (words.json, machine.as_json),
        (words.junit, lambda it: machine.as_junit(it, words.fail_on)),
    ):
        if file:
            pathlib.Path(file).write_text(make(found), encoding="utf-8")


def probed(words, folder):
    """Runs the probes that the words ask for, and returns the report."""
    target, role = target_of(words), ROLES["client" if words.command == "client" else "server"]
    if role.name == "client":
        peer, title = Client(words.words, known_hosts(target, folder)), " ".join(words.words)
    else:
        host, _, port = words.peer.rpartition(":")
        peer, title = Server(host.strip("[]"), int(port), words.serve), words.peer
    progress = bar if sys.stderr.isatty() else None
    settings = Settings(words.parallel, words.seconds, words.again, words.sequences, words.seed, progress)
    try:
        return run(title, role, target, peer, settings, words.only, accepted_in(words.accept))
    finally:
        peer.close()


def main(arguments=None):
    words = parser().parse_args(arguments)
    if words.command == "list":
        sys.stdout.write("".join(report.listing(role) for role in ROLES.values()))
        return 0
    if not IS_FAST:
        sys.stderr.write("skipped: chacha20-poly1305@openssh.com needs the package cryptography, with which probes are faster too\n")
    try:
        with tempfile.TemporaryDirectory() as folder:
            found = probed(words, folder)
        written(words, found)
    except (NotThere, OSError, ValueError, Error) as error:
        sys.stderr.write(f"divrelca.probe: {error}\n")
        return 2
    is_shown = words.command == "show" or words.command == "client" and words.show
    sys.stdout.write(report.show(found) if is_shown else report.text(found))
    if found.worst == "breach":
        return 3
    return 1 if rank(found.worst) >= rank(words.fail_on) else 0


if __name__ == "__main__":
    sys.exit(main())
