"""Takes the command lines that README, docs and help print, and looks whether they do what stands there.

    printed.py names            each make target, file and folder that is named is there, and each event and refusal has its row in
                                docs/EMBEDDING.md, and the programs say the version and the kit of CHANGELOG.md and README.md; nothing is run
    printed.py trace FOLDER     writes the commands of `ssh_trace` as inputs of `rt try --cases`, with what is printed below each
    printed.py proved           runs all commands with the programs in build/, those with a peer too, which wants ssh, sshd and ssh-keygen

In a page a command is a line that begins with `$ `, in a block that is indented or fenced. The lines below it up to the next command or the end of its block
are what it prints; `..` alone stands for any lines. The commands of a block that has none of these are run together, as one script of the shell. In help they
are the lines of `EXAMPLES` that begin with two spaces. Ends with status 1 where something is not as it is printed."""

import getpass
import os
import re
import shutil
import subprocess
import sys
import tempfile
from pathlib import Path

TOP = Path(__file__).resolve().parent.parent
PAGES = [TOP / "README.md", TOP / "CONTRIBUTING.md", TOP / "SECURITY.md", *sorted((TOP / "docs").glob("*.md"))]
HELP = TOP / "crates/ssh_pipe_program/src/command_line/words.rt"
TRACE = re.compile(r"(?:build/(?:unproved/)?)?ssh_trace (decode|play|check) (\S+)")
NAMED = re.compile(r"(?<![\w/.])(?:docs|tools|crates|examples)/[\w./-]*\w")
# What a page calls a file, a user or a host that a reader puts in: the tool makes them.
SERVER_CONFIG = "HostKey {0}/KEY\nAuthorizedKeysFile {0}/KEYS\nUsePAM no\nStrictModes no\nPermitRootLogin yes\nPidFile none\n"


class Block:
    """Commands that stand together, each with the lines that it prints."""

    def __init__(self, place):
        self.place = place
        self.commands = []

    def prints(self):
        return any(lines for _, lines in self.commands)


def blocks_of(page):
    block, is_fenced = None, False
    for number, line in enumerate(page.read_text().split("\n"), 1):
        if line.startswith("```"):
            block, is_fenced = None, not is_fenced
            continue
        if not is_fenced and not line.startswith("    "):
            block = None
            continue
        text = line if is_fenced else line[4:]
        if text.startswith("$ "):
            if block is None:
                block = Block(f"{page.name}:{number}")
                yield block
            block.commands.append((re.sub(r"\s+# .*", "", text[2:]), []))
        elif block is not None and text:
            block.commands[-1][1].append(text)


def blocks_of_help():
    text = HELP.read_text().split('const EXAMPLES: &str = "\\\n')[1].split('";')[0]
    block = Block(HELP.name)
    for line in text.split("\n"):
        if line.startswith("  "):
            block.commands.append((line.strip(), []))
    # (each line by itself, but for a mkfifo, which belongs to the next)
    first, *rest = block.commands
    for commands in ([first], rest):
        part = Block(f"EXAMPLES of {HELP.name}")
        part.commands = commands
        yield part


def all_blocks():
    found = [block for page in PAGES for block in blocks_of(page)]
    return found + list(blocks_of_help())


def missing_names():
    targets = set(re.findall(r"^([a-z-]+):", (TOP / "Makefile").read_text(), re.M))
    for page in PAGES:
        text = page.read_text()
        for target in re.findall(r"(?:`|^    )make ([a-z-]+)", text, re.M):
            if target not in targets:
                yield f"{page.name}: make {target} is no target"
        for name in NAMED.findall(text):
            if "NAME" not in name and not (TOP / name).exists():
                yield f"{page.name}: {name} is not there"


EVENTS = (("crates/ssh_end_machine/src/told.rt", "Told"), ("crates/ssh_channels/src/event.rt", "ChannelEvent"), ("crates/ssh_model/src/refusal.rt", "Refusal"), ("crates/ssh_model/src/ask_refusal.rt", "AskRefusal"))


def variants_of(file, name):
    body = (TOP / file).read_text().split(f"pub enum {name}")[1].split("\n}")[0]
    return re.findall(r"^    (\w+)", body, re.M)


def missing_rows():
    """Each event, refusal of a peer and refusal of an ask has to begin a row of a table in docs/EMBEDDING.md."""
    first_cells = [line.split("|")[1] for line in (TOP / "docs/EMBEDDING.md").read_text().split("\n") if line.startswith("| ")]
    named = set(re.findall(r"\w+", " ".join(first_cells)))
    for file, name in EVENTS:
        for variant in variants_of(file, name):
            if variant not in named:
                yield f"docs/EMBEDDING.md: no row has {name}::{variant}"


def missing_release():
    """The version and the kit that the programs say have to be those of CHANGELOG.md and README.md."""
    named = dict(re.findall(r'pub const (\w+): &str = "(.*)";', (TOP / "crates/divrelca/src/release.rt").read_text()))
    if f"\n## {named['VERSION']}" not in (TOP / "CHANGELOG.md").read_text():
        yield f"CHANGELOG.md has no version {named['VERSION']}"
    for file in [*(TOP / "bindings/rust").glob("*/Cargo.toml"), TOP / "bindings/python/divrelca/__init__.py"]:
        if f'"{named["VERSION"]}"' not in file.read_text():
            yield f"{file.relative_to(TOP)} has another version than {named['VERSION']}"
    if named["KIT"] not in (TOP / "README.md").read_text():
        yield f"README.md does not name the kit {named['KIT']}"


def write_trace(folder):
    number = 0
    for block in all_blocks():
        for command, lines in block.commands:
            if (call := TRACE.fullmatch(command)) and ".." not in lines:
                number += 1
                name = f"printed-{number}"
                is_file = (TOP / call[2]).is_file()
                shutil.copy(TOP / call[2] if is_file else "/dev/null", folder / name)
                (folder / f"{name}.args").write_text(f"{call[1]}\n{'{}' if is_file else call[2]}\n")
                (folder / f"{name}.stdout").write_text("".join(f"{line}\n" for line in lines))
    if not number:
        sys.exit("no command of ssh_trace is printed anywhere")


def prepare(folder):
    """What the commands name: keys, a list of hosts, a file, the settings of sshd, and an `ssh` that takes these keys and no others."""
    for key in ("KEY", "HOST"):
        subprocess.run(["ssh-keygen", "-q", "-t", "ed25519", "-N", "", "-C", key, "-f", folder / key], check=True)
    (folder / "KEYS").write_text((folder / "KEY.pub").read_text())
    hosts = "".join(f"{name} {(folder / 'KEY.pub').read_text()}" for name in ["host"])
    (folder / "known_hosts").write_text(hosts)
    (folder / "FILE").write_bytes(os.urandom(1 << 20))
    (folder / "CONFIG").write_text(SERVER_CONFIG.format(folder))
    (folder / "CONFIG").chmod(0o600)
    bin_folder = folder / "bin"
    bin_folder.mkdir()
    options = f"-F /dev/null -o UserKnownHostsFile={folder}/known_hosts -o GlobalKnownHostsFile=/dev/null -o StrictHostKeyChecking=yes -o BatchMode=yes"
    (bin_folder / "ssh").write_text(f'#!/bin/sh\nexec {shutil.which("ssh")} {options} -o IdentitiesOnly=yes -i {folder}/KEY "$@"\n')
    (bin_folder / "ssh").chmod(0o755)
    for name in ("build", "examples", "docs"):
        (folder / name).symlink_to(TOP / name)
    for program in ("ssh_pipe", "ssh_trace", "example_embedding"):
        (bin_folder / program).symlink_to(TOP / "build" / program)
    return {**os.environ, "PATH": f"{bin_folder}:{TOP / 'build'}:{os.environ['PATH']}:/usr/sbin"}


def as_printed(printed, lines):
    pattern = "".join(r"(?:.*\n)*?" if line == ".." else re.escape(line) + "\n" for line in lines)
    return re.fullmatch(pattern, printed) is not None


def run(script, folder, path):
    """What a script printed, or why there is no such text. Its status counts where it is a fault of usage, or of a session."""
    ran = subprocess.Popen(["bash", "-c", script], cwd=folder, env=path, stdin=subprocess.DEVNULL, stdout=subprocess.PIPE, stderr=subprocess.PIPE, text=True)
    try:
        printed, said = ran.communicate(timeout=300)
    except subprocess.TimeoutExpired:
        ran.kill()
        return None, "it had not ended after 300 seconds"
    return printed, None if ran.returncode in (0, 1) and not said.startswith("error") else f"status {ran.returncode}: {said}"


def is_of_a_program(command):
    return re.search(r"\bssh_(pipe|trace|embedding)\b", command) is not None


def run_proved():
    wrong = 0
    user = getpass.getuser()
    for block in all_blocks():
        if not any(is_of_a_program(command) for command, _ in block.commands):
            continue
        with tempfile.TemporaryDirectory() as name:
            path = prepare(Path(name))
            scripts = block.commands if block.prints() else [("\n".join(command for command, _ in block.commands), [".."])]
            for command, lines in scripts:
                printed, fault = run(re.sub(r"\bme\b", user, command).replace("build/unproved/", "build/"), Path(name), path)
                if fault is None and not as_printed(printed, lines):
                    fault = f"it prints {printed!r}"
                wrong += fault is not None
                print(f"{'ok' if fault is None else 'FAILED'}      {block.place}: {command.splitlines()[-1]}{': ' + fault if fault else ''}")
    return wrong


def main(words):
    if words == ["names"]:
        missing = [*missing_names(), *missing_rows(), *missing_release()]
        print("\n".join(missing), end="\n" if missing else "")
        return 1 if missing else 0
    if words[:1] == ["trace"]:
        write_trace(Path(words[1]))
        return 0
    if words == ["proved"]:
        return 1 if run_proved() else 0
    print(__doc__, file=sys.stderr)
    return 2


if __name__ == "__main__":
    sys.exit(main(sys.argv[1:]))
