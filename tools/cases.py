"""Runs each program on its cases, crates/*/cases/*.txt, and says which of them do not do what is written there. A program is what the gate leaves in its crate's folder out/; the crate
`ssh_trace_program` has that of the name `ssh_trace`. Ends with status 1 where a case fails.

A case is a few lines, and an empty line or a comment, which begins with #, parts it from the next. It is run in a folder of its own, with copies of what is in cases/files/ that their owner
alone may read, as is right for keys.

    $ ssh_trace play script     the command, a line of the shell
    < pass c s 11               a line of the file `script`; \\t, \\r and \\xNN stand for such bytes
    & examples/whole_session.txt    a file of this repository, which is there by its name alone
    1 c sent line 9             a line of standard output
    @ docs/pictures/NAME.svg    what standard output is, as a file of this repository
    2 error: ..                 a line of standard error
    ~ Usage: ssh_trace          what standard error has somewhere, where its lines are left out
    = 1                         the exit status, which is 0 where it is left out

A backslash at the end of a line of the file or of standard output is for no newline there.

`cases.py CRATE FOLDER` runs nothing, and writes those of one crate that are calls of the program alone as `rt try --cases` takes them: an input, which is the file `script` too, its words and its output
for each. It prints a line NAME=FILE for each file of this repository that they are given.
Sweeps, which take minutes where all is checked as it runs, are left out."""

import os
import re
import shutil
import signal
import subprocess
import sys
import tempfile
from pathlib import Path

TOP = Path(__file__).resolve().parent.parent
KINDS = "$<&1@2~="
CALL = re.compile(r"\w+(?! sweep)(?: [\w.-]+)*(?: <script)?")


class Case:
    def __init__(self, place):
        self.place = place
        self.lines = {kind: [] for kind in KINDS}

    def command(self):
        return self.lines["$"][0]

    def script(self):
        return re.sub(rb"\\(t|r|x[0-9a-f]{2})", lambda it: unescaped(it[1].decode()), joined(self.lines["<"]).encode())

    def files(self):
        """The files of this repository that the case is given."""
        return [TOP / name for name in self.lines["&"]]

    def output(self):
        return "".join((TOP / name).read_text() for name in self.lines["@"]) or joined(self.lines["1"])

    def fault(self, path, folder):
        """What is wrong with a run of the case, or nothing."""
        (folder / "script").write_bytes(self.script())
        for file in self.files():
            shutil.copy(file, folder)
        how = {"stdin": subprocess.DEVNULL, "stdout": subprocess.PIPE, "stderr": subprocess.PIPE, "start_new_session": True}
        shell = subprocess.Popen(["sh", "-c", self.command()], cwd=folder, env=path, **how)
        try:
            printed, said = (it.decode(errors="replace") for it in shell.communicate(timeout=60))
        except subprocess.TimeoutExpired:
            os.killpg(shell.pid, signal.SIGKILL)
            shell.communicate()
            return "it had not ended after 60 seconds"
        status = int((self.lines["="] or ["0"])[0])
        if shell.returncode != status:
            return f"exit status {shell.returncode}, and not {status}: {said}"
        if printed != self.output():
            return f"standard output is {printed!r}"
        if any(text not in said for text in self.lines["~"]):
            return f"standard error is {said!r}"
        if not self.lines["~"] and said != "".join(f"{line}\n" for line in self.lines["2"]):
            return f"standard error is {said!r}"
        return None


def copied(source, target):
    shutil.copyfile(source, target)
    os.chmod(target, 0o600)


def joined(lines):
    return "".join(line[:-1] if line.endswith("\\") else f"{line}\n" for line in lines)


def unescaped(letters):
    return {"t": b"\t", "r": b"\r"}.get(letters) or bytes.fromhex(letters[1:])


def cases_of(file):
    """The cases of a file, in their order."""
    found, is_open = [], False
    for number, line in enumerate(file.read_text().split("\n"), 1):
        if not line or line.startswith("#"):
            is_open = False
            continue
        kind, space, text = line[0], line[1:2], line[2:]
        if kind not in KINDS or space not in ("", " ") or (kind == "$") == is_open:
            sys.exit(f"{file.name}: line {number} is no line of a case")
        if kind == "$":
            found.append(Case(f"{file.name}:{number}"))
            is_open = True
        found[-1].lines[kind].append(text)
    return found


def write(cases, folder):
    """Writes the cases that are calls of the program alone, each by a number, as inputs of `rt try`, and prints which files they are given, by name and place."""
    for file in sorted({file for case in cases for file in case.files()}):
        print(f"{file.name}={file}")
    for number, case in enumerate(cases):
        if CALL.fullmatch(case.command()):
            words = ["{}" if word == "script" else word for word in case.command().split()[1:] if word != "<script"]
            (folder / f"{number}").write_bytes(case.script())
            (folder / f"{number}.args").write_text("".join(f"{word}\n" for word in words))
            (folder / f"{number}.stdout").write_text(case.output())


def run(crate):
    """How many cases a crate has, and how many of them fail, each of which is told."""
    cases, failed = of_crate(crate), 0
    with tempfile.TemporaryDirectory() as programs:
        program = crate / "out" / crate.name
        Path(programs, crate.name.removesuffix("_program")).symlink_to(program.resolve(strict=True))
        path = {**os.environ, "PATH": f"{programs}:{os.environ['PATH']}"}
        for case in cases:
            with tempfile.TemporaryDirectory() as name:
                if (crate / "cases" / "files").is_dir():
                    shutil.copytree(crate / "cases" / "files", name, copy_function=copied, dirs_exist_ok=True)
                if fault := case.fault(path, Path(name)):
                    failed += 1
                    print(f"{crate.name}/cases/{case.place}: {case.command()}: {fault}")
    return len(cases), failed


def of_crate(crate):
    return [case for file in sorted((crate / "cases").glob("*.txt")) for case in cases_of(file)]


def main(words):
    if words:
        write(of_crate(TOP / "crates" / words[0]), Path(words[1]))
        return 0
    wrong = 0
    for folder in sorted((TOP / "crates").glob("*/cases")):
        count, failed = run(folder.parent)
        print(f"{count} cases of {folder.parent.name}, {failed} failed")
        wrong += failed or not count
    return 1 if wrong else 0


if __name__ == "__main__":
    sys.exit(main(sys.argv[1:]))
