"""Runs the gate from nothing, and prints the processor time of each of its checks, the largest first, and that of the whole. What the gate says goes to the file that is named. A kit whose `rt ci`
keeps what passed proves it again by `rt ci --anew`; a kit that keeps nothing has no such word.

A check is a process of the toolchain that names its crate. Its time is read from /proc once a second, so that of its last second is missing. RT_JOBS says how many
checks run at a time, each with one job."""

import os
import re
import shutil
import subprocess
import sys
import time
from pathlib import Path

RT = os.environ.get("RT", "rt")
TICKS = os.sysconf("SC_CLK_TCK")
CRATE = re.compile(r"--crate-name\0([^\0]+)")


def processes():
    """The parent, the start and the processor time in seconds of each process, by its number."""
    found = {}
    for folder in Path("/proc").glob("[0-9]*"):
        try:
            fields = (folder / "stat").read_text().rpartition(")")[2].split()
        except OSError:
            continue
        found[int(folder.name)] = int(fields[1]), fields[19], (int(fields[11]) + int(fields[12])) / TICKS
    return found


def is_below(number, top, found):
    """Whether a process was begun by another, or by one that it began."""
    while number in found and number != top:
        number = found[number][0]
    return number == top


def check_of(number):
    """What the process checks, or none."""
    try:
        words = Path(f"/proc/{number}/cmdline").read_text(errors="replace")
        folder = os.readlink(f"/proc/{number}/cwd")
    except OSError:
        return None
    crate = CRATE.search(words)
    if not crate:
        return None
    edits = " edits" if "/rt-edit-" in folder else ""
    return f"{crate[1]}{' tests' if '--test' in words.split(chr(0)) else ''}{edits}"


def gate_words():
    """The gate from nothing, as this kit has it: its command is a script, which names the words that it knows."""
    keeps = "--anew" in Path(shutil.which(RT)).resolve().read_text(errors="replace")
    return [RT, "ci", "--anew"] if keeps else [RT, "ci"]


def main(log):
    taken = {}
    begun = time.time()
    with open(log, "wb") as report:
        gate = subprocess.Popen(gate_words(), stdin=subprocess.DEVNULL, stdout=report, stderr=subprocess.STDOUT)
        ended = (0, 0, None)
        while not ended[0]:
            found = processes()
            for number, (_, start, seconds) in found.items():
                if is_below(number, gate.pid, found) and (check := check_of(number)):
                    taken[check, number, start] = seconds
            time.sleep(1)
            ended = os.wait4(gate.pid, os.WNOHANG)
    _, status, usage = ended
    checks = {}
    for (check, _, _), seconds in taken.items():
        checks[check] = checks.get(check, 0) + seconds
    for check, seconds in sorted(checks.items(), key=lambda it: -it[1]):
        print(f"{seconds / 60:7.1f} min  {check}")
    print(f"{(usage.ru_utime + usage.ru_stime) / 60:7.1f} processor minutes in {(time.time() - begun) / 60:.1f} minutes, status {os.waitstatus_to_exitcode(status)}")
    return os.waitstatus_to_exitcode(status)


if __name__ == "__main__":
    sys.exit(main(sys.argv[1]))
