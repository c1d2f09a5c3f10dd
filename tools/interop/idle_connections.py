"""What many idle connections take of a server's memory: idle_connections.py FOLDER USER PORT LISTENER COUNT.

It opens so many connections by the library for Python, each with a user who is let in and nothing else, and looks at the processes of the server before and
after: the one that listens and all that it began. It prints how many connections there are, and of one connection the resident set and the proportional set
in KiB, which counts what processes share once."""

import asyncio
import pathlib
import re
import resource
import sys

import divrelca
from divrelca.aio import connect

AT_ONCE = 8


def children(parent):
    """The processes that a process began, and those that these began."""
    found = []
    for it in pathlib.Path("/proc").glob("[0-9]*"):
        try:
            fields = (it / "stat").read_text().rpartition(")")[2].split()
        except OSError:
            continue
        if int(fields[1]) == parent:
            found += [int(it.name), *children(int(it.name))]
    return found


def memory(listener):
    """The resident and the proportional set of a server, in KiB."""
    sums = [0, 0]
    for number in [listener, *children(listener)]:
        text = pathlib.Path(f"/proc/{number}/smaps_rollup").read_text()
        for place, name in enumerate(("Rss", "Pss")):
            sums[place] += int(re.search(rf"^{name}:\s*(\d+) kB", text, re.M)[1])
    return sums


async def main(folder, user, port, listener, count):
    folder, count, listener = pathlib.Path(folder), int(count), int(listener)
    _, hard = resource.getrlimit(resource.RLIMIT_NOFILE)
    resource.setrlimit(resource.RLIMIT_NOFILE, (hard, hard))
    given = {
        "host_key": divrelca.known_host((folder / "host.pub").read_bytes(), ""),
        "seed": divrelca.private_key((folder / "user").read_bytes())[0],
        "user": user,
    }
    places = asyncio.Semaphore(AT_ONCE)

    async def one():
        async with places:
            return await connect("127.0.0.1", int(port), **given)

    # (the first ones bring in what is there once for all)
    held = await asyncio.gather(*(one() for _ in range(AT_ONCE)))
    before = memory(listener)
    held += await asyncio.gather(*(one() for _ in range(count - AT_ONCE)))
    await asyncio.sleep(1)
    after = memory(listener)
    print(len(held), *(f"{(b - a) / (count - AT_ONCE):.0f}" for a, b in zip(before, after)))
    for connection in held:
        connection.close()


if __name__ == "__main__":
    asyncio.run(main(*sys.argv[1:]))
