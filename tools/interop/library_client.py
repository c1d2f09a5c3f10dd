"""A client of the library for Python: library_client.py FOLDER USER PORT. It sends FOLDER/data to `cat` on three channels at once, and prints what came of it."""

import asyncio
import pathlib
import sys

import divrelca
from divrelca.aio import ConnectionFailed, connect


async def main(folder, user, port):
    folder = pathlib.Path(folder)
    host_key = divrelca.known_host((folder / "host.pub").read_bytes(), "")
    seed, _ = divrelca.private_key((folder / "user").read_bytes())
    other, _ = divrelca.private_key((folder / "other").read_bytes())
    data = (folder / "data").read_bytes()
    given = {"host_key": host_key, "user": user}
    async with await connect("127.0.0.1", int(port), seed=seed, epoch_limit=64, **given) as connection:
        runs = await asyncio.gather(*(connection.run(f"cat; echo words >&2; exit {it}", data) for it in range(3)))
        print(*("same" if it.stdout == data else "other" for it in runs), *(it.status for it in runs), runs[0].stderr.decode().strip())
    try:
        await connect("127.0.0.1", int(port), seed=other, **given)
    except ConnectionFailed:
        print("denied")


asyncio.run(main(*sys.argv[1:]))
