"""A server of the library for Python on the loopback: library_server.py FOLDER PORT. `cat` says a word on standard error, sends its input back and ends with status 3; every
other command says its own words and ends with status 5. It says when it listens, and serves until it is ended."""

import asyncio
import pathlib
import sys

import divrelca
from divrelca.aio import by_key, by_password, serve


async def handle(process):
    if process.command != b"cat":
        process.stdout.write((process.command or b"a shell") + b"\n")
        return 5
    process.stderr.write(b"words\n")
    while piece := await process.stdin.read(65536):
        process.stdout.write(piece)
        await process.stdout.drain()
    return 3


async def main(folder, port):
    folder = pathlib.Path(folder)
    seed, _ = divrelca.private_key((folder / "host").read_bytes())
    users = [by_key("reader", it) for it in divrelca.authorized_keys((folder / "authorized").read_bytes())]
    users.append(by_password("reader", (folder / "password").read_text().strip()))
    server = await serve(handle, "127.0.0.1", int(port), host_seed=seed, users=users)
    print("listens", flush=True)
    await server.serve_forever()


asyncio.run(main(*sys.argv[1:]))
