"""A server of the library for Python whose look-up takes a second: late_server.py FOLDER PORT. It knows nobody beforehand. Each command's output is what the
user was let in by: "password", or the fingerprint of the key. It ends with status 5."""

import asyncio
import pathlib
import sys

import divrelca
from divrelca import WantedKind
from divrelca.aio import serve


async def handle(process):
    shown = divrelca.fingerprint(divrelca.to_blob(process.key)) if process.key else process.shown.name.lower()
    process.stdout.write(shown.encode() + b"\n")
    return 5


async def main(folder, port):
    folder = pathlib.Path(folder)
    seed, _ = divrelca.private_key((folder / "host").read_bytes())
    keys = divrelca.authorized_keys((folder / "authorized").read_bytes())
    word = (folder / "password").read_bytes().strip()

    async def authorize(wanted):
        await asyncio.sleep(1)
        if wanted.user != b"reader":
            return False
        if wanted.kind == WantedKind.KEY:
            return divrelca.of_blob(wanted.key) in keys
        return wanted.kind == WantedKind.PASSWORD and wanted.password == word

    server = await serve(handle, "127.0.0.1", int(port), host_seed=seed, authorize=authorize)
    print("listens", flush=True)
    await server.serve_forever()


asyncio.run(main(*sys.argv[1:]))
