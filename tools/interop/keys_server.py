"""A server of the library for Python that knows the keys of a file, of whatever kind: keys_server.py FOLDER PORT. Each command's output is the fingerprint of the key that
let the user in. It ends with status 5."""

import asyncio
import base64
import pathlib
import sys

import divrelca
from divrelca import WantedKind
from divrelca.aio import serve


async def handle(process):
    process.stdout.write(divrelca.fingerprint(process.blob).encode() + b"\n")
    return 5


async def main(folder, port):
    folder = pathlib.Path(folder)
    seed, _ = divrelca.private_key((folder / "host").read_bytes())
    keys = {base64.b64decode(line.split()[1]) for line in (folder / "key_all").read_text().splitlines()}

    def authorize(wanted):
        return wanted.kind == WantedKind.KEY and wanted.user == b"reader" and wanted.key in keys

    server = await serve(handle, "127.0.0.1", int(port), host_seed=seed, authorize=authorize)
    print("listens", flush=True)
    await server.serve_forever()


asyncio.run(main(*sys.argv[1:]))
