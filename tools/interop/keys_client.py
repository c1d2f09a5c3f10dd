"""A client of the library for Python with an agent: keys_client.py FOLDER USER PORT ALGORITHM. It takes a host key for this algorithm that stands in the folder, runs a
command, and says its output and its status."""

import asyncio
import base64
import pathlib
import sys

from divrelca.aio import connect


async def main(folder, user, port, algorithm):
    keys = {base64.b64decode((pathlib.Path(folder) / f"{name}.pub").read_text().split()[1]) for name in ("host", "key_rsa", "key_ecdsa")}
    words = {"user": user, "agent": True, "keys": [], "host_key": [], "trust": lambda wanted: wanted.key in keys}
    async with await connect("127.0.0.1", int(port), host_algorithms=[algorithm.encode()], **words) as connection:
        done = await connection.run("echo in; exit 3")
    print(f"{done.stdout.decode().strip()}, status {done.status}")


asyncio.run(main(*sys.argv[1:]))
