"""Ends of asyncssh with keys of other kinds. `keys_asyncssh.py client FOLDER PORT KEY` runs a command as reader with this key, says its output, and ends with its status.
`keys_asyncssh.py server FOLDER` has host keys of RSA and ECDSA, takes reader's key of Ed25519, prints its port, and serves until it is ended."""

import asyncio
import os
import sys

import asyncssh


async def client(folder, port, key):
    options = {"username": "reader", "known_hosts": os.path.join(folder, "known_keys"), "client_keys": [os.path.join(folder, key)]}
    async with asyncssh.connect("127.0.0.1", int(port), **options) as connection:
        ran = await connection.run("x")
    print(ran.stdout, end="")
    return ran.exit_status


def serve(process):
    process.stdout.write("in\n")
    process.exit(3)


async def server(folder):
    keys = [os.path.join(folder, name) for name in ("key_rsa", "key_ecdsa")]
    listening = await asyncssh.listen(
        "127.0.0.1", 0, server_host_keys=keys, authorized_client_keys=os.path.join(folder, "key_all"), process_factory=serve
    )
    print(listening.sockets[0].getsockname()[1], flush=True)
    await asyncio.Event().wait()


sys.exit(asyncio.run({"client": client, "server": server}[sys.argv[1]](*sys.argv[2:])))
