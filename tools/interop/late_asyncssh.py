"""A client of asyncssh: late_asyncssh.py FOLDER PORT. It runs a command as reader with the user's key, says its output, and ends with its status."""

import asyncio
import os
import sys

import asyncssh


async def main(folder, port):
    options = {"username": "reader", "known_hosts": os.path.join(folder, "known_late"), "client_keys": [os.path.join(folder, "user")]}
    async with asyncssh.connect("127.0.0.1", int(port), **options) as connection:
        ran = await connection.run("x")
    print(ran.stdout, end="")
    return ran.exit_status


sys.exit(asyncio.run(main(*sys.argv[1:])))
