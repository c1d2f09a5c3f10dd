"""A client of the library for Python at a server that is no OpenSSH's: library_peers.py PEER FOLDER PORT. Prints what came of each thing that it tried: words, a status, bytes there
and back; a password; and a key and a password that let nobody in."""

import asyncio
import pathlib
import sys

import divrelca
from divrelca.aio import ConnectionFailed, connect

# What each packet of sftp begins with is its length; SSH_FXP_INIT is of version 3, and is answered by SSH_FXP_VERSION, 2.
SFTP_INIT = bytes([0, 0, 0, 5, 1, 0, 0, 0, 3])


async def at_asyncssh(connection, data):
    said = await connection.run("echo hello")
    print(said.stdout.decode().strip(), said.status)
    runs = await asyncio.gather(*(connection.run("cat", data) for _ in range(2)))
    print(*("same" if it.stdout == data else "other" for it in runs))


async def at_erlang(connection, data):
    said = await connection.run("echo hello")
    print(said.stdout.decode().strip(), said.status)
    many = await connection.run("many")
    print("same" if many.stdout == b"x" * 1_000_000 else "other")
    process = await connection.start(subsystem="sftp")
    process.stdin.write(SFTP_INIT)
    print((await process.stdout.readexactly(5))[4])
    process.channel.close()


async def main(peer, folder, port):
    folder = pathlib.Path(folder)
    seeds = [divrelca.private_key((folder / it).read_bytes())[0] for it in ("user", "other")]
    words = [(folder / it).read_text().strip() for it in ("password", "wrong")]
    given = {"port": int(port), "host_key": divrelca.known_host((folder / "host.pub").read_bytes(), ""), "user": "reader"}
    async with await connect("127.0.0.1", seed=seeds[0], **given) as connection:
        await {"asyncssh": at_asyncssh, "erlang": at_erlang}[peer](connection, (folder / "data").read_bytes())
    async with await connect("127.0.0.1", password=words[0], **given) as connection:
        print((await connection.run("echo hello")).stdout.decode().strip())
    for wrong in ({"seed": seeds[1]}, {"password": words[1]}):
        try:
            await connect("127.0.0.1", **wrong, **given)
            print("let in")
        except ConnectionFailed:
            print("denied")


asyncio.run(main(*sys.argv[1:]))
