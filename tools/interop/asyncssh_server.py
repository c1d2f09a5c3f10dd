"""A server of asyncssh on the loopback: prints its port, and serves until it is ended. `cat` sends its input back, every other command says its
own words and ends with status 5. Its keys stand in the directory that is named."""

import asyncio
import os
import sys

import asyncssh

where = sys.argv[1]


class Server(asyncssh.SSHServer):
    def password_auth_supported(self):
        return True

    def validate_password(self, username, password):
        with open(os.path.join(where, "password")) as file:
            return username == "reader" and password == file.read().strip()


async def serve(process):
    if process.command == "cat":
        async for piece in pieces(process.stdin):
            process.stdout.write(piece)
            await process.stdout.drain()
        process.exit(0)
    else:
        process.stdout.write(process.command.encode() + b"\n")
        process.exit(5)


async def pieces(reader):
    while True:
        piece = await reader.read(32768)
        if not piece:
            return
        yield piece


async def main():
    server = await asyncssh.create_server(
        Server,
        "127.0.0.1",
        0,
        server_host_keys=[os.path.join(where, "host")],
        authorized_client_keys=os.path.join(where, "authorized"),
        process_factory=serve,
        encoding=None,
    )
    print(server.sockets[0].getsockname()[1], flush=True)
    await server.wait_closed()


asyncio.run(main())
