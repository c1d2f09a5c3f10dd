"""How a client of `divrelca.aio` comes in: files of keys, time limits, and errors by class."""

import asyncio
import os
import pathlib
import tempfile
import unittest
from unittest import mock

from .common import HOST_SEED, USER_SEED, USERS

import divrelca
from divrelca import public_key
from divrelca.aio import (
    ConnectionFailed,
    ConnectionLost,
    Disconnected,
    HostKeyMismatch,
    HostKeyUnknown,
    PermissionDenied,
    ProtocolError,
    connect,
    serve,
)
from .keys import line_of, private_file


async def handle(process):
    return 0


class Login(unittest.IsolatedAsyncioTestCase):
    async def asyncSetUp(self):
        self.server = await serve(handle, port=0, host_seed=HOST_SEED, users=USERS)
        self.port = self.server.sockets[0].getsockname()[1]
        folder = tempfile.TemporaryDirectory()
        self.addCleanup(folder.cleanup)
        self.home = pathlib.Path(folder.name)
        (self.home / ".ssh").mkdir()
        self.known = self.home / "known"
        self.known.write_text(f"[127.0.0.1]:{self.port} {line_of(public_key(HOST_SEED))}\n")
        for name, seed in (("user", USER_SEED), ("other", bytes(32))):
            (self.home / name).write_text(private_file(seed))

    async def asyncTearDown(self):
        self.server.close()
        await self.server.wait_closed()

    def connect(self, **words):
        return connect("127.0.0.1", self.port, **{"user": "me", "known_hosts": self.known, "keys": self.home / "user", **words})

    async def test_files(self):
        async with await self.connect() as connection:
            self.assertEqual((await connection.run("x")).status, 0)
            self.assertEqual(connection.peer[:2], ("127.0.0.1", self.port))

    async def test_files_by_default(self):
        (self.home / ".ssh/id_ed25519").write_text(private_file(USER_SEED))
        (self.home / ".ssh/known_hosts").write_text(self.known.read_text())
        with mock.patch.dict(os.environ, {"HOME": str(self.home), "LOGNAME": "me"}):
            async with await connect("127.0.0.1", self.port) as connection:
                self.assertEqual(connection.user, b"me")

    async def test_several_keys(self):
        async with await self.connect(keys=[self.home / "other", self.home / "user"]) as connection:
            self.assertEqual(connection.user, b"me")
        with self.assertRaises(PermissionDenied):
            await self.connect(keys=[self.home / "other", self.home / "other"])
        async with await self.connect(keys=[self.home / "other"], password="word") as connection:
            self.assertEqual(connection.user, b"me")

    async def test_who_is_not_let_in(self):
        with self.assertRaises(PermissionDenied) as denied:
            await self.connect(keys=[self.home / "other"])
        self.assertEqual((denied.exception.user, set(denied.exception.methods)), ("me", {"publickey", "password"}))

    async def test_hosts(self):
        self.known.write_text("elsewhere " + line_of(public_key(HOST_SEED)) + "\n")
        with self.assertRaises(HostKeyUnknown):
            await self.connect()
        with self.assertRaises(FileNotFoundError):
            await self.connect(known_hosts=self.home / "none")
        self.known.write_text("* " + line_of(public_key(USER_SEED)) + "\n")
        with self.assertRaises(HostKeyMismatch) as refused:
            await self.connect()
        self.assertEqual((refused.exception.name, refused.exception.refusal), ("BadHost", 11))
        self.known.write_text("@revoked * what\n")
        with self.assertRaises(divrelca.BadFile):
            await self.connect()

    async def peer_that_says(self, said, ends=True):
        async def one(reader, writer):
            writer.write(said)
            await writer.drain()
            if ends:
                writer.close()
            else:
                self.addCleanup(writer.close)

        server = await asyncio.start_server(one, "127.0.0.1", 0)
        self.addCleanup(server.close)
        self.port = server.sockets[0].getsockname()[1]

    async def test_peers_that_are_none(self):
        words = {"host_key": public_key(HOST_SEED)}
        for said, error in ((b"", ConnectionLost), (b"SSH-2.0-x\r\n", ConnectionLost), (b"SSH-1.5-x\r\n", ProtocolError)):
            await self.peer_that_says(said)
            with self.assertRaises(error):
                await self.connect(**words)
        self.server.close()
        await self.server.wait_closed()
        with self.assertRaises(OSError):
            await connect("127.0.0.1", self.server_port_of_nobody(), user="me", **words)

    def server_port_of_nobody(self):
        import socket

        with socket.socket() as probe:
            probe.bind(("127.0.0.1", 0))
            return probe.getsockname()[1]

    async def test_time_limit(self):
        await self.peer_that_says(b"SSH-2.0-x\r\n", ends=False)
        with self.assertRaises(asyncio.TimeoutError):
            await self.connect(host_key=public_key(HOST_SEED), connect_timeout=0.2)

    async def test_peer_that_disconnects(self):
        async with await self.connect() as connection:
            with self.assertRaises(ConnectionFailed):
                await self.connect(user="me", keys=[self.home / "other"])
            process = await connection.start("x")
            await process.wait()
        with self.assertRaises(ConnectionFailed) as closed:
            await connection.run("x")
        self.assertNotIsInstance(closed.exception, (ConnectionLost, Disconnected))

    async def test_silent_peer(self):
        stopped = asyncio.Event()

        async def waits(process):
            await stopped.wait()

        server = await serve(waits, port=0, host_seed=HOST_SEED, users=USERS, keepalive=0.1)
        self.addCleanup(server.close)
        self.port = server.sockets[0].getsockname()[1]
        connection = await self.connect(host_key=public_key(HOST_SEED), keepalive=0.1)
        process = await connection.start("x")
        await asyncio.sleep(1)
        self.assertFalse(connection.lost.done())
        connection.transport.pause_reading()
        with self.assertRaises(ConnectionLost):
            await asyncio.wait_for(connection.request("never@answered"), 10)
        self.assertEqual(await process.wait(), (None, None))
        stopped.set()


if __name__ == "__main__":
    unittest.main()
