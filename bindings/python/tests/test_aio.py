"""A client and a server over asyncio on loopback, and OpenSSH's client where it is installed."""

import asyncio
import contextlib
import gc
import os
import shutil
import socket
import tempfile
import time
import unittest
from unittest import mock

from .common import HOST_SEED, USER_SEED, USERS

from divrelca import ClientEnd, Event, Kind, aio, private_key, public_key, server
from divrelca.aio import ConnectionFailed, by_key, by_password, connect, serve


async def handle(process):
    """Echoes what comes, and ends with the status that the command is."""
    if process.subsystem == b"fails":
        raise RuntimeError("as planned")
    if process.command == b"ends at once":
        return 5
    process.stderr.write(process.user)
    while data := await process.stdin.read(65536):
        process.stdout.write(data)
        await process.stdout.drain()
    return int(process.command or b"0")


class Aio(unittest.IsolatedAsyncioTestCase):
    async def asyncSetUp(self):
        asyncio.get_running_loop().slow_callback_duration = 5
        self.server = await serve(handle, port=0, host_seed=HOST_SEED, users=USERS)
        self.port = self.server.sockets[0].getsockname()[1]

    async def asyncTearDown(self):
        self.server.close()
        await self.server.wait_closed()

    def connect(self, **settings):
        given = {"host_key": public_key(HOST_SEED), "user": "me", "seed": USER_SEED}
        return connect("127.0.0.1", self.port, **{**given, **settings})

    async def test_run(self):
        async with await self.connect() as connection:
            done = await connection.run("3", b"hello")
            self.assertEqual((done.stdout, done.stderr, done.status, done.signal), (b"hello", b"me", 3, None))

    @unittest.skipUnless(hasattr(socket, "TCP_QUICKACK"), "this system has no such option")
    async def test_login_is_acknowledged_at_once(self):
        seen, acknowledge = [], server.ServerConnection._acknowledge

        def noted(connection):
            acknowledge(connection)
            accepted = connection.transport.get_extra_info("socket")
            seen.append((connection.user, accepted.getsockopt(socket.IPPROTO_TCP, socket.TCP_QUICKACK)))

        with mock.patch.object(server.ServerConnection, "_acknowledge", noted):
            async with await self.connect() as connection:
                await connection.run("3", b"hello")
        self.assertGreater(len(seen), 3)
        self.assertEqual(set(seen), {(None, 1)})

    async def test_command_that_takes_no_input(self):
        async with await self.connect() as connection:
            for body in (b"", bytes(10), bytes(3_000_000)) * 10:
                self.assertEqual((await connection.run("ends at once", body)).status, 5)

    async def test_password(self):
        async with await self.connect(seed=b"", password="word") as connection:
            self.assertEqual((await connection.run("0")).status, 0)

    async def test_wrong_password(self):
        with self.assertRaises(ConnectionFailed):
            await self.connect(seed=b"", password="no word")

    async def looks_up(self, lookup):
        """Serves, beside the other server, whom this function finds."""
        server = await serve(handle, port=0, host_seed=HOST_SEED, users=[by_password("other", "word")], lookup=lookup)
        self.port = server.sockets[0].getsockname()[1]
        self.addCleanup(server.close)

    async def test_lookup(self):
        asked = []

        def plain(name):
            asked.append(name)
            return [by_key(name, public_key(USER_SEED)), by_password(name, "word")] if name == b"me" else None

        async def slow(name):
            await asyncio.sleep(0.1)
            return plain(name)

        for lookup in (plain, slow):
            asked.clear()
            await self.looks_up(lookup)
            for words in ({}, {"seed": b"", "password": "word"}, {"user": "other", "password": "word"}):
                async with await self.connect(**words) as connection:
                    self.assertEqual((await connection.run("0", b"x")).stdout, b"x")
            for words in ({"seed": HOST_SEED}, {"user": "you"}):
                with self.assertRaises(ConnectionFailed):
                    await self.connect(**words)
            self.assertEqual(asked, [b"me", b"me", b"other", b"me", b"you"])

    async def test_lookup_that_fails(self):
        told = []
        asyncio.get_running_loop().set_exception_handler(lambda _, context: told.append(context["message"]))

        async def fails(name):
            raise RuntimeError("as planned")

        for lookup in (fails, lambda name: [by_password("me too", "word")]):
            told.clear()
            await self.looks_up(lookup)
            with self.assertRaises(ConnectionFailed):
                await self.connect(password="word")
            self.assertEqual(told, ["a user could not be looked up"])

    async def test_connection_that_is_lost_during_a_lookup(self):
        begun, ended = asyncio.Event(), asyncio.Event()

        async def endless(name):
            begun.set()
            try:
                await asyncio.sleep(60)
            finally:
                ended.set()

        server = await serve(handle, port=0, host_seed=HOST_SEED, lookup=endless, grace=0.5)
        self.addCleanup(server.close)
        self.port = server.sockets[0].getsockname()[1]
        connecting = asyncio.ensure_future(self.connect())
        await asyncio.wait_for(begun.wait(), 10)
        with self.assertRaises(ConnectionFailed):
            await asyncio.wait_for(connecting, 10)
        await asyncio.wait_for(ended.wait(), 10)

    async def test_wrong_host(self):
        with self.assertRaises(ConnectionFailed) as refused:
            await self.connect(host_key=public_key(USER_SEED))
        self.assertIn("refused", str(refused.exception))
        with self.assertRaises(ConnectionFailed):
            await self.connect(host_key=[public_key(USER_SEED), public_key(bytes(32))])

    async def test_host_with_two_keys(self):
        async with await self.connect(host_key=[public_key(USER_SEED), public_key(HOST_SEED)]) as connection:
            self.assertEqual((await connection.run("0")).status, 0)

    async def test_much_data_in_several_channels(self):
        body = os.urandom(500_000)
        async with await self.connect(epoch_limit=64) as connection:
            done = await asyncio.gather(*(connection.run(str(it), body) for it in range(3)))
            self.assertEqual([it.status for it in done], [0, 1, 2])
            self.assertTrue(all(it.stdout == body for it in done))

    async def test_slow_reader_stops_its_peer(self):
        async with await self.connect() as connection:
            process = await connection.start("0")
            process.stdin.write(bytes(6_000_000))
            with self.assertRaises(asyncio.TimeoutError):
                await asyncio.wait_for(process.stdin.drain(), 1.0)
            reading = asyncio.ensure_future(process.stdout.read())
            await process.stdin.drain()
            process.stdin.write_eof()
            self.assertEqual(len(await reading), 6_000_000)

    async def test_handler_that_fails(self):
        told = []
        asyncio.get_running_loop().set_exception_handler(lambda _, context: told.append(context["message"]))
        async with await self.connect() as connection:
            process = await connection.start(subsystem="fails")
            self.assertEqual((await process.wait())[0], 1)
        self.assertEqual(told, ["the handler of a session failed"])

    async def serves(self, other):
        """Serves, beside the other server, by this handler."""
        server = await serve(other, port=0, host_seed=HOST_SEED, users=USERS)
        self.port = server.sockets[0].getsockname()[1]
        self.addCleanup(server.close)

    def told(self):
        """What the loop's exception handler is told from now on."""
        told = []
        asyncio.get_running_loop().set_exception_handler(lambda _, context: told.append(context["message"]))
        return told

    async def test_status_of_a_closed_session_is_told_to_nobody(self):
        gate = asyncio.Event()

        async def waits(process):
            while not gate.is_set():
                with contextlib.suppress(asyncio.CancelledError):
                    await gate.wait()
            if process.command == b"second":
                await process.stdin.read()
            return 7

        await self.serves(waits)
        async with await self.connect() as connection:
            first = await connection.start("first")
            first.channel.close()
            await first.wait()
            second = await connection.start("second")
            self.assertEqual(second.channel.number, first.channel.number)
            gate.set()
            await asyncio.sleep(0.1)
            self.assertIsNone(second.channel.exit_status)
            second.stdin.write_eof()
            self.assertEqual(await asyncio.wait_for(second.wait(), 10), (7, None))
            with self.assertRaises(ConnectionFailed):
                await first.channel.request("env")

    async def test_closed_session_ends_its_handler(self):
        running = set()

        async def endless(process):
            running.add(process)
            try:
                await asyncio.sleep(3600)
            finally:
                running.discard(process)

        await self.serves(endless)
        async with await self.connect() as connection:
            for _ in range(30):
                process = await connection.start("x")
                process.channel.close()
                await process.wait()
                await asyncio.sleep(0)
                self.assertLessEqual(len(running), 1)
            await asyncio.sleep(0.1)
            self.assertEqual(len(running), 0)

    async def test_handlers_that_do_not_end_count(self):
        running, over = [], asyncio.Event()

        async def stubborn(process):
            running.append(process)
            while not over.is_set():
                with contextlib.suppress(asyncio.CancelledError):
                    await over.wait()

        await self.serves(stubborn)
        async with await self.connect() as connection:
            with self.assertRaises(ConnectionFailed):
                for _ in range(30):
                    process = await connection.start("x")
                    process.channel.close()
                    await process.wait()
            self.assertEqual(len(running), server.CHANNELS)
            over.set()
            await asyncio.sleep(0.1)
            await connection.start("x")

    async def test_handler_without_a_status(self):
        told = self.told()

        async def returns(process):
            if process.command == b"cancelled":
                raise asyncio.CancelledError
            return {b"none": None, b"text": "3", b"float": 3.0, b"negative": -1}[process.command]

        await self.serves(returns)
        async with await self.connect() as connection:
            for command, status in (("none", 0), ("text", 1), ("float", 1), ("negative", 255), ("cancelled", 1)):
                done = await asyncio.wait_for(connection.run(command), 10)
                self.assertEqual(done.status, status, command)
        self.assertEqual(told, ["the handler of a session failed"] * 2)

    async def test_many_banners(self):
        end = ClientEnd(public_key(HOST_SEED))
        connection, body = aio.ClientConnection(end, "me", None, False), bytes(30_000)
        begun = time.monotonic()
        for _ in range(600):
            connection.hear(Event(Kind.BANNER, data=body))
        self.assertLess(time.monotonic() - begun, 1)
        self.assertEqual(connection.banner, bytes(600 * 30_000))
        end.close()

    async def test_run_that_is_cancelled_or_fails_closes_its_session(self):
        async def endless(process):
            await asyncio.sleep(3600)

        await self.serves(endless)
        async with await self.connect() as connection:
            for _ in range(12):
                with self.assertRaises(asyncio.TimeoutError):
                    await asyncio.wait_for(connection.run("x", bytes(3_000_000)), 0.1)
            for _ in range(12):
                opening = asyncio.ensure_future(connection.open_channel())
                await asyncio.sleep(0)
                opening.cancel()
                with self.assertRaises(asyncio.CancelledError):
                    await opening
            await asyncio.sleep(0.1)
            with mock.patch.object(aio.ServerConnection, "_requested", lambda connection, channel, event: connection.end.decline()):
                for _ in range(12):
                    with self.assertRaisesRegex(ConnectionFailed, "the request exec is refused"):
                        await connection.run("x")
            await connection.start("x")

    async def test_cancelled_connect_says_nothing(self):
        told = self.told()
        silent = await asyncio.start_server(lambda reader, writer: self.addCleanup(writer.close), "127.0.0.1", 0)
        self.addCleanup(silent.close)
        self.port = silent.sockets[0].getsockname()[1]
        connecting = asyncio.ensure_future(self.connect())
        await asyncio.sleep(0.1)
        connecting.cancel()
        with self.assertRaises(asyncio.CancelledError):
            await connecting
        del connecting
        await asyncio.sleep(0.1)
        gc.collect()
        self.assertEqual(told, [])

    async def test_unknown_channel_is_refused(self):
        async with await self.connect() as connection:
            with self.assertRaises(ConnectionFailed):
                await connection.open_channel("x11")

    async def test_lost_connection_ends_a_command(self):
        connection = await self.connect()
        process = await connection.start("0")
        connection.transport.abort()
        self.assertEqual(await process.stdout.read(), b"")
        self.assertEqual(await process.wait(), (None, None))
        with self.assertRaises(ConnectionFailed):
            await connection.start("0")

    @unittest.skipUnless(shutil.which("ssh") and shutil.which("ssh-keygen"), "OpenSSH's client is not installed")
    async def test_openssh_client(self):
        with tempfile.TemporaryDirectory() as folder:
            key = f"{folder}/key"
            make = await asyncio.create_subprocess_exec("ssh-keygen", "-q", "-t", "ed25519", "-N", "", "-f", key)
            self.assertEqual(await make.wait(), 0)
            with open(key, "rb") as file:
                public = private_key(file.read())[1]
            options = ["-oStrictHostKeyChecking=no", f"-oUserKnownHostsFile={folder}/hosts", "-oBatchMode=yes", "-F", "none", "-i", key]
            pipe = asyncio.subprocess.PIPE
            for users in ({"users": [by_key("me", public)]}, {"lookup": lambda name: [by_key(name, public)]}):
                server = await serve(handle, port=0, host_seed=HOST_SEED, **users)
                port = str(server.sockets[0].getsockname()[1])
                ssh = await asyncio.create_subprocess_exec(
                    "ssh", *options, "-p", port, "me@127.0.0.1", "7", stdin=pipe, stdout=pipe, stderr=pipe
                )
                out, err = await ssh.communicate(b"hello")
                self.assertEqual((out, ssh.returncode), (b"hello", 7), err)
                server.close()


if __name__ == "__main__":
    unittest.main()
