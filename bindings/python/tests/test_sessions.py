"""Sessions of `divrelca.aio`: terminals, variables, signals, time limits, and forwarded ports."""

import asyncio
import contextlib
import os
import shutil
import tempfile
import unittest

from .common import HOST_SEED, USER_SEED, USERS

from divrelca import private_key, public_key
from divrelca.aio import ChannelRefused, ConnectionFailed, ExitSignal, ProcessError, RequestRefused, Terminal, by_key, connect, serve
from divrelca.requests import read_terminal, read_variable


async def handle(process):
    """Does what the command names."""
    if process.command == b"env":
        process.stdout.write(repr(sorted(process.env.items())))
    elif process.command == b"terminal":
        it, resized = process.terminal, asyncio.get_running_loop().create_future()
        process.on_resize = resized.set_result
        process.stdout.write(f"{it.kind} {it.columns} {it.rows}\n" if it else "none\n")
        if it:
            now = await resized
            process.stdout.write(f"{now.columns} {now.rows} {process.terminal is now}\n")
    elif process.command == b"signal":
        came = asyncio.get_running_loop().create_future()
        process.on_signal = came.set_result
        process.stdout.write("ready\n")
        return ExitSignal(await came, message="as told")
    elif process.command == b"waits":
        await asyncio.sleep(60)
    elif process.command == b"peer":
        process.stdout.write(process.peer[0])
    else:
        process.stderr.write("there is no such command\n")
        return 127


class Sessions(unittest.IsolatedAsyncioTestCase):
    async def asyncSetUp(self):
        self.asked = []
        self.server = await serve(handle, port=0, host_seed=HOST_SEED, users=USERS, forward=self.may, listen=self.may_listen)
        self.port = self.server.sockets[0].getsockname()[1]
        echoes = await asyncio.start_server(self.echo, "127.0.0.1", 0)
        self.addCleanup(echoes.close)
        self.echo_port = echoes.sockets[0].getsockname()[1]

    async def asyncTearDown(self):
        self.server.close()
        await self.server.wait_closed()

    async def echo(self, reader, writer):
        with contextlib.suppress(OSError):
            while data := await reader.read(65536):
                writer.write(data)
                await writer.drain()
            writer.write_eof()
        writer.close()

    def may(self, connection, host, port):
        self.asked.append((connection.user, host, port))
        return host == "127.0.0.1"

    async def may_listen(self, connection, host, port):
        await asyncio.sleep(0)
        return host == "127.0.0.1"

    def connect(self, **words):
        return connect("127.0.0.1", self.port, host_key=public_key(HOST_SEED), user="me", seed=USER_SEED, **words)

    async def test_variables(self):
        async with await self.connect() as connection:
            done = await connection.run("env", env={"LANG": "C", "A": "\N{EURO SIGN}"})
            self.assertEqual(done.stdout.decode(), "[('A', '\N{EURO SIGN}'), ('LANG', 'C')]")

    async def test_terminal(self):
        async with await self.connect() as connection:
            self.assertEqual((await connection.run("terminal")).stdout, b"none\n")
            process = await connection.start("terminal", terminal=Terminal("vt100", 100, 40))
            self.assertEqual(await process.stdout.readline(), b"vt100 100 40\n")
            process.resize(Terminal(columns=132, rows=50))
            self.assertEqual(await process.stdout.readline(), b"132 50 True\n")
            self.assertEqual(await process.wait(), (0, None))

    async def test_signals(self):
        async with await self.connect() as connection:
            process = await connection.start("signal")
            self.assertEqual(await process.stdout.readline(), b"ready\n")
            process.send_signal("TERM")
            self.assertEqual(await process.wait(), (None, "TERM"))

    async def test_text_in_and_a_status_that_is_checked(self):
        async with await self.connect() as connection:
            self.assertEqual((await connection.run("peer", "text", check=True)).stdout, b"127.0.0.1")
            with self.assertRaisesRegex(ProcessError, "status 127: there is no such command") as failed:
                await connection.run("x", check=True)
            self.assertEqual(failed.exception.completed.status, 127)

    async def test_time_limit_of_a_command(self):
        async with await self.connect() as connection:
            for _ in range(12):
                with self.assertRaises(asyncio.TimeoutError):
                    await connection.run("waits", timeout=0.05)
            self.assertEqual((await connection.run("peer")).status, 0)

    async def test_requests_that_are_none(self):
        self.assertIsNone(read_terminal(b""))
        self.assertIsNone(read_terminal(Terminal().request() + b"x"))
        self.assertIsNone(read_variable(b"\0\0\0\x09x"))
        async with await self.connect() as connection:
            channel = await connection.open_channel()
            for name, data in (("pty-req", b"\0"), ("env", b""), ("exec", b"\0\0\0\x05x"), ("x11-req", b""), ("signal", b"")):
                with self.assertRaises(RequestRefused) as refused:
                    await channel.request(name, data)
                self.assertEqual(refused.exception.request, name)

    async def talks(self, reader, writer):
        body = os.urandom(300_000)
        writer.write(body)
        writer.write_eof()
        return await reader.read() == body

    async def all_of(self, port):
        """What comes over a connection to its end."""
        reader, writer = await asyncio.open_connection("127.0.0.1", port)
        try:
            return await asyncio.wait_for(reader.read(), 10)
        finally:
            writer.close()

    async def test_local_ports(self):
        async with await self.connect() as connection:
            server = await connection.forward_local("127.0.0.1", 0, "127.0.0.1", self.echo_port)
            port = server.sockets[0].getsockname()[1]
            for _ in range(3):
                reader, writer = await asyncio.open_connection("127.0.0.1", port)
                self.assertTrue(await asyncio.wait_for(self.talks(reader, writer), 10))
                writer.close()
            server.close()
            with self.assertRaises(ChannelRefused) as refused:
                await connection.open_connection("localhost", self.echo_port)
            self.assertEqual(refused.exception.reason, 1)
            self.server.close()
            with self.assertRaises(ChannelRefused) as refused:
                await connection.open_connection("127.0.0.1", 1)
            self.assertEqual(refused.exception.reason, 2)
        self.assertEqual(self.asked[0], (b"me", "127.0.0.1", self.echo_port))

    async def test_remote_ports(self):
        async with await self.connect() as connection:
            port = await connection.forward_remote("127.0.0.1", 0, "127.0.0.1", self.echo_port)
            for _ in range(3):
                reader, writer = await asyncio.open_connection("127.0.0.1", port)
                self.assertTrue(await asyncio.wait_for(self.talks(reader, writer), 10))
                writer.close()
            await connection.cancel_forward("127.0.0.1", port)
            with self.assertRaises(OSError):
                await asyncio.open_connection("127.0.0.1", port)
            with self.assertRaises(RequestRefused):
                await connection.cancel_forward("127.0.0.1", port)
            with self.assertRaises(RequestRefused):
                await connection.forward_remote("0.0.0.0", 0, "127.0.0.1", self.echo_port)
            port = await connection.forward_remote("127.0.0.1", 0, "127.0.0.1", 1)
            self.assertEqual(await self.all_of(port), b"")
        with self.assertRaises(OSError):
            await asyncio.open_connection("127.0.0.1", port)

    async def test_connection_that_is_lost_while_ports_are_forwarded(self):
        connection = await self.connect()
        server = await connection.forward_local("127.0.0.1", 0, "127.0.0.1", self.echo_port)
        port = server.sockets[0].getsockname()[1]
        reader, writer = await asyncio.open_connection("127.0.0.1", port)
        writer.write(b"x")
        self.assertEqual(await reader.readexactly(1), b"x")
        connection.transport.abort()
        self.assertEqual(await asyncio.wait_for(reader.read(), 10), b"")
        writer.close()
        with self.assertRaises(ConnectionFailed):
            await connection.request("x")
        self.assertEqual(await self.all_of(port), b"")
        server.close()

    @unittest.skipUnless(shutil.which("ssh") and shutil.which("ssh-keygen"), "OpenSSH's client is not installed")
    async def test_ports_and_terminals_of_openssh(self):
        with tempfile.TemporaryDirectory() as folder:
            key = f"{folder}/key"
            make = await asyncio.create_subprocess_exec("ssh-keygen", "-q", "-t", "ed25519", "-N", "", "-f", key)
            self.assertEqual(await make.wait(), 0)
            with open(key, "rb") as file:
                users = [by_key("me", private_key(file.read())[1])]
            server = await serve(handle, port=0, host_seed=HOST_SEED, users=users, forward=self.may, listen=self.may_listen)
            self.addCleanup(server.close)
            port = str(server.sockets[0].getsockname()[1])
            options = ["-oStrictHostKeyChecking=no", f"-oUserKnownHostsFile={folder}/hosts", "-oBatchMode=yes", "-F", "none", "-i", key]
            words = ["ssh", *options, "-oSetEnv=A=b", "-p", port, "me@127.0.0.1"]
            pipe = asyncio.subprocess.PIPE
            ssh = await asyncio.create_subprocess_exec(*words, "env", stdin=pipe, stdout=pipe, stderr=pipe)
            out, err = await ssh.communicate(b"")
            self.assertEqual((out, ssh.returncode), (b"[('A', 'b')]", 0), err)
            ssh = await asyncio.create_subprocess_exec(*words[:1], "-W", f"127.0.0.1:{self.echo_port}", *words[1:], stdin=pipe, stdout=pipe, stderr=pipe)
            out, err = await ssh.communicate(b"through")
            self.assertEqual((out, ssh.returncode), (b"through", 0), err)


if __name__ == "__main__":
    unittest.main()
