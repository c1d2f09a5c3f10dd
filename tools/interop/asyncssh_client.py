"""A client of asyncssh at the server whose command stands in the directory that is named: says what it sees, in words. Where a third number is given, it
only sends data to `cat`, and exchanges keys again after so many bytes."""

import asyncio
import hashlib
import os
import sys

import asyncssh

where, size = sys.argv[1], int(sys.argv[2])


def connected(**options):
    return asyncssh.connect(
        "example.org",
        username="reader",
        known_hosts=os.path.join(where, "known"),
        proxy_command=[os.path.join(where, "server")],
        **options,
    )


def with_key():
    return dict(client_keys=[os.path.join(where, "user")])


def by_password(word):
    return dict(client_keys=[], password=word, preferred_auth="password")


async def main():
    async with connected(**with_key()) as connection:
        print((await connection.run("echo hello")).stdout, end="")
    with open(os.path.join(where, "password")) as file:
        word = file.read().strip()
    async with connected(**by_password(word)) as connection:
        print((await connection.run("echo hello")).stdout, end="")
        print((await connection.run("exit 7")).exit_status)
    await there_and_back()
    try:
        async with connected(**by_password("another word")):
            print("let in")
    except asyncssh.PermissionDenied:
        print("denied")


async def there_and_back(**options):
    async with connected(**with_key(), **options) as connection:
        with open(os.path.join(where, "data"), "rb") as file:
            data = file.read(size)
        ran = await connection.run("cat", input=data, encoding=None)
        are_same = hashlib.sha256(ran.stdout).digest() == hashlib.sha256(data).digest()
        print("same" if are_same else "another hash")


if len(sys.argv) > 3:
    asyncio.run(there_and_back(rekey_bytes=int(sys.argv[3])))
else:
    asyncio.run(main())
