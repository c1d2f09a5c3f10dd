"""Writes stored scripts that meet a limit on both of its sides, through both ends: the most data of a message, the longest payload, the longest packet and the most channels.

Usage: limits.py FOLDER. What each line of a script comes to is said here by the rules of docs/STRICTER.md, and is no output of a program. Where an end would not send what is
over the limit, the bytes are those of a peer that keeps to no rules, as in stranger.py."""

import struct
import sys
from pathlib import Path

from stranger import Script, string

LARGEST_DATA, LONGEST_PAYLOAD, LONGEST_PACKET, CHANNELS, TAG = 32768, 34000, 35000, 1024, 32
OPEN, FAILURE = "90 CHANNEL_OPEN 24", "92 CHANNEL_OPEN_FAILURE 17"


def other(side):
    return "cs".replace(side, "")


def asks(script, side, ask, sent, *told):
    """An ask that is done: this is sent, and the end itself is told so."""
    script.does(f"ask {side} {ask}", f"{side} asked {ask.split()[0]}", f"{side} sent {sent}", *told)


def passes(script, side, *expected):
    script.does(f"pass {side} {other(side)} all", *expected)


def reaches(script, side, ask, sent, told):
    """An ask that is done, and what the other end is told of it."""
    asks(script, side, ask, sent)
    passes(script, side, f"{other(side)} took {sent}", f"{other(side)} told {told}")


def refuses(script, side, ask, refusal):
    script.does(f"ask {side} {ask}", f"{side} asked {ask.split()[0]}", f"{side} ask refused {refusal}")


def says(script, line):
    script.lines.append(f"# {line}")


def largest_data():
    about = ["The most data of a message are 32,768 bytes. Each end offers to take so many and no more, sends and takes so many, and refuses an ask for one more.",
             "The windows have 65,536, so the length alone decides. What is refused costs no window: data of 32,768 bytes go out after it."]
    script = Script(about, "s", user="user u p")
    script.two_ends_with_user()
    says(script, "An offer of no bytes in a message, or of 32,769, is too much.")
    for most in (0, LARGEST_DATA + 1):
        refuses(script, "c", f"open session 65536 {most}", "10 TooMuch")
    asks(script, "c", f"open session 65536 {LARGEST_DATA}", OPEN, "c told opening 0")
    passes(script, "c", f"s took {OPEN}", "s told open 0")
    for most in (0, LARGEST_DATA + 1):
        refuses(script, "s", f"confirm 0 65536 {most}", "10 TooMuch")
    reaches(script, "s", f"confirm 0 65536 {LARGEST_DATA}", "91 CHANNEL_OPEN_CONFIRMATION 17", "confirmed 0")
    says(script, "Before data stand their number, channel and length, which are 9 bytes, and before data of a type 13.")
    refuses(script, "c", "data 0 " + "61" * (LARGEST_DATA + 1), "5 TooLong")
    reaches(script, "c", "data 0 " + "61" * LARGEST_DATA, f"94 CHANNEL_DATA {LARGEST_DATA + 9}", f"data 0 {LARGEST_DATA}")
    refuses(script, "s", "extended 0 1 " + "61" * (LARGEST_DATA + 1), "5 TooLong")
    reaches(script, "s", "extended 0 1 " + "61" * LARGEST_DATA, f"95 CHANNEL_EXTENDED_DATA {LARGEST_DATA + 13}", f"extended 0 1 {LARGEST_DATA}")
    return script


def data_over_the_largest_at(to, end):
    about = [f"Data of 32,768 bytes come to the {end}, which takes so many in a message, and then data of a byte more. The window has 1,048,576 before them."]
    script = Script(about, to, user="user u p")
    script.two_ends_with_channel()
    grown = 2**20 - 10
    reaches(script, to, f"adjust 0 {grown}", "93 CHANNEL_WINDOW_ADJUST 9", f"adjusted 0 {grown}")
    data = b"\x5e" + bytes(4)
    script.taken(data + string(b"a" * LARGEST_DATA), f"told data 0 {LARGEST_DATA}")
    script.both_are_over(data + string(b"a" * (LARGEST_DATA + 1)), "17 WindowOverrun", 2)
    return script


def longest_payload():
    about = ["An end sends payloads of 34,000 bytes at most. Each sends one of so many and takes it, and refuses an ask for one more, which changes nothing.",
             "A request of the user u has 41 bytes besides its password, and a global request 6 besides its name."]
    script = Script(about, "s", user="user u p")
    script.two_ends_with_service()
    refuses(script, "c", "password u " + "q" * (LONGEST_PAYLOAD - 40), "5 TooLong")
    asks(script, "c", "password u " + "q" * (LONGEST_PAYLOAD - 41), f"50 USERAUTH_REQUEST {LONGEST_PAYLOAD}")
    passes(script, "c", f"s took 50 USERAUTH_REQUEST {LONGEST_PAYLOAD}", "s sent 51 USERAUTH_FAILURE 24")
    passes(script, "s", "c took 51 USERAUTH_FAILURE 24", "c told failure")
    asks(script, "c", "password u p", "50 USERAUTH_REQUEST 42")
    passes(script, "c", "s took 50 USERAUTH_REQUEST 42", "s sent 52 USERAUTH_SUCCESS 1", "s told accepted")
    passes(script, "s", "c took 52 USERAUTH_SUCCESS 1", "c told authenticated")
    for side in "cs":
        refuses(script, side, f"global {'x' * (LONGEST_PAYLOAD - 5)} no", "5 TooLong")
        reaches(script, side, f"global {'x' * (LONGEST_PAYLOAD - 6)} no", f"80 GLOBAL_REQUEST {LONGEST_PAYLOAD}", "global")
    return script


def longest_packet_at(to, end):
    about = ["The longest packet that is taken has 35,000 bytes, 32 of them its tag, and a payload of 34,959: more than an end sends. A packet of 8 bytes more is",
             f"refused at the {end} by its length, and the other end learns why."]
    script = Script(about, to)
    script.two_ends_with_keys()
    length = LONGEST_PACKET - TAG - 4
    script.taken(b"\x02" + string(b"a" * (length - 1 - 4 - 5)), "told ignored")
    script.deliver(struct.pack(">I", length + 8), ("refused 3 BadLength", "sent 1 DISCONNECT 22", "died"))
    passes(script, to, *script.disconnected(22, 2))
    return script


def clients_channel_table_full():
    about = ["1,024 channels at the client: it opens no other, and refuses one of the server by code 4. A number that is free again is taken by the next channel."]
    script = Script(about, "s", user="user u p")
    script.two_ends_with_user()
    ask = "open session 10 32768"
    for number in range(CHANNELS):
        asks(script, "c", ask, OPEN, f"c told opening {number}")
    refuses(script, "c", ask, "7 TableFull")
    asks(script, "s", ask, OPEN, "s told opening 0")
    passes(script, "s", f"c took {OPEN}", f"c sent {FAILURE}")
    says(script, "The server holds the number of its own channel until the FAILURE comes. So it has a number for 1,023 channels of the client, and refuses the last.")
    opened = [line for number in range(1, CHANNELS) for line in (f"s took {OPEN}", f"s told open {number}")]
    passes(script, "c", *opened, f"s took {OPEN}", f"s sent {FAILURE}", f"s took {FAILURE}", "s told open_failed 0 4")
    passes(script, "s", f"c took {FAILURE}", f"c told open_failed {CHANNELS - 1} 4")
    asks(script, "c", ask, OPEN, f"c told opening {CHANNELS - 1}")
    passes(script, "c", f"s took {OPEN}", "s told open 0")
    for side in "cs":
        refuses(script, side, ask, "7 TableFull")
    return script


SCRIPTS = {
    "largest_data": largest_data(),
    "data_over_the_largest": data_over_the_largest_at("s", "server"),
    "data_over_the_clients_largest": data_over_the_largest_at("c", "client"),
    "longest_payload": longest_payload(),
    "longest_packet": longest_packet_at("s", "server"),
    "clients_longest_packet": longest_packet_at("c", "client"),
    "clients_channel_table_full": clients_channel_table_full(),
}


def main(folder):
    for name, script in SCRIPTS.items():
        Path(folder, f"{name}.txt").write_text(script.text())


if __name__ == "__main__":
    main(sys.argv[1])
