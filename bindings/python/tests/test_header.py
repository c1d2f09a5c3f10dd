"""The package's numbers and structs are those of divrelca.h."""

import ctypes
import pathlib
import re
import unittest

from . import common  # noqa: F401 (skips where the library is missing)

from divrelca import AskKind, Ciphers, Code, Kind, Login, Methods, library

HEADER = pathlib.Path(__file__).resolve().parents[2] / "include" / "divrelca.h"


def numbers(text, name):
    """The constants of an enum of the header."""
    body = re.search(rf"enum {name} \{{(.*?)\}};", text, re.DOTALL).group(1)
    body = re.sub(r"/\*.*?\*/|//[^\n]*", "", body, flags=re.DOTALL)
    return {key: int(value) for key, value in re.findall(r"DV_(\w+) = (-?\d+)", body)}


@unittest.skipUnless(HEADER.is_file(), f"{HEADER} is not there")
class Header(unittest.TestCase):
    def test_numbers(self):
        text = HEADER.read_text()
        for name, enum, start in (
            ("dv_code", Code, ""),
            ("dv_kind", Kind, ""),
            ("dv_ask_kind", AskKind, "ASK_"),
            ("dv_login", Login, "LOGIN_"),
            ("dv_ciphers", Ciphers, ""),
            ("dv_methods", Methods, "METHOD_"),
        ):
            with self.subTest(name):
                self.assertEqual({start + it.name: it.value for it in enum}, numbers(text, name))

    def test_structs(self):
        text = HEADER.read_text()
        for name, struct in (
            ("dv_bytes", library.Bytes),
            ("dv_user", library.User),
            ("dv_server_settings", library.ServerSettings),
            ("dv_client_settings", library.ClientSettings),
            ("dv_event", library.Event),
            ("dv_ask", library.Ask),
        ):
            with self.subTest(name):
                body = re.search(rf"typedef struct {name} \{{(.*?)\}} {name};", text, re.DOTALL).group(1)
                body = re.sub(r"/\*.*?\*/", "", body, flags=re.DOTALL)
                found = [it for part in body.split(";") for it in re.findall(r"(\w+)(?=\s*(?:,|$))", part.strip())]
                self.assertEqual([field[0] for field in struct._fields_], found)
        self.assertEqual((ctypes.sizeof(library.ServerSettings), ctypes.sizeof(library.ClientSettings)), (88, 88))


if __name__ == "__main__":
    unittest.main()
