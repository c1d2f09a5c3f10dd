"""Errors: each carries the number and the name of its code."""

from __future__ import annotations

from .codes import Code
from .library import code_name


class Error(Exception):
    """What a call refused: `code` is its number and `name` its name, as 3 and "NoChannel"."""

    def __init__(self, code: int, detail: str = "") -> None:
        self.code = int(code)
        self.name = code_name(self.code)
        super().__init__(f"{self.name} ({self.code}){detail}")


class AskRefused(Error):
    """An ask is refused (1 to 12), and nothing changed."""

    @property
    def is_later(self) -> bool:
        """Whether the ask is made again after a later `take`; after `Code.REKEY_DUE` by way of an ask for `AskKind.REKEY`."""
        return is_later(self.code)


class BadSetting(Error):
    """A setting is not one (101 to 104), and no end is made."""


class BadFile(Error):
    """A key file lacks what was expected (201 and on). `line` counts from 1; 0 is the file as a whole."""

    def __init__(self, code: int, line: int) -> None:
        self.line = line
        super().__init__(code, f" in line {line}" if line else " in the file")


class BadArgument(Error, ValueError):
    """An argument that no call can take (301 and on). Nothing changed."""


class NoMemory(Error, MemoryError):
    """Memory was refused (-1). From `take`, `ask`, `send` and `work` the end is over."""


class Over(Error):
    """The end is over (-2): nothing is taken and nothing sent."""


def is_later(code: int) -> bool:
    """Whether an ask that is answered so came too early."""
    return code in (Code.NOT_YET, Code.BUSY, Code.REKEY_DUE)


def error_of(code: int, line: int = 0) -> Error:
    """The error of a code that is not `Code.DONE`."""
    if code == Code.MEMORY:
        return NoMemory(code)
    if code == Code.OVER:
        return Over(code)
    if code < 101:
        return AskRefused(code)
    if code < 201:
        return BadSetting(code)
    return BadFile(code, line) if code < 301 else BadArgument(code)


def check(code: int, line: int = 0) -> None:
    """Raises the error of a code, and does nothing for `Code.DONE`."""
    if code != Code.DONE:
        raise error_of(code, line)
