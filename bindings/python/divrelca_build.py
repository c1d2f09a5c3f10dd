"""Makes the wheel that `pip install bindings/python` installs: the package, its tables and the built library, with nothing but the standard library.

The library is `build/libdivrelca.so` of this repository, or the file that DIVRELCA_LIBRARY names. The wheel is for the platform of this Python, or that of
DIVRELCA_PLATFORM.
"""

import base64
import hashlib
import os
import pathlib
import re
import sysconfig
import zipfile

HERE = pathlib.Path(__file__).resolve().parent
NAME = "divrelca"
VERSION = re.search(r'^__version__ = "(.*)"$', (HERE / NAME / "__init__.py").read_text(), re.M)[1]
INFO = f"{NAME}-{VERSION}.dist-info"
METADATA = f"""Metadata-Version: 2.1
Name: {NAME}
Version: {VERSION}
Summary: A proved server and client of SSH-2, over the library for C
License: Apache-2.0 OR MIT
Requires-Python: >=3.9
"""


def library():
    """The built library; a FileNotFoundError says how it is made."""
    named = os.environ.get("DIVRELCA_LIBRARY")
    file = pathlib.Path(named) if named else HERE.parents[1] / "build" / "libdivrelca.so"
    if not file.is_file():
        raise FileNotFoundError(f"{file} is not there: run `make lib` first, or name the library by DIVRELCA_LIBRARY")
    return file


def build_wheel(wheel_directory, config_settings=None, metadata_directory=None):
    """Writes the wheel and returns the name of its file."""
    platform = os.environ.get("DIVRELCA_PLATFORM", sysconfig.get_platform())
    tag = f"py3-none-{platform.replace('-', '_').replace('.', '_')}"
    files = {f"{NAME}/{it.relative_to(HERE / NAME)}": it.read_bytes() for it in sorted((HERE / NAME).rglob("*.py"))}
    for it in (*(HERE / NAME / "probe" / name for name in ("judgement.tsv", "page.css")), HERE.parents[1] / "docs" / "stricter.tsv"):
        files[f"{NAME}/probe/{it.name}"] = it.read_bytes()
    files[f"{NAME}/py.typed"] = b""
    files[f"{NAME}/libdivrelca.so"] = library().read_bytes()
    files[f"{INFO}/METADATA"] = METADATA.encode()
    files[f"{INFO}/WHEEL"] = f"Wheel-Version: 1.0\nGenerator: {NAME}_build\nRoot-Is-Purelib: false\nTag: {tag}\n".encode()
    lines = []
    for name, body in files.items():
        digest = base64.urlsafe_b64encode(hashlib.sha256(body).digest()).rstrip(b"=").decode()
        lines.append(f"{name},sha256={digest},{len(body)}\n")
    files[f"{INFO}/RECORD"] = ("".join(lines) + f"{INFO}/RECORD,,\n").encode()
    wheel = f"{NAME}-{VERSION}-{tag}.whl"
    with zipfile.ZipFile(pathlib.Path(wheel_directory) / wheel, "w", zipfile.ZIP_DEFLATED) as archive:
        for name, body in files.items():
            archive.writestr(name, body)
    return wheel


def build_sdist(sdist_directory, config_settings=None):
    """A source archive would lack the library."""
    raise NotImplementedError("the library is built by `make lib` of the repository, so there is no source archive of this package alone")
