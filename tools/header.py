"""Compares what stands more than once of the library's interface: `header.py check`. The structs of bindings/include/divrelca.h, field by
field and in their order, against those of the proved crate, of the library for Rust and of that for Python; the numbers of its enums
against those of Python; the names of its codes against those that the proved crate gives; and the texts of divrelca_easy.h, one for each
code and refusal, against those of the library for Rust and of the core."""

import ctypes
import importlib.util
import re
import sys
from pathlib import Path

TOP = Path(__file__).resolve().parent.parent
HEADER = TOP / "bindings/include/divrelca.h"
EASY = TOP / "bindings/include/divrelca_easy.h"
ERRORS = TOP / "bindings/rust/divrelca/src/error.rs"
REFUSALS = TOP / "crates/ssh_model/src/refusal.rt"
REFUSAL_TEXTS = TOP / "crates/ssh_model/specs/Laws/RefusalTexts.antt"
PROVED = TOP / "crates/divrelca_c/src"
NAMES = TOP / "crates/divrelca_c/specs/Names.antt"
RUST = TOP / "bindings/rust/divrelca-sys/src/lib.rs"
PYTHON = TOP / "bindings/python/divrelca"

C_STRUCT = re.compile(r"typedef struct (\w+) \{(.*?)\} \1;", re.S)
C_ENUM = re.compile(r"enum (\w+) \{(.*?)\};", re.S)
C_COMMENT = re.compile(r"/\*.*?\*/", re.S)
A_NAME = re.compile(r'if n == (\d+) then codes "(\w+)"')
A_SAID = re.compile(r'^  \{(\w+), "(.*)"\},$', re.M)
AN_ERROR = re.compile(r'^    \w+ = (-?\d+), "(.*)";$', re.M)
A_REFUSAL = re.compile(r'^refusal_text refusals\.(\w+) = codes "(.*)"$', re.M)
RUST_STRUCT = re.compile(r"#\[repr\(C\)\]\n(?:#\[[^\n]*\]\n)*pub struct (\w+)(?:<'a>)? \{\n(.*?)\n\}", re.S)
RUST_FIELD = re.compile(r"^    pub (\w+): (.+),$", re.M)
# What the proved crate calls otherwise: its struct of an ask, and the bytes besides a name.
STRUCTS = {"AskForm": "dv_ask"}
FIELDS = {"text": "data"}
# The code whose name is another word in C: an event has it already.
NAMED = {"ENDED": "ENDED_ALREADY"}
# How the types of Rust and of Python are written in C.
OF_RUST = {"u32": "uint32_t", "u8": "uint8_t", "usize": "size_t", "bool": "bool", "&'a [u8]": "dv_bytes", "dv_bytes": "dv_bytes",
           "*const dv_user": "const dv_user *", "*const dv_bytes": "const dv_bytes *"}
OF_SLICES = {"&'a [DvUser<'a>]": "const dv_user *", "&'a [&'a [u8]]": "const dv_bytes *"}
OF_PYTHON = {ctypes.c_uint32: "uint32_t", ctypes.c_uint8: "uint8_t", ctypes.c_size_t: "size_t", ctypes.c_bool: "bool"}
# The structs that a program fills or reads. A handle and the bytes themselves are those of each language, and Python hands in 48 bytes
# for a dv_material.
COMPARED = ["dv_user", "dv_server_settings", "dv_client_settings", "dv_event", "dv_ask", "dv_wanted"]
MATERIAL = "dv_material"
# The enums of Python, and the prefix of each in C.
ENUMS = {"dv_code": ("Code", "DV_"), "dv_login": ("Login", "DV_LOGIN_"), "dv_ciphers": ("Ciphers", "DV_"),
         "dv_methods": ("Methods", "DV_METHOD_"), "dv_kind": ("Kind", "DV_"), "dv_shown": ("Shown", "DV_SHOWN_"),
         "dv_ask_kind": ("AskKind", "DV_ASK_"), "dv_wanted_kind": ("WantedKind", "DV_WANTS_")}


def header_structs(text):
    """Of each struct the fields, as pairs of a name and a type."""
    found = {}
    for name, body in C_STRUCT.findall(text):
        fields = []
        for line in body.split(";"):
            line = " ".join(line.split())
            if not line:
                continue
            kind, names = re.fullmatch(r"((?:const )?\w+ \*?)(.+)", line).groups()
            for field in names.split(","):
                place = re.fullmatch(r" ?(\w+)(\[\w+\])?", field)
                fields.append((place[1], kind.strip() + (place[2] or "")))
        found[name] = fields
    return found


def header_enums(text):
    """Of each enum the names with their numbers."""
    return {name: {key: int(value) for key, value in re.findall(r"(\w+) = (-?\d+)", body)} for name, body in C_ENUM.findall(text)}


def in_words(name):
    """A name such as FileBegin or DvEvent, with _ before each of its words but the first."""
    return re.sub(r"(?<!^)([A-Z])", r"_\1", name)


def code_names(text):
    """The names of codes that are no negative numbers, as the header has them."""
    found = {in_words(name).upper(): int(number) for number, name in A_NAME.findall(text.split("code_name")[0])}
    return {f"DV_{NAMED.get(name, name)}": number for name, number in found.items()}


def c_fields(name, kind):
    """The fields of C for one of Rust: a slice of structs or of texts is two."""
    array = re.fullmatch(r"\[u8; (\d+)\]", kind)
    if array:
        return [(name, f"uint8_t[{array[1]}]")]
    if kind in OF_SLICES:
        return [(name, OF_SLICES[kind]), (f"{name}_len", "size_t")]
    return [(FIELDS.get(name, name), OF_RUST.get(kind, kind))]


def rust_structs(text):
    found = {}
    for name, body in RUST_STRUCT.findall(text):
        plain = STRUCTS.get(name) or in_words(name).lower()
        found[plain] = [it for field in RUST_FIELD.findall(body) for it in c_fields(*field)]
    return found


def codes_of_python():
    """The module of the enums by itself: the package loads the library, which need not be there."""
    spec = importlib.util.spec_from_file_location("codes", PYTHON / "codes.py")
    module = importlib.util.module_from_spec(spec)
    spec.loader.exec_module(module)
    return module


def python_structs(text):
    """Those of library.py, which are read without its load of the library."""
    scope = {}
    exec(compile(text[: text.index("\nclass Held")], "library.py", "exec"), scope)
    names = {kind: kind.__doc__.rstrip(".") for kind in scope.values() if isinstance(kind, type) and issubclass(kind, ctypes.Structure)}

    def in_c(kind):
        return OF_PYTHON.get(kind) or names.get(kind) or f"const {names[kind._type_]} *"

    return {name: [(field, in_c(given)) for field, given in kind._fields_] for kind, name in names.items() if name in COMPARED}


def texts_otherwise(codes):
    """The texts of codes and of refusals that the header for C, which has those of refusals last, does not have as they are elsewhere."""
    of_codes, of_refusals = EASY.read_text().split("dv_refusals[]")
    found = {codes[name]: text for name, text in A_SAID.findall(of_codes) if name in codes}
    wanted = {int(code): text for code, text in AN_ERROR.findall(ERRORS.read_text())} | {0: "done"}
    numbers = dict(re.findall(r"Refusal::(\w+) => (\d+),", REFUSALS.read_text()))
    said = {numbers[name]: text for name, text in A_REFUSAL.findall(REFUSAL_TEXTS.read_text())}
    return sorted(found.items() ^ wanted.items()) + sorted(dict(A_SAID.findall(of_refusals)).items() ^ said.items())


def main(words):
    if words != ["check"]:
        print("usage: header.py check")
        return 2
    text = C_COMMENT.sub("", HEADER.read_text())
    structs, enums, faults = header_structs(text), header_enums(text), []
    others = {
        "crates/divrelca_c": rust_structs("\n".join(it.read_text() for it in sorted(PROVED.rglob("*.rt")))),
        "bindings/rust": rust_structs(RUST.read_text()),
        "bindings/python": python_structs((PYTHON / "library.py").read_text()),
    }
    for place, found in others.items():
        for name in [*COMPARED, *([] if place == "bindings/python" else [MATERIAL])]:
            if found.get(name) != structs[name]:
                faults.append(f"{name}: {place} has {found.get(name)}, and the header {structs[name]}")
    codes = codes_of_python()
    for name, (of_python, prefix) in ENUMS.items():
        wanted = {key.removeprefix(prefix): value for key, value in enums[name].items()}
        found = {it.name: it.value for it in getattr(codes, of_python)}
        if found != wanted:
            faults.append(f"{name}: bindings/python has {sorted(found.items() ^ wanted.items())} otherwise")
    named, wanted = code_names(NAMES.read_text()), {key: value for key, value in enums["dv_code"].items() if value >= 0}
    if named != wanted:
        faults.append(f"dv_code: crates/divrelca_c names {sorted(named.items() ^ wanted.items())} otherwise")
    faults += [f"divrelca_easy.h says of {number} otherwise: {text}" for number, text in texts_otherwise(enums["dv_code"])]
    for fault in faults:
        print(fault)
    return bool(faults)


if __name__ == "__main__":
    sys.exit(main(sys.argv[1:]))
