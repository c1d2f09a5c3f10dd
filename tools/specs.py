"""Reads the specs of all crates into definitions, each with its comment, its text, and the definitions that it uses. tools/believed.py, definitions.py and
pinned.py use this.

A name is resolved through the `use` lines of its file. The constructors of a type, its fields and the parts of an operator are names of one definition. A
type of code that specs use (`declared`) is a definition as well: an enum or a struct as it is, and a trait by its ghost members. What the toolchain
has in its own crates is no definition of this reader. A variable that hides a name is not taken for that name."""

import re
from functools import cache
from pathlib import Path
from types import SimpleNamespace

TOP = Path(__file__).resolve().parent.parent
CRATES = TOP / "crates"
# A name, with the path before it: `Refusal.NoMaterial`, `channel.Item.Sent`, `▸`.
NAME = re.compile(r"[^\s(){}\[\];,.⟦⟧]+(?:\.[^\s(){}\[\];,.⟦⟧]+)*")
USE = re.compile(r"^\s*(?:pub )?(?:ghost )?use Rattle\.([\w.]+?)(?:\.\{([^}]*)\}| as (\w+))?;?$")
BEGINS = re.compile(r"^((?:abbrev |unfoldable |pub )*)(data |record )?([^\s:(){}]+)(?= :|$|[ (])")
TYPE_OF_CODE = re.compile(r"^(?:pub(?:\([^)]*\))? )?(enum|struct|trait|const|static) (\w+)", re.M)


def is_declaration(line):
    """Whether a definition begins on this line, and not a clause of one."""
    found = BEGINS.match(line)
    if not found or line.startswith(("--", "use ", "pub use ", "pub mod ", "infix", "module ", "}", " ")):
        return None
    if found[2] or re.match(r" ?:( |$)", line[found.end():]):
        return found
    return None


def opened(lines):
    """The lines, without the indent of those in a nameless module."""
    inside = False
    for line in lines:
        if line.startswith("module _"):
            inside = True
        elif line and not line.startswith((" ", "--")):
            inside = False
        yield line[2:] if inside and line.startswith("  ") else line


def without_comments(text):
    return "\n".join(line for line in re.sub(r"(^|\s)--( .*)?$", "", text, flags=re.M).split("\n") if line.strip())


def definition(crate, file, module, name, kind, lines):
    """A definition: its path, its kind (`data`, `record`, `code`, or nothing), its text, and `parts`, the names that are of it."""
    text = "\n".join(lines).rstrip()
    found = SimpleNamespace(crate=crate, file=file, module=module, name=name, kind=kind, text=text, comment=[], has_comment=False)
    found.path = ".".join(filter(None, (crate, module, name)))
    found.lines = len([line for line in lines if line.strip()])
    found.parts = {name, *name.replace("◌", " ").split()}
    if kind == "data":
        found.parts |= {part for parts in re.findall(r"^  ([\w ]+) :", text, re.M) for part in parts.split()}
    return found


def comment_over(lines):
    return [line[3:] for line in lines if line.startswith("-- ") and not line.startswith("-- ----")]


def definitions_of(crate, file, module):
    """The definitions of one file of specs, in their order."""
    lines = list(opened(file.read_text().split("\n")))
    starts = [at for at, line in enumerate(lines) if is_declaration(line)]
    found = []
    for at, start in enumerate(starts):
        end = starts[at + 1] if at + 1 < len(starts) else len(lines)
        # What stands over the next definition is not a part of this one.
        while end > start + 1 and (not lines[end - 1].strip() or lines[end - 1].startswith(("--", "infix", "module "))):
            end -= 1
        over = start
        while over > 0 and lines[over - 1].startswith(("-- ", "infix")):
            over -= 1
        fixity = [line for line in lines[over:start] if line.startswith("infix")]
        match = is_declaration(lines[start])
        one = definition(crate, file, module, match[3], (match[2] or "").strip(), fixity + lines[start:end])
        own = comment_over(lines[over:start])
        # A comment speaks for those after its definition too, up to the next comment.
        one.comment, one.has_comment = own or (found[-1].comment if found else []), bool(own)
        found.append(one)
    return found


def ghosts_of(text):
    """The ghost members that a trait or an impl of code has, or nothing."""
    return "\n".join(re.findall(r"^    ghost (?!use )\w+(?:: | = )(?:.*\n)*?.*?[,;]$", text, re.M))


def types_of_code(crate, file, module):
    """The types, traits and constants of one file of code: a trait by its ghost members, the others as a whole."""
    text = file.read_text()
    found = []
    for match in TYPE_OF_CODE.finditer(text):
        body = re.match(r"(?:.*\n)*?(?:\}|.*;)$", text[match.start():], re.M)[0]
        if match[1] == "trait":
            body = body.split("\n")[0] + "\n" + ghosts_of(body)
        found.append(definition(crate, file, f"declared.{module}".rstrip("."), match[2], "code", body.split("\n")))
    return found


class Specs:
    """All definitions of a tree, by their paths, such as `ssh_model.Protocol.Side.peer`."""

    def __init__(self, top=TOP):
        self.crates = top / "crates"
        self.found, self.modules, self.scopes = {}, {}, {}
        for crate in sorted(self.crates.iterdir()):
            for file in sorted((crate / "specs").rglob("*.antt")):
                self.add(crate.name, file, self.module_of(crate / "specs", file), definitions_of)
            for file in sorted((crate / "src").rglob("*.rt")):
                self.add(crate.name, file, self.module_of(crate / "src", file), types_of_code)

    def module_of(self, folder, file):
        name = ".".join(file.relative_to(folder).with_suffix("").parts)
        return "" if name in ("Lib", "lib", "main") else name

    def add(self, crate, file, module, reader):
        for one in reader(crate, file, module):
            self.found[one.path] = one
            self.modules.setdefault(f"{crate}.{one.module}".rstrip("."), []).append(one)

    def split(self, path):
        """The module and the rest of a path after `Rattle.`; the module is the longest that is there."""
        crate, _, rest = path.partition(".specs")
        words = [crate, *filter(None, rest.split("."))]
        for count in range(len(words), 0, -1):
            module = ".".join(words[:count])
            if module in self.modules or self.file_of(module):
                return module, words[count:]
        return None, []

    def file_of(self, module):
        crate, _, rest = module.partition(".")
        file = self.crates / crate / "specs" / (rest.replace(".", "/") + ".antt" if rest else "Lib.antt")
        return file if file.exists() else None

    def member(self, module, words):
        """The definition in this module, or handed on by it, to which the words lead."""
        words = words[words[:1] == ["TheConstants"]:]
        for one in self.modules.get(module, []):
            if words and words[0] in one.parts:
                return one
        file = self.file_of(module)
        if words and file and "pub use " in file.read_text():
            target = self.scope(file).get(words[0])
            return self.target(target, words[1:])
        return None

    def target(self, target, rest):
        if target is None:
            return None
        module, words = target
        if words or rest:
            return self.member(module, [*words, *rest])
        return None

    def scope(self, file):
        """What the `use` lines of a file name: for each name a module, and the words that lead on from there."""
        if file not in self.scopes:
            self.scopes[file] = self.scope_of(file.read_text().split("\n"))
        return self.scopes[file]

    def scope_of(self, lines):
        scope = {}
        for line in lines:
            if not (used := USE.match(line)):
                continue
            module, words = self.split(used[1])
            if not module:
                continue
            if used[2] is None:
                scope[used[3] or used[1].split(".")[-1]] = (module, words)
            for item in (used[2] or "").split(","):
                name, _, other = item.strip().partition(" as ")
                called = other or name.split(".")[-1]
                for part in (called, *called.replace("◌", " ").split()):
                    scope[part] = (module, [*words, *name.split(".")])
        return scope

    def resolve(self, token, scope, own):
        """The definition that a name stands for, in a file with this scope and these definitions of its own."""
        words = token.split(".")
        if words[0] in own:
            return own[words[0]]
        if words[0] in scope:
            return self.target(scope[words[0]], words[1:])
        return None

    def own(self, one):
        return {part: each for each in self.modules.get(f"{one.crate}.{one.module}".rstrip("."), []) for part in each.parts}

    @cache
    def uses(self, path):
        """The paths of the definitions that this one uses."""
        one = self.found[path]
        own = self.own(one) if one.kind != "code" else {}
        scope = self.scope(one.file)
        found = set()
        for segment, bound in segments(one, lambda token: self.resolve(token, scope, own)):
            for token in NAME.findall(segment):
                if token.split(".")[0] not in bound and (used := self.resolve(token, scope, own)):
                    found.add(used.path)
        return frozenset(found - {path})

    def reached(self, roots, through=lambda path: True):
        """The roots and all that they use, as paths. What a definition uses counts where `through` says so of the definition."""
        found, waiting = set(), list(roots)
        while waiting:
            path = waiting.pop()
            if path not in found:
                found.add(path)
                waiting += self.uses(path) if through(path) else []
        return found


BINDERS = re.compile(r"[({]([^\s(){}:][^(){}:]*?) : |λ ([^.]*)\.|\(([a-z]\w*) : ")


def bound_in(text):
    found = set()
    for match in BINDERS.finditer(text):
        found |= set((match[1] or match[2] or match[3] or "").replace("(", " ").split())
    return found | set(re.findall(r"\blet (\w+) ", text))


def is_variable(token, named):
    """Whether a name on the left of a clause is a variable there, given what it would stand for elsewhere: no constructor, and no path to one."""
    return named is None or (token[0].islower() and "." not in token and named.kind != "data")


def segments(one, resolve):
    """The parts of a definition with the variables of each: its type and each clause, each constructor, each field."""
    text = without_comments(one.text)
    if one.kind == "code":
        # (what a ghost member binds)
        yield text, bound_in(text)
        return
    lines = text.split("\n")
    if one.kind in ("data", "record"):
        head, at = [], 0
        while at < len(lines) and not re.match(r"  (?:pub )?\S+ :( |$)", lines[at]):
            head.append(lines[at])
            at += 1
        bound = bound_in("\n".join(head))
        yield "\n".join(head), bound
        piece, fields = [], set()
        for line in [*lines[at:], "  end : "]:
            if piece and re.match(r"  (?:pub )?(\S+) :( |$)", line):
                said = "\n".join(piece)
                name = re.match(r"  (?:pub )?(\S+) :", said)[1]
                yield said.partition(" :")[2], bound | fields | bound_in(said)
                fields |= {name} if one.kind == "record" else set()
                piece = []
            piece.append(line)
        return
    clauses, piece = [], []
    for line in lines:
        if piece and not line.startswith((" ", "}")):
            clauses.append("\n".join(piece))
            piece = []
        piece.append(line)
    clauses.append("\n".join(piece))
    for at, clause in enumerate(clauses):
        left, equals, right = clause.partition(" =")
        if at == 0 or not equals:
            yield clause, bound_in(clause)
            continue
        variables = {token for token in NAME.findall(left) if token not in one.parts and is_variable(token, resolve(token))}
        yield left + " " + right, variables | bound_in(clause)
