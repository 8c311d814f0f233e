"""Reads the public items of a library from its formatted sources: what its root exports, also through public modules and from other
crates of the repository, and the members of these types and traits. Contracts, ghost members and bodies are left out."""

import functools
import re
from typing import NamedTuple

from sources import files_below, module_of, text_of

# Comments, strings and characters: what may contain braces that belong to no item.
UNREAD = re.compile(r"//[^\n]*|\"(?:\\.|[^\"\\])*\"|'(?:\\(?:u\{\w+\}|.)|[^'\\])'", re.S)
ATTRIBUTE = re.compile(r"#!?\[((?:[^\[\]]|\[[^\[\]]*\])*)\]\s*")
# The formatter begins each item, and each member of an item, on a line of its own. Other lines of its head have a sign or `where` there.
BEGIN = re.compile(r"\n(?=(?!where\b)[\w#])")
KIND = r'(?:const |unsafe |extern "" )*fn|struct|enum|trait|impl|const|static|type|mod|use|ghost|macro_rules'
ITEM = re.compile(rf"(pub(?:\(\w+\))? )?({KIND})\b!?\s*(\w*)")
MEMBER = re.compile(r"(pub(?:\(\w+\))? )?(\w+)(: .*|\(.*\)| \{.*\})?", re.S)
# Where a head ends: at its contract, its body, or a `;` that is its last sign.
END_OF_HEAD = re.compile(r"\s*\{|;$|\n\s*(?:requires|ensures)\b")
IMPL = re.compile(r"impl(?:<(.*?)>)? (?:(.+) for )?(\w+)(?:<.*>)?")
HAS_MEMBERS = ("struct", "enum", "trait", "impl")
DECLARED = ("fn", "struct", "enum", "trait", "const", "static", "type")


class Unreadable(Exception):
    """A public line that this module can't read, so that it might miss an item."""


class Part(NamedTuple):
    """An item or a member as it is declared. The kind of a field or variant is 'member'."""

    is_public: bool
    kind: str
    name: str
    head: str
    parts: tuple
    derived: tuple


class Found(NamedTuple):
    """A declared item, with the crate and the module of its declaration."""

    crate: str
    module: str
    part: Part


class Item(NamedTuple):
    """What a crate exports. Members have their type's name before theirs, and before this the names of public modules. A method's
    type has the type parameters of its `impl`. The kinds are 'item', 'method', 'impl', and, for what a type or trait is made of,
    'field', 'variant', 'function'. The origin is where it is declared: the same for all crates that export it."""

    crate: str
    name: str
    kind: str
    signature: str
    is_public: bool
    origin: tuple


def on_one_line(text):
    """Returns a head as the formatter writes it if it fits on one line."""
    text = re.sub(r"\s+", " ", text).strip().rstrip(",")
    text = re.sub(r",? ([)\]>])", r"\1", re.sub(r"([(\[<]) ", r"\1", text))
    return text.replace(", }", " }")


def body_of(chunk):
    """Returns the lines between the first and the last brace, without their indent."""
    inner = chunk[chunk.find("{") + 1 : chunk.rfind("}")] if "{" in chunk else ""
    return re.sub(r"(?m)^ {4}", "", inner)


def part_of(chunk, derived, path):
    """Returns the item or member that these lines declare."""
    item = ITEM.match(chunk)
    if not item:
        member = MEMBER.fullmatch(chunk.rstrip(",").rstrip())
        if not member:
            raise Unreadable(f"{path}: can't read this line: {chunk.splitlines()[0]}")
        return Part(member[1] == "pub ", "member", member[2], on_one_line(chunk), (), ())
    kind = item[2].split()[-1]
    head = chunk if kind in ("use", "type") else END_OF_HEAD.split(chunk, maxsplit=1)[0]
    head = head.split(" = ")[0] if kind in ("const", "static") else head
    inner = tuple(parts_of(body_of(chunk), path)) if kind in HAS_MEMBERS else ()
    return Part(item[1] == "pub ", kind, item[3], on_one_line(head.rstrip(";")), inner, derived)


def parts_of(text, path):
    """Yields the items of a file, or the members of an item, from their lines without comments and strings."""
    derived = ()
    for chunk in BEGIN.split("\n" + text):
        chunk = chunk.strip()
        while attribute := ATTRIBUTE.match(chunk):
            derived += tuple(re.findall(r"\w+", attribute[1])[1:]) if attribute[1].startswith("derive(") else ()
            chunk = chunk[attribute.end() :]
        if chunk:
            yield part_of(chunk, derived, path)
            derived = ()


def read_parts(path):
    """Returns the items of a file."""
    text = UNREAD.sub(lambda found: "" if found[0].startswith("//") else found[0][0] * 2, text_of(path))
    return tuple(parts_of(text, path))


def uses_of(part):
    """Returns the names that a `use` brings in, each with its path as a list. A public one must have a simple form."""
    one = re.fullmatch(r"(?:pub(?:\(\w+\))? )?use ([\w:]*?)(?:(\w+)(?: as (\w+))?|\{([\w, ]*)\})", part.head)
    if not one:
        if part.is_public:
            raise Unreadable(f"can't read this line: {part.head}")
        return []
    before = [word for word in one[1].split("::") if word]
    names = [it.strip() for it in one[4].split(",")] if one[4] is not None else [one[2]]
    words = [name.split(" as ") for name in names]
    return [(one[3] or word[-1], before + [word[0]]) for word in words]


class Library:
    """The modules of a crate, each with its items."""

    def __init__(self, name):
        self.name = name
        self.modules = {module_of(path): read_parts(path) for path in files_below(f"crates/{name}/src", ".rt")}

    def found(self, module, name):
        """Returns what a name means in a module, None if no crate of the repository declares it."""
        for part in self.modules.get(module, ()):
            if part.kind in DECLARED and part.name == name:
                return Found(self.name, module, part)
            if part.kind == "use":
                for used, path in uses_of(part):
                    if used == name:
                        return self.followed(module, path)
        return None

    def followed(self, module, path):
        """Returns what a path means in a module."""
        first, *inner = path[:-1] or [""]
        if not first:
            return None
        if first.startswith("aec_"):
            return library_of(first).found("::".join(inner), path[-1])
        if first == "crate":
            return self.found("::".join(inner), path[-1])
        return self.found("::".join(it for it in (module, first, *inner) if it), path[-1])

    def exports(self, module=""):
        """Yields each name that a module exports and its part, or what the name means if the part is a `use`."""
        for part in self.modules[module]:
            if part.is_public and part.kind == "mod":
                inner = f"{module}::{part.name}" if module else part.name
                if inner not in self.modules:
                    raise Unreadable(f"{self.name}: the module {inner} has no file of its own")
                yield from ((f"{part.name}::{name}", *rest) for name, *rest in self.exports(inner))
            elif part.is_public and part.kind == "use":
                yield from ((name, part, self.followed(module, path)) for name, path in uses_of(part))
            elif part.is_public and part.kind in DECLARED:
                yield part.name, part, Found(self.name, module, part)

    def impls_of(self, found):
        """Yields each `impl` of a type: its part, its type parameters, and its trait, None for methods of the type."""
        for module, parts in self.modules.items():
            for part in parts:
                if part.kind == "impl":
                    at = IMPL.fullmatch(part.head)
                    if not at:
                        raise Unreadable(f"{self.name}: can't read this line: {part.head}")
                    if self.found(module, at[3]) == found:
                        parameters = re.split(r", (?![^<]*>)", at[1] or "")
                        yield part, ", ".join(it for it in parameters if not it.startswith("'")), at[2]


@functools.cache
def library_of(name):
    return Library(name)


def own_items(crate, name, found):
    """Yields the fields, variants or functions of a type or trait: private fields too."""
    kinds = {"struct": "field", "enum": "variant", "trait": "function"}
    for part in found.part.parts:
        if part.kind != "ghost":
            is_public = part.is_public or found.part.kind != "struct"
            origin = (found.crate, found.module, found.part.name, part.name)
            yield Item(crate, f"{name}::{part.name}", kinds[found.part.kind], part.head, is_public, origin)


def added_items(crate, name, found):
    """Yields the public methods and constants of a type, and the traits that it has."""
    place = (found.crate, found.module, found.part.name)
    for trait in found.part.derived:
        yield Item(crate, f"{trait} for {name}", "impl", f"impl {trait} for {found.part.name}", True, (*place, trait))
    for part, parameters, trait in library_of(found.crate).impls_of(found):
        if trait:
            yield Item(crate, f"{trait} for {name}", "impl", part.head, True, (*place, trait))
            continue
        owner = f"{name}<{parameters}>" if parameters else name
        for member in part.parts:
            if member.is_public:
                yield Item(crate, f"{owner}::{member.name}", "method", member.head, True, (*place, member.name))


def items_of(crate):
    """Yields all that a crate exports."""
    for name, part, found in library_of(crate).exports():
        if not found:
            yield Item(crate, name, "item", part.head, True, (crate, name))
            continue
        yield Item(crate, name, "item", found.part.head, True, (found.crate, found.module, found.part.name))
        if found.part.kind in ("struct", "enum", "trait"):
            yield from own_items(crate, name, found)
            yield from added_items(crate, name, found)
