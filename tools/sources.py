"""Reads the sources as modules of items, and follows names to where they are defined.

It knows as much of the language as a page about it needs: which items a module has, what it gives on,
and of each item its documentation and its head. Bodies and clauses are passed over.
"""

import functools
import os
import re
from dataclasses import dataclass, field

from functions import COMMENTS, FILES, ROOT, blank, end_of_block, read


@dataclass(eq=False)
class Item:
    """An item: its head is what stands before its block, in one line and without clauses."""

    kind: str
    name: str
    head: str
    public: bool
    docs: list
    derived: list
    module: object
    inside: str = ""
    block: str = ""
    items: list = field(default_factory=list)


@dataclass(eq=False)
class Module:
    """A module: its own items by name, its modules, and what it names by `use`."""

    crate: str
    path: str
    file: str
    items: dict = field(default_factory=dict)
    modules: dict = field(default_factory=dict)
    impls: list = field(default_factory=list)
    uses: dict = field(default_factory=dict)
    functions: list = field(default_factory=list)
    given: list = field(default_factory=list)


# Text.

MARK = re.compile(r"[()\[\]{};]")


def stop(code, at):
    """The first `{` or `;` that stands in no brackets."""
    depth = 0
    for found in MARK.finditer(code, at):
        if found.group() in "([":
            depth += 1
        elif found.group() in ")]":
            depth -= 1
        elif depth == 0:
            return found.start()
    return len(code)


def in_one_line(code):
    """Code in one line, as if it had always stood in one."""
    code = re.sub(r"\s+", " ", code).strip()
    code = re.sub(r"([(\[<]) ", r"\1", code)
    code = re.sub(r",? ?([)\]]|(?<!-)>)", r"\1", code)
    return code.replace(", }", " }").rstrip(",")


def parted(code, by=","):
    """The parts of code between commas that stand in no brackets, and the place of each."""
    depth, begin = 0, 0
    for found in re.finditer(rf"->|=>|[()\[\]{{}}<>]|{by}", code):
        if found.group() in ("->", "=>"):
            continue
        if found.group() in "([{<":
            depth += 1
        elif found.group() in ")]}>":
            depth -= 1
        elif depth == 0:
            yield begin, code[begin : found.start()]
            begin = found.end()
    if code[begin:].strip():
        yield begin, code[begin:]


def docs_in(text):
    """The lines of documentation in a text."""
    return [it[1] for it in re.finditer(r"^[ \t]*/// ?(.*)$", text, re.M)]


# Items.

START = re.compile(
    r"\s*(?:(?P<attribute>#!?\[)"
    r"|(?P<public>pub(?P<part>\([^)]*\))?\s+)?(?P<unsafe>unsafe\s+)?(?:const\s+(?=fn))?"
    r"(?P<kind>use|ghost|mod|struct|enum|trait|impl|fn|type|const|static)\b"
    r"|(?P<block>\{)|(?P<other>\S))"
)
CLAUSE = re.compile(r"\b(?:ensures|requires)\*?\s*\w*\s*$")
DERIVE = re.compile(r"#\[derive\(([^)]*)\)\]")


def end_of_function(code, at):
    """Where the head of a function ends, and the braces of its body, if it has one."""
    head = None
    while True:
        here = stop(code, at)
        clause = CLAUSE.search(code, at, here)
        if clause and code[here : here + 1] == "{":
            head = head or clause.start()
            at = end_of_block(code, here)
        elif code[here : here + 1] == "{":
            return head or here, here, end_of_block(code, here)
        else:
            return head or here, here, here + 1


def end_of_ghost(code, at):
    """Behind the `;` that stands in no braces."""
    while True:
        here = stop(code, at)
        if code[here : here + 1] != "{":
            return here + 1
        at = end_of_block(code, here)


def items_in(text, code, at, end):
    """The items between two places: each as its kind, whether it is public, where it begins, where
    its head ends, its block, and the text before it, with its documentation and attributes."""
    gap = at
    while at < end:
        found = START.match(code, at, end)
        if not found:
            return
        if found["attribute"]:
            at = stop_of_attribute(code, found.end() - 1)
            continue
        if found["block"]:
            gap = at = end_of_block(code, found.end() - 1)
            continue
        if found["other"]:
            gap = at = found.end()
            continue
        kind, begin = found["kind"], found.start("unsafe" if found["unsafe"] else "kind")
        public = bool(found["public"]) and not found["part"]
        behind = found.end()
        if kind == "fn":
            head, block, at = end_of_function(code, behind)
        elif kind in ("use", "const", "static", "type", "ghost"):
            head = block = (code.find(";", behind) if kind == "use" else end_of_ghost(code, behind) - 1)
            at = head + 1
        else:
            head = block = stop(code, behind)
            at = end_of_block(code, block) if code[block : block + 1] == "{" else block + 1
        yield kind, public, begin, head, (block, at), text[gap:begin]
        gap = at


def stop_of_attribute(code, at):
    depth = 0
    for found in re.compile(r"[\[\]]").finditer(code, at):
        depth += 1 if found.group() == "[" else -1
        if depth == 0:
            return found.end()
    return len(code)


# Modules.

NAME = re.compile(r"\w+")


def uses_of(code):
    """What a `use` names: each path with the name that it has here."""
    code = code.strip()
    found = re.match(r"([\w:]*?)(?:::)?\{(.*)\}$", code, re.S)
    if found:
        for _, part in parted(found[2]):
            for path, name in uses_of(part):
                whole = f"{found[1]}::{path}" if found[1] else path
                yield whole.removesuffix("::self"), name if path != "self" else found[1].split("::")[-1]
    elif code and not code.endswith("*"):
        path, _, name = (it.strip() for it in code.partition(" as "))
        yield path, name or path.split("::")[-1]


def item_of(kind, public, head, text_before, module, inside=""):
    """An item by its head; its name is the first word behind its kind."""
    bare = re.sub(r"^(?:unsafe )?(?:const (?=fn))?\w+ ?", "", head)
    name = NAME.match(bare)
    derived = [it.strip() for found in DERIVE.findall(text_before) for it in found.split(",")]
    return Item(kind, name.group() if name else "", head, public, docs_in(text_before), derived, module, inside)


def fill(module, text, code, at, end, tests):
    """Reads the items between two places into a module."""
    for kind, public, begin, head, (block, last), before in items_in(text, code, at, end):
        if "cfg(test)" in before and not tests:
            continue
        line = in_one_line(code[begin:head])
        if kind == "use":
            for path, name in uses_of(line.removeprefix("use")):
                module.uses[name] = path
                if public:
                    module.given.append(name)
        elif kind == "mod":
            name = line.split()[-1]
            path = f"{module.path}::{name}"
            if code[block] == "{":
                inner = Module(module.crate, path, module.file)
                inner.uses.update(module.uses)
                fill(inner, text, code, block + 1, last - 1, tests)
            else:
                folder = module.file.removesuffix("/lib.rt").removesuffix("/main.rt").removesuffix(".rt")
                inner = module_at(module.crate, path, f"{folder}/{name}.rt", tests)
            module.modules[name] = inner
            if public:
                module.given.append(name)
        elif kind != "ghost":
            item = item_of(kind, public, line, before, module)
            item.block = text[block + 1 : last - 1] if code[block : block + 1] == "{" else ""
            if kind in ("impl", "trait"):
                item.items = list(members(text, code, block + 1, last - 1, item))
            if kind == "impl":
                module.impls.append(item)
            else:
                module.items[item.name] = item
                if public:
                    module.given.append(item.name)
            if kind == "fn":
                module.functions.append(item)


def members(text, code, at, end, owner):
    """The items of an impl or a trait, ghost ones too."""
    for kind, public, begin, head, (block, last), before in items_in(text, code, at, end):
        item = item_of(kind, public, in_one_line(code[begin:head]), before, owner.module, owner.head)
        item.block = text[block:last] if kind == "fn" else ""
        yield item


def module_at(crate, path, file, tests):
    text = read(file)
    module = Module(crate, path, file)
    code = COMMENTS.sub(blank, text)
    fill(module, text, code, 0, len(code), tests)
    return module


@functools.cache
def crate_of(name, tests=False):
    """The root module of a crate, or nothing."""
    for root in ("lib", "main"):
        file = f"crates/{name}/src/{root}.rt"
        if os.path.exists(f"{ROOT}/{file}"):
            return module_at(name, name, file, tests)
    return None


def modules_under(module):
    yield module
    for inner in module.modules.values():
        yield from modules_under(inner)


# Names.


@functools.cache
def look(module, path):
    """What a path means in a module: an item or a module of the repository, or nothing."""
    first, _, rest = path.partition("::")
    if first == "crate":
        found = crate_of(module.crate)
    elif first == "self":
        found = module
    elif first in module.items:
        found = module.items[first]
    elif first in module.modules:
        found = module.modules[first]
    elif first in module.uses and module.uses[first] != path:
        found = look_from(module, module.uses[first])
    else:
        found = crate_of(first) if f"crates/{first}/src/lib.rt" in FILES else None
    if rest:
        return look(found, rest) if isinstance(found, Module) else None
    return found


def look_from(module, path):
    """What the path of a `use` means: a name of another crate, or one of this module."""
    first = path.partition("::")[0]
    if first not in module.modules and first not in module.items and f"crates/{first}/src/lib.rt" in FILES:
        rest = path.partition("::")[2]
        return look(crate_of(first), rest) if rest else crate_of(first)
    return look(module, path)


# Heads of impls.


def behind_angles(head):
    """The place behind the angle brackets with which a text begins."""
    depth = 0
    for found in re.finditer(r"->|[<>]", head):
        if found.group() != "->":
            depth += 1 if found.group() == "<" else -1
            if depth == 0:
                return found.end()
    return len(head)


@functools.cache
def impl_of(head):
    """Of the head of an impl: its bounds, its trait, which may be empty, and its type."""
    rest = head.removeprefix("unsafe ").removeprefix("impl")
    bounds = ""
    if rest.startswith("<"):
        cut = behind_angles(rest)
        bounds, rest = rest[1 : cut - 1], rest[cut:]
    where = list(parted(rest, by=r"\bwhere\b"))
    if len(where) > 1:
        bounds += f", {where[1][1].strip()}"
    sides = [it.strip() for _, it in parted(where[0][1], by=r"\bfor\b(?! ?<)")]
    told = [it.strip() for _, it in parted(bounds) if re.match(r" ?\w[^:]*:", it)]
    return ", ".join(told), sides[0] if len(sides) > 1 else "", sides[-1]


def path_of(type_):
    """The path of a type without its parameters and without what borrows it."""
    bare = re.sub(r"^(?:&(?:'\w+ )?(?:mut )?)", "", type_)
    return re.match(r"[\w:]*", bare).group().strip(":")
