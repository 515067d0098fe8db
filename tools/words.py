"""What the words of definitions and of contracts mean: where each is defined, and which others it uses.

tools/statement goes by it. It reads files by their layout, which `rt fmt` makes: a definition begins at
the indent of its module, and what belongs to it stands further in or repeats its name.

A word is one of
- ("spec", file, name), a definition of specs/;
- ("type", file, name), a type or a constant that a source declares;
- ("given", file, place, title), a ghost member that an `impl` gives;
- ("trait", file, name), all ghost members of a trait;
- ("member", name, note), what a type parameter has by its bounds;
- ("made", file, name), which the prover makes of a declaration;
- ("kit", module, name).
"""

import functools
import os
import re

from functions import COMMENTS, FILES, end_of_block, read, without_angles

# Words and signs that the language has by itself.
BUILT_IN = set("Type Unit record data abbrev pub unfoldable opaque module where let in if then else tt absurd coded λ 𝓛 _".split())
SIGNS = set(': = → × ⊥ ¬ ""'.split())

# The crates of the kit, and the names that Rust has everywhere.
KIT = set("std core futures crossbeam_utils tokio clap lru bumpalo".split())

PRELUDE = set(
    "Option Some None Result Ok Err Vec Box String bool char str usize u8 u16 u32 u64 i32 i64 Self Drop Fn"
    " FnOnce FnMut Copy Clone Send Sync Sized Default Iterator IntoIterator Extend From Into Eq PartialEq Ord"
    " PartialOrd Hash Debug".split()
)


class Unknown(Exception):
    """A word that is not found."""


# Definitions in specs.

NAME = r"(?!λ)[^\W\d]\w*(?:-\w+)*'*"
TOKEN = re.compile(rf"(?P<name>(?<![\w.]){NAME}(?:\.{NAME}|\.\d+)*)|(?P<sign>[^\s(){{}};,\w.]+)|(?P<field>\.)")
HEADING = re.compile(rf"(?:(?:abbrev|pub|unfoldable|opaque)\s+)+(?:(data|record)\s+)?({NAME}|\S*◌\S*)")
PLAIN = re.compile(rf"()({NAME}) :(?=\s)")
IMPORT = re.compile(r"^(?:pub )?use ([\w.]+?)(?:\.\{([^}]*)\})?(?: as (\w+))?$", re.M)


class Definition:
    """A definition: where it stands, its text with its comment, and the modules that it stands in."""

    def __init__(self, path, name, kind, around):
        self.path, self.name, self.kind, self.around = path, name, kind, around
        self.lines, self.inside = [], set()


class Spec:
    """A file of definitions: what it defines, what it imports, and what it hands on."""

    def __init__(self, path):
        self.path, self.definitions, self.owners = path, {}, {}
        text = read(path)
        self.imports, self.aliases, self.parts = imports_of(IMPORT.findall(text))
        self.handed_on = re.findall(r"^pub use ([\w.]+)$", text, re.M)
        self.block(text.split("\n"), 0, 0, ())

    def block(self, lines, at, indent, around):
        """Reads the definitions at this depth, and gives the line behind them."""
        comment, now = [], None
        while at < len(lines):
            line = lines[at]
            depth = len(line) - len(line.lstrip())
            if not line.strip():
                comment = []
            elif depth < indent:
                return at
            elif depth > indent:
                if now:
                    now.lines.append(line)
            elif line.startswith("--", indent):
                comment.append(line)
            elif re.match(r"(?:pub )?(?:use|mod) ", line):
                comment, now = [], None
            elif line.startswith("module ", indent):
                head = [line]
                while not head[-1].rstrip().endswith("where"):
                    at += 1
                    head.append(lines[at])
                deeper = len(lines[at + 1]) - len(lines[at + 1].lstrip())
                at = self.block(lines, at + 1, deeper, around + (tuple(comment + head),))
                comment, now = [], None
                continue
            else:
                found = HEADING.match(line, indent) or PLAIN.match(line, indent)
                if found:
                    now = Definition(self.path, found[2], found[1], around)
                    now.lines += comment
                    self.definitions[found[2]] = now
                    self.owners[found[2]] = found[2]
                if now:
                    now.lines.append(line)
                comment = []
            at += 1
        return at

    def finish(self):
        """Constructors belong to their data."""
        for it in self.definitions.values():
            if it.kind == "data":
                head = next((at for at, line in enumerate(it.lines) if re.match(r"(?!\s*--).*\bwhere$", line)), -1)
                inside = [line for line in it.lines[head + 1 :] if not line.lstrip().startswith("--")]
                deep = len(inside[0]) - len(inside[0].lstrip()) if inside else 0
                for line in inside:
                    found = PLAIN.match(line, deep)
                    if found and line[:deep].isspace():
                        it.inside.add(found[2])
                        self.owners.setdefault(found[2], it.name)
        return self


def imports_of(imports):
    """The names that a text imports, each with its module and its name there; the modules that it has
    under another name; and the parts of names that are written around what they take."""
    names, aliases, parts = {}, {}, {}
    for module, inside, alias in imports:
        if inside:
            for it in filter(None, (it.strip() for it in inside.split(","))):
                first, _, other = it.partition(" as ")
                names[other or first] = (module, first)
        else:
            aliases[alias or module.split(".")[-1]] = module
    for name in names:
        if "◌" in name or not name[0].isalpha() and name[0] != "_":
            for part in filter(None, name.split("◌")):
                parts.setdefault(part, []).append(name)
    return names, aliases, parts


@functools.cache
def spec(path):
    return Spec(path).finish()


@functools.cache
def spec_at(module):
    """The file of a module's definitions, if it has any of its own; a crate may hand on another's."""
    crate, _, inside = module.removeprefix("Rattle.").partition(".specs.")
    path = f"crates/{crate}/specs/{inside.replace('.', '/')}.antt"
    if path in FILES:
        return path
    top = f"crates/{crate}/specs/Lib.antt"
    for other in spec(top).handed_on if top in FILES else []:
        if inside == other.partition(".specs.")[2]:
            return spec_at(other)
    return None


@functools.cache
def imported(module, name):
    """What a name of a module is; without a name, what the module is."""
    crate = module.removeprefix("Rattle.").split(".")[0]
    if not module.startswith("Rattle.") or f"crates/{crate}/src" not in folders():
        return ("kit", module, name)
    made = re.fullmatch(r"Rattle\.\w+\.specs\.(declared|contracts)\.([\w.]+?)\.(\w+)(?:\.TheVariants)?", module)
    if made:
        path = f"crates/{crate}/src/{made[2].replace('.', '/')}.rt"
        path = path if path in FILES else f"crates/{crate}/src/lib.rt"
        if made[1] == "contracts":
            return ("made", path, f"{made[3]}.{name}")
        return declared_word(path, made[3]) if made[3] in declared(path) else None
    path = spec_at(module)
    return word_in(path, name) if path else None


def word_in(path, name):
    """What a name means in a file of definitions."""
    here = spec(path)
    if name in here.owners:
        return ("spec", path, here.owners[name])
    if name in here.imports:
        return imported(*here.imports[name])
    return None


@functools.cache
def folders():
    return {"/".join(it.split("/")[:3]) for it in FILES}


# What a text uses.


def renamed(here, text):
    """What a text calls otherwise than where it is defined."""
    heads = {it["name"].split(".")[0] for it in TOKEN.finditer(text) if it["name"]}
    for name, module in here.aliases.items():
        last = module.removesuffix(".TheVariants").split(".")[-1]
        if re.search(rf"(?<![\w.]){name}\.[A-Z]", text):
            yield f"`{name}` is `{last}`"
    for name, (module, first) in here.imports.items():
        if name != first and name in heads:
            yield f"`{name}` is `{first}` of `{module.removesuffix('.TheVariants').split('.')[-1]}`"


BINDER = re.compile(rf"[({{]\s*((?:(?:{NAME}|_)\s+)+):(?=\s)")
LAMBDA = re.compile(r"λ\s+((?:\([^()]*(?:\([^()]*\)[^()]*)*\)|[^.()])+)\.(?=\s)")
LET = re.compile(rf"\blet\s+({NAME})\b")
SET = re.compile(rf"(?:[{{;]|^)\s*({NAME})\s*=(?=\s)", re.M)
FIELD = re.compile(rf"^\s*pub\s+({NAME})\s*:", re.M)


def bound_in(text):
    """The names that a text binds by itself."""
    bound = {name for found in BINDER.findall(text) for name in found.split()}
    for found in LAMBDA.findall(text):
        bound.update(re.findall(NAME, re.sub(r"\([^()]*(?:\([^()]*\)[^()]*)*\)", " ", found)))
    return bound | set(LET.findall(text))


def without_comments(lines):
    return "\n".join(re.sub(r'"[^"]*"', '""', re.sub(r"(?:^|\s)--.*", "", it)) for it in lines)


def uses_of(definition):
    """The words that a definition uses, in their order."""
    here = spec(definition.path)
    text = without_comments(definition.lines)
    outer = without_comments([line for head in definition.around for line in head])
    bound, later = bound_in(text) | bound_in(outer), {}
    if definition.kind == "record":
        later = {it[1]: it.end() for it in FIELD.finditer(text)}
        text = FIELD.sub(lambda it: " " * len(it[0]), text)
    elif definition.kind != "data":
        bound |= patterns_of(definition, text)
        bound |= set(re.findall(rf"^\s+({NAME}) :(?=\s)", text, re.M)) - {definition.name}
    text = SET.sub(lambda it: it[0] if it[1] == definition.name else " " * len(it[0]), text)

    def meaning(name, rest):
        if name == definition.name or name in definition.inside or name in BUILT_IN:
            return None
        if name in here.aliases:
            return imported(here.aliases[name], rest[0] if rest else "")
        found = word_in(definition.path, name)
        if not found:
            raise Unknown(f"{definition.path}: {definition.name}: nothing is found under {name}")
        return found

    def is_bound(name, rest, at):
        if rest and rest[0][0].isupper() and name in here.aliases:
            return False
        return name in bound or later.get(name, at) < at

    words = used(outer, is_bound, meaning, here)
    return words + [it for it in used(text, is_bound, meaning, here) if it not in words]


def patterns_of(definition, text):
    """The names that the left sides of a definition's equations bind."""
    bound, depth = set(), 0
    for begin in re.finditer(rf"^ *{re.escape(definition.name)}(?=\s)", text, re.M):
        at = begin.end()
        while at < len(text) and not (depth == 0 and re.match(r"\s[=:]\s", text[at : at + 3] + " ")):
            depth += {"(": 1, "{": 1, ")": -1, "}": -1}.get(text[at], 0)
            at += 1
        if text[at : at + 2].strip() == "=":
            for token in TOKEN.finditer(text, begin.end(), at):
                name = token["name"] or ""
                found = name and "." not in name and word_in(definition.path, name)
                if name and "." not in name and not is_constructor(found, name):
                    bound.add(name)
    return bound


def is_constructor(word, name):
    """Whether a name of a pattern is a constructor; of the kit's words each is one."""
    return word and (word[0] in ("kit", "type") or word[0] == "spec" and word[2] != name)


def used(text, is_bound, meaning, imports):
    """The words that a text uses, by what its names mean."""
    words = []
    for token in TOKEN.finditer(text):
        found = []
        if token["name"]:
            first, *rest = token["name"].split(".")
            if first in imports.parts:
                found = [imported(*imports.imports[it]) for it in imports.parts[first]]
            elif not is_bound(first, rest, token.start()):
                found = [meaning(first, rest)]
        elif token["sign"] and token["sign"] not in SIGNS:
            if token["sign"] not in imports.parts:
                raise Unknown(f"nothing is found under {token['sign']} in: {text.strip()[:60]}")
            found = [imported(*imports.imports[it]) for it in imports.parts[token["sign"]]]
        words += [it for it in found if it and it not in words]
    return words


# The sources.

USE = re.compile(r"^\s*(?:pub(?:\([^)]*\))? )?use ([^;]+);", re.M)
GHOST_USE = re.compile(r"^( *)ghost use (\S+?)(?:\.\{([^}]*)\})?(?: as (\w+))?;", re.M)
BLOCK = re.compile(r"^ *(?:pub(?:\([^)]*\))? )?(impl|trait)\b([^{};]*)\{", re.M)
KIND = re.compile(
    r"^(?: *(?:pub(?:\([^)]*\))? )?(?=enum|struct|trait)|(?:pub(?:\([^)]*\))? )?(?=type|const))(\w+) ([A-Z]\w*)", re.M
)
GHOST = re.compile(r"^ *ghost (\w+)\s*(?::|=)\s*\{", re.M)
QUOTED = re.compile(r"⟦<(.+?) as (\w+)(?:<[^⟧]*)?>⟧(?:\.(\w+))?")


@functools.cache
def plain(path):
    """A source without its comments and texts, each other letter in its place."""
    return COMMENTS.sub(lambda it: re.sub(r"[^\n]", " ", it[0]), read(path))


@functools.cache
def declared(path):
    """The types, traits and constants that a source declares: for each its kind and its place."""
    return {it[2]: (it[1], it.start(1)) for it in KIND.finditer(plain(path))}


@functools.cache
def sources(crate):
    return [it for it in FILES if it.startswith(f"crates/{crate}/src/") and it.endswith(".rt")]


def spread(path):
    """The names that the path of a `use` brings, each with the whole path of it."""
    head, brace, inside = path.partition("{")
    if not brace:
        first, _, other = path.strip().partition(" as ")
        yield (other or first).split("::")[-1].strip(), first.strip()
        return
    depth, part = 0, ""
    for letter in inside[: inside.rindex("}")] + ",":
        depth += {"{": 1, "}": -1}.get(letter, 0)
        if letter == "," and depth == 0:
            if part.strip():
                yield from spread(head.strip() + part.strip())
            part = ""
        else:
            part += letter


@functools.cache
def names_used(path):
    """The names of Rust that a source brings in."""
    found = [" ".join(it.split()) for it in USE.findall(plain(path))]
    return {name: whole for it in found for name, whole in spread(it)}


@functools.cache
def rust_word(path, name):
    """What a name of Rust means in a source: a type or a trait of the repository or of the kit."""
    if name in declared(path):
        return declared_word(path, name)
    whole = names_used(path).get(name, "")
    first, *inside = whole.split("::")
    last = inside.pop() if inside else name
    if whole and first in KIT:
        return ("kit", "::".join([first, *inside]), last)
    crate = first if sources(first) else path.split("/")[1]
    found = [it for it in sources(crate) if last in declared(it)]
    if len(found) > 1:
        found = [it for it in found if all(x in it.removesuffix(".rt").split("/") for x in inside)]
    if len(found) == 1:
        return declared_word(found[0], last)
    above = f"{os.path.dirname(path)}.rt" if first == "super" else f"crates/{crate}/src/{'/'.join(inside)}.rt"
    for it in (above, f"crates/{crate}/src/lib.rt"):
        if not found and it in FILES and it != path and last in names_used(it):
            return rust_word(it, last)
    return ("kit", "std", name) if not whole and name in PRELUDE else None


def declared_word(path, name):
    return ("trait" if declared(path)[name][0] == "trait" else "type", path, name)


def comment_above(path, at):
    """The comment above the line of a place; attributes between them are skipped."""
    comment = []
    for line in reversed(read(path)[:at].split("\n")[:-1]):
        if not re.match(r"\s*(?://|#\[)", line):
            break
        if line.lstrip().startswith("//"):
            comment.insert(0, line)
    return comment


def doc_of(path, at):
    """The first sentence of the comment above a place."""
    doc = " ".join(it.strip().lstrip("/").strip() for it in comment_above(path, at))
    return re.split(r"(?<=\.) ", doc)[0]


def line_at(text, at):
    return text.rfind("\n", 0, at) + 1


def impl_of(head):
    """The trait and the type of the head of an `impl`; without a trait, the type alone."""
    head = without_angles(head).split(" where ")[0]
    names = [it for it in re.findall(r"[\w:]+", head) if it not in ("mut", "dyn", "a")]
    if "for" in names:
        return names[names.index("for") - 1].split("::")[-1], names[names.index("for") + 1]
    return "", names[0] if names else ""


def parted(text):
    """The parts of a text between the commas of its own, up to the bracket that ends it."""
    parts, depth = [""], 0
    for at, letter in enumerate(text):
        depth += {"<": 1, "(": 1, "[": 1, ")": -1, "]": -1}.get(letter, 0)
        depth -= letter == ">" and text[at - 1] != "-"
        if depth < 0 or letter in "{;":
            break
        if letter == "," and depth == 0:
            parts.append("")
        else:
            parts[-1] += letter
    return parts


class Source:
    """What names mean at a place of a source, behind this head of a function or a type."""

    def __init__(self, path, at, head=""):
        self.path, text = path, plain(path)
        self.kind = self.owner = ""
        self.bounds, around = {}, range(0)
        for found in BLOCK.finditer(text):
            if found.start() <= at < end_of_block(text, found.end() - 1):
                around = range(found.start(), end_of_block(text, found.end() - 1))
                self.kind = found[1]
                self.owner = impl_of(found[2])[1] if found[1] == "impl" else found[2].split("<")[0].split(":")[0].strip()
                self.take_bounds(found[2])
        self.take_bounds(head)
        imports = [it.groups()[1:] for it in GHOST_USE.finditer(text) if not it[1] or it.start() in around]
        self.imports, self.aliases, self.parts = imports_of(imports)
        self.bound = set(re.findall(r"\b([a-z_]\w*)\s*:(?!:)", head)) | {"result", "self", "Self"}

    def take_bounds(self, head):
        """The type parameters of a head, with their bounds."""
        found = re.match(r"\s*(?:(?:fn|enum|struct|type|trait)\s+)?\w*\s*<", head)
        parts = parted(head[found.end() :]) if found else []
        behind = re.split(r"\bwhere\b", head)
        for part in parts + (parted(behind[-1]) if behind[1:] else []):
            name, _, bounds = part.partition(":")
            name, bounds = name.split("=")[0].replace("const ", "").strip(), bounds.split(" = ")[0]
            if re.fullmatch(r"[A-Z]\w*", name):
                bounds = [self.bounds.get(name, ""), " ".join(bounds.split())]
                self.bounds[name] = " + ".join(filter(None, bounds))

    def meaning(self, name, rest):
        """What a name means, with what stands behind its points."""
        if name in BUILT_IN:
            return None
        if name in self.aliases:
            return imported(self.aliases[name], rest[0] if rest else "")
        if name in self.imports:
            return imported(*self.imports[name])
        if name in self.bounds:
            return self.member(name, rest) if rest else None
        if self.kind == "trait" and name in ghosts_of(self.path, self.owner):
            return ("member", f"Self.{name}", member_of(self.path, self.owner, [name]))
        found = rust_word(self.path, name)
        if not found:
            raise Unknown(f"{self.path}: nothing is found under {'.'.join([name, *rest])}")
        if found[0] == "type" and rest and rest[0][0].islower():
            return given(found[1], found[2], None, rest[0]) or found
        return found

    def member(self, name, rest):
        """What a type parameter has by its bounds: one member, or all that a trait has."""
        by = f"by `{name}: {self.bounds[name]}`" if self.bounds[name] else "of every type"
        note = member_of(self.path, self.bounds[name], rest) or f"the kit's, {by}"
        return note if isinstance(note, tuple) else ("member", ".".join([name, *rest]), note)

    def models(self, head):
        """What contracts see the types of a head as: the value of a `Model`, or else their fields."""
        for name in re.findall(r"\b[A-Z]\w*|\bself\b", head):
            name = self.owner if name in ("self", "Self") else name
            found = rust_word(self.path, name) if name not in self.bounds else None
            if found and found[0] == "type":
                yield given(found[1], found[2], "Model", "Value") or found

    def quoted(self, name, trait, member):
        """A ghost member that a type has by a trait."""
        name = name.strip("&").split("<")[0].split("::")[-1].strip()
        name = self.owner if name == "Self" else name
        if name in self.bounds:
            return self.member(name, [member] if member else [trait])
        found = rust_word(self.path, name)
        while found and found[0] == "type" and declared(found[1])[found[2]][0] == "type":
            found = rust_word(found[1], re.search(r"= *([A-Z]\w*)", block_of(*found[1:])[0])[1])
        if found and found[0] == "type" and given(found[1], found[2], trait, member):
            return given(found[1], found[2], trait, member)
        if found and found[0] == "type" and not member and rust_word(self.path, trait):
            return rust_word(self.path, trait)
        if found and found[0] == "kit":
            return ("kit", found[1], f"<{name} as {trait}>.{member}".strip("."))
        raise Unknown(f"{self.path}: nothing is found under <{name} as {trait}>.{member}")

    def uses_in(self, text):
        """The words that a text uses."""
        text = re.sub(r"//.*$", "", text, flags=re.M)
        quoted = [self.quoted(it[1], it[2], it[3] or "") for it in QUOTED.finditer(text)]
        text = re.sub(r"⟦[^⟧]*⟧(?:\.\w+)*", " ", text)
        bound = self.bound | bound_in(text)
        text = SET.sub(lambda it: " " * len(it[0]), text)

        def is_bound(name, rest, at):
            return name in bound and not (rest and rest[0][0].isupper() and name in self.aliases)

        words = used(text, is_bound, self.meaning, self)
        return words + [it for it in dict.fromkeys(quoted) if it not in words]


@functools.cache
def block_of(path, name):
    """The text of a declaration, from its keyword to its end; and its place."""
    text, at = plain(path), declared(path)[name][1]
    found = re.compile(r"[{;]").search(text, at)
    return text[at : end_of_block(text, found.start()) if found[0] == "{" else found.end()], at


@functools.cache
def ghosts_of(path, trait):
    """The ghost members of a trait, each with the first sentence of its comment."""
    block, at = block_of(path, trait)
    return {it[1]: doc_of(path, at + it.start()) for it in GHOST.finditer(block)}


def member_of(path, bounds, rest):
    """What a trait of the repository says of a member, if one of these bounds has it."""
    for name in re.findall(r"\b[A-Z]\w*", without_angles(bounds)):
        found = rust_word(path, name)
        if not found or found[0] != "trait":
            continue
        where, trait = found[1:]
        block = block_of(where, trait)[0]
        if rest[0] in ghosts_of(where, trait):
            return f"of `{trait}`, {where}: {ghosts_of(where, trait)[rest[0]]}".rstrip(": ")
        if rest[0] == trait:
            return found
        inner = re.search(rf"\btype {rest[0]}\b(?:: ([^;=]*))?", block)
        if inner:
            bounds = " ".join((inner[1] or "").split())
            note = rest[1:] and member_of(where, bounds, rest[1:])
            return note or f"the kit's, by `{rest[0]}: {bounds}` of `{trait}`, {where}"
        above = re.match(r"trait \w+(?:<[^{]*>)?\s*:\s*([^{]*)", block)
        if above and member_of(where, above[1], rest):
            return member_of(where, above[1], rest)
    return None


@functools.cache
def given(path, name, trait, member):
    """The ghost member of a type that an `impl` in its crate gives: its file, its place, a title."""
    for file in sources(path.split("/")[1]):
        text = plain(file)
        for found in BLOCK.finditer(text):
            of, its = impl_of(found[2])
            if found[1] == "impl" and of and its == name and trait in (None, of):
                end = end_of_block(text, found.end() - 1)
                for it in GHOST.finditer(text, found.end(), end):
                    if it[1] == member:
                        return ("given", file, it.start(), f"impl {of} for {name}")
    return None
