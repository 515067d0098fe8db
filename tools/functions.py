#!/usr/bin/env python3
"""Reads off the sources which functions a crate has, and the labels of the clauses of each.

    tools/functions.py CRATE    prints them

A function is told as `Type::name`, or by its name alone. The ghost members of an `impl` and of a trait
count as clauses of each of its functions; a clause without a label is told as `ensures` or `requires`.
"""

import functools
import os
import re
import sys

ROOT = os.path.dirname(os.path.dirname(os.path.realpath(__file__)))


def read(path):
    with open(f"{ROOT}/{path}", encoding="utf-8") as file:
        return file.read()


def tree():
    """The files of the repository, without what checks make."""
    found = []
    for at, folders, names in os.walk(ROOT):
        folders[:] = [it for it in folders if it not in (".git", "out", "target", "__pycache__")]
        found += [os.path.relpath(os.path.join(at, it), ROOT) for it in names]
    return sorted(found)


FILES = tree()

COMMENTS = re.compile(r'//[^\n]*|"(?:\\.|[^"\\])*"|\'(?:\\.[^\']*|[^\'\\])\'', re.S)


def blank(found):
    return " " * len(found.group())


BRACE = re.compile(r"[{}]")


def end_of_block(text, at):
    """The place behind the brace that closes the one at this place."""
    depth = 0
    for brace in BRACE.finditer(text, at):
        depth += 1 if brace[0] == "{" else -1
        if depth == 0:
            return brace.end()
    return len(text)


HEAD = re.compile(
    r"(?P<space>\s+)"
    r"|(?P<clause>(?:ensures|requires)\*?)\s*(?P<label>[A-Za-z_]\w*)?\s*\{"
    r"|(?P<body>\{)|(?P<end>;)|(?P<other>.)",
    re.S,
)


def clauses_behind(text, at):
    """The clauses of a function whose parameters begin at this place, each with its label and where it
    begins and ends; and the function's end."""
    clauses = []
    while at < len(text):
        found = HEAD.match(text, at)
        if found["clause"]:
            at = end_of_block(text, found.end() - 1)
            label = found["label"] or found["clause"].rstrip("*")
            clauses.append((label, found.start(), at))
        elif found["body"]:
            return clauses, end_of_block(text, at)
        elif found["end"]:
            return clauses, found.end()
        else:
            at = found.end()
    return clauses, at


ITEM = re.compile(
    r"\b(?P<kind>impl|trait|struct|enum|mod)\b(?P<head>[^{};]*)(?P<open>[{;])"
    r"|\bfn\s+(?P<fn>\w+)"
    r"|\bghost\s+(?P<ghost>\w+)\s*(?:=\s*\{|:\s*\{|;)"
    r"|(?P<brace>\{)|(?P<close>\})"
)


def without_angles(head):
    """A head of an impl without what stands in angle brackets."""
    depth, kept = 0, ""
    for letter in head.replace("->", "  "):
        depth += {"<": 1, ">": -1}.get(letter, 0)
        if depth == 0 and letter != ">":
            kept += letter
    return kept


def owner_of(kind, head):
    """The type or the trait whose methods an item has."""
    head = re.split(r"\swhere\s", without_angles(head))[0]
    if kind == "impl" and " for " in f" {head} ":
        head = head.split(" for ")[-1]
    names = re.findall(r"\w+", head.split(":")[0] if kind == "trait" else head)
    names = [it for it in names if it not in ("mut", "dyn", "a")]
    return names[-1] if kind == "impl" and names else names[0] if names else ""


def functions_of(crate):
    """What a crate has: each function as `Type::name` or `name`, with its labels."""
    return read_off(crate)[0]


def places_of(crate, name):
    """Where a function stands: for each of this name its file, where it begins, and its clauses."""
    return read_off(crate)[1].get(name, [])


@functools.cache
def read_off(crate):
    found, places = {}, {}
    for path in [it for it in FILES if it.startswith(f"crates/{crate}/src/")]:
        text = COMMENTS.sub(blank, read(path))
        at, owners, here = 0, [], []
        while True:
            item = ITEM.search(text, at)
            if not item:
                break
            at = item.end()
            if item["kind"]:
                owner = owner_of(item["kind"], item["head"])
                if item["open"] == "{":
                    owners.append((owner, item["kind"], []))
                    if item["kind"] == "trait":
                        found.setdefault(owner, set())
            elif item["fn"]:
                clauses, at = clauses_behind(text, at)
                labels = [it[0] for it in clauses]
                owner = next((it for it in reversed(owners) if it[1] != "mod"), None)
                name = f"{owner[0]}::{item['fn']}" if owner else item["fn"]
                found.setdefault(name, set()).update(labels)
                places.setdefault(name, []).append((path, item.start(), clauses))
                if owner:
                    owner[2].append(name)
                    if owner[1] == "trait":
                        found[owner[0]].update(labels)
            elif item["ghost"]:
                if owners:
                    here.append((owners[-1], item["ghost"]))
                if item.group().rstrip().endswith("{"):
                    at = end_of_block(text, at - 1)
            elif item["brace"]:
                owners.append(("", "mod", []))
            elif owners:
                owners.pop()
        for (owner, kind, names), ghost in here:
            for name in names:
                found[name].add(ghost)
            if kind == "trait" and owner in found:
                found[owner].add(ghost)
    return found, places


if __name__ == "__main__":
    for function, clauses in sorted(functions_of(sys.argv[1]).items()):
        print(f"{function}: {' '.join(sorted(clauses))}")
