"""What a whole gate plans to take, by the rules of `rt ci` as they were read: the memory that a check
of each crate is given, and the wall minutes on machines of some sizes.

A crate is a proof, its tests (a second proof of all that stands in it) and its must-fail edits; two edits
or more begin with a check of the whole crate. A task starts where a processor is free, all below it is
proved, and the planned memory of all that runs is at most 0.85 of what was free at the start. Those
with the most lines above them go first, and edits fill what is left.
"""

import os
import re
import subprocess

ROW = re.compile(r"^\| (.+?) \| ([\d.]*) \| ([\d.]*) \| ([\d.]*) \|")
PARTS = {"core", "std", "std_alloc", "std_collections", "std_heap", "std_io", "io", "libc", "os"}
MOST_LOADED = 2_500_000_000


class Crate:
    """A crate as `crates.txt` names it, with its lines, its edits, and the minutes that were measured."""

    def __init__(self, name, stands_on):
        self.name, self.stands_on = name, stands_on
        self.rows, self.proofs = lines(name, ["src"]), lines(name, ["specs", "proofs"])
        edits = f"crates/{name}/must-fail"
        self.edits = len(os.listdir(edits)) if os.path.isdir(edits) else 0
        self.proof = self.tests = self.edited = 0.0


def lines(name, folders):
    """How many lines stand in these folders of a crate."""
    found = 0
    for folder in folders:
        for at, _, files in os.walk(f"crates/{name}/{folder}"):
            for file in files:
                with open(f"{at}/{file}", encoding="utf-8") as text:
                    found += text.read().count("\n")
    return found


def crates():
    """The crates of the repository by name, lowest first."""
    found = {}
    with open("crates.txt", encoding="utf-8") as file:
        for line in file:
            name, colon, stands_on = line.partition("#")[0].partition(":")
            if colon:
                found[name.split()[0]] = Crate(name.split()[0], stands_on.split())
    return found


def below(all_crates, name):
    """All crates of the repository below one."""
    found = set()
    for it in all_crates[name].stands_on:
        if it in all_crates:
            found |= {it} | below(all_crates, it)
    return found


def measured(all_crates, path):
    """Notes the minutes of each crate from the table of a whole run."""
    rest, named = None, set()
    with open(path, encoding="utf-8") as file:
        for line in file:
            row = ROW.match(line)
            if not row:
                continue
            name, minutes = row[1].strip("`"), [float(it or 0) for it in row.groups()[1:]]
            if name in all_crates:
                named.add(name)
                crate = all_crates[name]
                crate.proof, crate.tests, crate.edited = minutes
            elif "more, each" in name:
                rest = minutes
    small = [it for it in all_crates.values() if it.name not in named]
    for crate in small if rest else []:
        crate.proof, crate.tests, crate.edited = (it / len(small) for it in rest)


def memory(all_crates, name, kit):
    """The bytes that a check of the crate is given, by the libraries of this kit."""
    under, crate = below(all_crates, name), all_crates[name]
    named = {it for one in [name, *under] for it in all_crates[one].stands_on} - set(all_crates) - PARTS
    files = [f"{kit}/rlibs/{it}.rlib/toolchain/checked.a" for it in named]
    loaded = 5 * sum(os.path.getsize(it) for it in files if os.path.isfile(it))
    own = 1_000_000_000 + 1_000_000 * crate.rows + 200_000 * crate.proofs
    return own + 80_000 * sum(all_crates[it].rows for it in under) + min(loaded, MOST_LOADED)


def tasks_of(all_crates, needs):
    """The tasks, lowest first: what each waits for, the lines that it counts for, its memory, its minutes."""
    tasks = {}
    for name, crate in all_crates.items():
        waits = [(it, "proof") for it in below(all_crates, name)]
        tasks[name, "proof"] = waits, crate.rows, needs[name], crate.proof
        tasks[name, "tests"] = waits, crate.rows if crate.tests else 0, needs[name], crate.tests
        seed = min(crate.proof, crate.edited * 0.6) if crate.edits > 1 else 0
        behind = [(name, "proof"), (name, "tests")]
        if seed:
            tasks[name, "seed"] = waits, 0, needs[name], seed
            behind.append((name, "seed"))
        for at in range(crate.edits):
            each = (crate.edited - seed) / crate.edits
            tasks[name, f"edit {at}"] = behind, crate.rows, 0.7 * needs[name], each
    return tasks


def wall(tasks, cores, free, factor):
    """The minutes from the first task to the end of the last, where each takes so many times its minutes."""
    behind = dict.fromkeys(tasks, 0)
    for key in reversed([*tasks]):
        behind[key] += tasks[key][1]
        for it in tasks[key][0]:
            behind[it] = max(behind[it], behind[key])
    proves = lambda key: key[1] in ("proof", "tests")
    left = sorted(tasks, key=lambda key: (not proves(key), -behind[key]))
    running, done, now = {}, set(), 0.0
    while left or running:
        ready = [key for key in left if all(it in done for it in tasks[key][0])]
        proofs, lacks = [key for key in ready if proves(key)], False
        for at, key in enumerate(ready):
            if lacks and not proves(key):
                break
            _, _, needs, minutes = tasks[key]
            room = 0.85 * free - sum(it[1] for it in running.values())
            idle = cores - sum(it[2] for it in running.values())
            if idle > 0 and (needs <= room or not running):
                left.remove(key)
                others = len(proofs) - proofs.index(key) if proves(key) else len(ready) - at
                spare = min(4, idle // others, 1 + int((room / needs - 1) / 0.6))
                jobs = max(1, spare) if proves(key) or key[1] == "seed" else 1
                ends = now + minutes * factor / (1 + 0.8 * (jobs - 1))
                running[key] = ends, needs * (1 + 0.6 * (jobs - 1)), jobs
            else:
                lacks = lacks or idle > 0 and proves(key)
        first = min(running, key=lambda key: running[key][0])
        now = running.pop(first)[0]
        done.add(first)
    return now


def report(path):
    """The lines that tell the crates of the most memory, and the wall minutes by cores, memory and pace."""
    found = crates()
    measured(found, path)
    guide = subprocess.run(["rt", "doc"], capture_output=True, text=True).stdout.strip()
    needs = {it: memory(found, it, os.path.dirname(guide)) for it in found}
    yield "Planned memory, in GB:"
    for name in sorted(needs, key=needs.get, reverse=True)[:12]:
        yield f"{needs[name] / 1e9:5.1f} {name}"
    tasks = tasks_of(found, needs)
    yield f"\nWall minutes of {sum(it[3] for it in tasks.values()):.0f} processor minutes:"
    for cores in (2, 4):
        for free in (8, 16, 23):
            times = [f"{wall(tasks, cores, free * 1e9, pace):.0f} at {pace} times" for pace in (1, 2, 3)]
            yield f"{cores} cores, {free} GB free: {', '.join(times)}"
