"""Proves and builds the module of the page."""

import collections
import os
import re
import shutil
import subprocess

from .module import NAME, SOURCES, USED

TARGET = "wasm64-unknown-unknown"
# the line with the verdict; nothing may be trusted but the logic and the libraries that the gate built
VERDICT = re.compile(r"^logic=.*$", re.MULTILINE)
PROVED = re.compile(rf"logic=proved functions=\d+ target={TARGET} sum=\w+ native=[\w,]+( (logic-built|libraries-built|statements)=trusted)*")
NO_EMPTY_CONTRACT = re.compile(r"^empty contracts: 0 found; tried (\d+) of \1 functions$", re.MULTILINE)
# what the module may export; it may import nothing
EXPORTS = {"convert", "show", "memory", "__heap_base"}

Built = collections.namedtuple("Built", "module verdict kit")


class Missing(Exception):
    """Something that is needed isn't there."""


class Refused(Exception):
    """The module wasn't proved, or isn't what it has to be."""


def run(words, folder):
    """What a command says, its output and its errors together."""
    ended = subprocess.run(words, cwd=folder, stdin=subprocess.DEVNULL, stdout=subprocess.PIPE, stderr=subprocess.STDOUT, check=False)
    said = ended.stdout.decode(errors="replace")
    if ended.returncode != 0:
        lines = said.splitlines()
        faults = [line for line in lines if re.match(r"fn \S+: no", line)] or [line for line in lines if not line.startswith("statements ")][-20:]
        raise Refused("\n".join([f"{os.path.basename(words[0])} {words[1]} ended with status {ended.returncode}:", *faults]))
    return said


def kit_folder():
    found = shutil.which("rt")
    if found is None:
        raise Missing("the command rt of the Rattle kit is not on the PATH")
    return os.path.dirname(os.path.dirname(os.path.realpath(found)))


def crates_below(top, names):
    """The crates of this repository that these stand on, and these; and the kit's libraries among what these are called."""
    with open(os.path.join(top, "crates.txt"), encoding="utf-8") as file:
        rows = dict(line.split(":", 1) for line in file if ":" in line and not line.startswith("#"))
    found, waiting = set(), list(names)
    while waiting:
        name = waiting.pop()
        if name in rows and name not in found:
            found.add(name)
            waiting.extend(rows[name].split())
    return sorted(found)


def furnish(top, libraries, folder, sources):
    """Puts the sources into the folder, and links to the libraries beside them."""
    for path, text in sources.items():
        place = os.path.join(folder, path)
        os.makedirs(os.path.dirname(place), exist_ok=True)
        with open(place, "w", encoding="utf-8") as file:
            file.write(text)
    os.mkdir(os.path.join(folder, "libraries"))
    for name in crates_below(top, USED):
        library = os.path.join(libraries, "crates", name, "out", "rlib", f"{name}.rlib")
        if not os.path.isdir(library):
            raise Missing(f"the proved library of {name} is not there: run rt ci first, or name another copy of the repository by LIBRARIES")
        os.symlink(library, os.path.join(folder, "libraries", f"{name}.rlib"))


def words_of_build(kit):
    words = ["build", "--crate-name", NAME, "src/lib.rt", "--crate-type", "staticlib", "--target", TARGET]
    words += ["--extern", f"std={kit}/rlibs/std.rlib"]
    for name in USED:
        words += ["--extern", f"{name}=libraries/{name}.rlib"]
    words += ["-L", f"dependency={kit}/rlibs", "-L", "dependency=libraries", "--links", f"{NAME}="]
    words += ["--antt-project", f"{kit}/rattle/logic/antt-project.json", "--logic-built", f"{kit}/logic_built", "--toolchain", f"{kit}/toolchain"]
    return words + ["--empty-contracts", "-o", f"lib{NAME}.a"]


def names_of_section(module, wanted):
    """The names in the section of imports (2) or of exports (7) of a module: for imports only whether there are any."""

    def number(place):
        value = shift = 0
        while True:
            byte = module[place]
            value, shift, place = value | (byte & 127) << shift, shift + 7, place + 1
            if byte < 128:
                return value, place

    place = 8
    while place < len(module):
        kind, (size, begin) = module[place], number(place + 1)
        place = begin + size
        if kind != wanted:
            continue
        count, at = number(begin)
        names = []
        for _ in range(count if wanted == 7 else 0):
            length, at = number(at)
            names.append(module[at : at + length].decode())
            _, at = number(at + length + 1)
        return names if wanted == 7 else [None] * count
    return []


def prove(top, libraries, folder, sources=None):
    """Proves the module and builds its code in the folder; the line with the verdict, and where the kit is."""
    kit = kit_folder()
    furnish(top, libraries, folder, sources or SOURCES)
    said = run([f"{kit}/bin/rattle", *words_of_build(kit)], folder)
    found = VERDICT.search(said)
    verdict = found.group(0) if found else "no verdict"
    if not PROVED.fullmatch(verdict):
        raise Refused(f"the module wasn't proved over the libraries of a whole run of rt ci: {verdict}")
    if NO_EMPTY_CONTRACT.search(said) is None:
        raise Refused("no call can meet a contract of the module")
    return verdict, kit


def build(top, libraries, folder):
    """The module, the line with its verdict, and the kit that built it."""
    verdict, kit = prove(top, libraries, folder)
    run([f"{kit}/bin/rattle-link", "--target", TARGET, "--toolchain", f"{kit}/toolchain", "-o", "module.wasm", f"lib{NAME}.a"], folder)
    with open(os.path.join(folder, "module.wasm"), "rb") as file:
        module = file.read()
    if names_of_section(module, 2) or set(names_of_section(module, 7)) != EXPORTS:
        raise Refused(f"the module imports something, or exports {names_of_section(module, 7)}")
    return Built(module, verdict, run([f"{kit}/bin/rt", "version"], folder).strip())
