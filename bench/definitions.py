#!/usr/bin/env python3
"""Counts the definitions that a contract or a definition reaches, and fails where docs/DEFINITIONS.md lacks a file of one.

A definition counts where the contract, or a definition that the contract reaches, names it; so do the types of the
sources that they name. Names are resolved by the `use` lines of the file in which they stand, by definition and not by
file: a file that is reached for one of its words doesn't bring its others. A word that is also a variable's or a field's
name counts where a definition of that name is in scope, so the counts are at most too high.

A file is named on the page with its crate, as crate/specs/File.antt, or by itself behind one of that crate in the same
row, or in a section whose heading names the crate.

Usage: python3 bench/definitions.py [-v] [SOURCE FUNCTION [CLAUSE] | FILE DEFINITION]     (without one: what adig printed,
the runs of adig, ahost and tns, and the end of a shared channel; -v lists what is reached)
"""
import functools
import os
import re
import sys

os.chdir(os.path.join(os.path.dirname(os.path.abspath(__file__)), ".."))
HEAD = re.compile(r"^(\s*)(?:abbrev pub|abbrev|pub record|record|pub data|data|unfoldable pub|unfoldable|pub) ([^\s:(]+)[ :({]")
USE = re.compile(r"^\s*(?:ghost )?(?:pub )?use ([\w.]+?)(?:\.\{([^}]*)\}| as (\w+))?;?\s*$", re.M)
WORD = re.compile(r"[^\W\d][\w-]*(?:\.[^\W\d][\w-]*)?|◌[^\s◌]+◌")


def text_of(path):
    with open(path) as file:
        return file.read()


@functools.cache
def path_of(module):
    """The file of a module of this repository's specs, or of the source that declares a type, and whether it is a type."""
    parts = module.split(".")
    if len(parts) < 4 or parts[0] != "Rattle" or parts[2] != "specs":
        return None
    crate = os.path.join("crates", parts[1])
    if parts[3] == "declared":
        for n in range(len(parts), 4, -1):
            for path in (os.path.join(crate, "src", *parts[4:n]) + ".rt", os.path.join(crate, "src", *parts[4 : n - 1], "lib.rt")):
                if os.path.exists(path):
                    return path, "type"
        return None
    path = os.path.join(crate, "specs", *parts[3:]) + ".antt"
    return (path, "definition") if os.path.exists(path) else None


@functools.cache
def scope_of(path):
    """The names that a file brings in: each with the module that it is of, and its name there; modules under a name apart."""
    names, modules = {}, {}
    for module, listed, alias in USE.findall(text_of(path)):
        if alias:
            modules[alias] = module
        for item in listed.split(","):
            words = item.split()
            if words:
                names[words[-1]] = module, words[0]
        if not listed and not alias:
            modules[module.rsplit(".", 1)[-1]] = module
    return names, modules


@functools.cache
def definitions_of(path):
    """The definitions of a file of specs: each with its text, as far as the next one that stands no deeper."""
    lines, found, at = text_of(path).split("\n"), {}, []
    for number, line in enumerate(lines):
        head = HEAD.match(line)
        # (a field of a record stands deeper than the record, and is no definition)
        if head and not any(depth < len(head.group(1)) and kind for depth, kind in at[-1:]):
            kind = bool(re.match(r"\s*(?:pub )?(?:record|data)\b", line)) or "record" in line.split("=")[0]
            at = [(len(head.group(1)), kind)]
            found.setdefault(head.group(2), []).append(number)
        elif line.strip() and at and len(line) - len(line.lstrip()) <= at[-1][0] and not line.lstrip().startswith("--"):
            if not line.lstrip().startswith(tuple(f"{it} " for it in found)):
                at = []
    starts = sorted(number for numbers in found.values() for number in numbers)
    ends = dict(zip(starts, [*starts[1:], len(lines)]))
    return {name: "\n".join(re.sub(r"--.*", "", line) for it in numbers for line in lines[it : ends[it]]) for name, numbers in found.items()}


def named_in(text, path):
    """What a text of this file names: definitions as (file, name), types as (source, name)."""
    names, modules = scope_of(path)
    own = definitions_of(path) if path.endswith(".antt") else {}
    for word in set(WORD.findall(text)):
        front, _, back = word.partition(".")
        if word in names or front in names:
            module, name = names[word if word in names else front]
        elif back and front in modules:
            module, name = modules[front], back
        elif front in own:
            yield path, front, "definition"
            continue
        else:
            continue
        at = path_of(module)
        if at and at[1] == "type":
            yield at[0], module.split(".TheVariants")[0].rsplit(".", 1)[-1], "type"
        elif at:
            yield at[0], name, "definition"


def contract_of(path, function, clause):
    """The clauses of a function, or one of them."""
    text = text_of(path)
    start = re.search(rf"fn {function}\b", text).start()
    text = text[start : re.compile(r"^\{", re.M).search(text, start).start()]
    if clause:
        parts = re.split(r"\b(?=(?:ensures|requires)\b)", text)
        text = next(it for it in parts if re.match(rf"\w+ {clause}\b", it))
    return re.sub(r"//.*", "", text)


def reached(path, function, clause=None):
    """The definitions and the types that a contract reaches, or a definition, itself among them."""
    is_definition = path.endswith(".antt")
    seen, todo = set(), [(path, function, "definition")] if is_definition else list(named_in(contract_of(path, function, clause), path))
    while todo:
        it = todo.pop()
        if it in seen:
            continue
        file, name, kind = it
        if kind == "definition" and name not in definitions_of(file):
            continue
        seen.add(it)
        if kind == "definition":
            todo += named_in(definitions_of(file)[name], file)
    return seen


def on_page(page):
    """The files that the page names, as (crate, file)."""
    found, section = set(), []
    for line in page.split("\n"):
        if line.startswith("#"):
            section = re.findall(r"crates/([a-z_]+)/specs", line)
        within = section
        for crate, file in re.findall(r"`(?:([a-z_]+)/specs/)?(\w+\.antt)`", line):
            within = [crate] if crate else within
            found.update((it, file) for it in within)
    return found


STARTS = [
    ("crates/adig_tool/specs/Answered.antt", "AreAnswered", None),
    ("crates/adig_tool/src/running.rt", "run", None),
    ("crates/ahost_tool/src/running.rt", "run", None),
    ("crates/test_nameserver/src/running.rt", "run", None),
    ("crates/shared_channel/src/finishing.rt", "finish", None),
]


def main(words):
    is_long, words = "-v" in words, [it for it in words if it != "-v"]
    starts = [(words[0], words[1], words[2] if len(words) > 2 else None)] if words else STARTS
    page, lacks = on_page(text_of("docs/DEFINITIONS.md")), []
    for path, function, clause in starts:
        found = reached(path, function, clause)
        files = sorted({file for file, _, kind in found if kind == "definition"})
        types = {(file, name) for file, name, kind in found if kind == "type"}
        count = sum(kind == "definition" for _, _, kind in found)
        what = f"{path}: {function}{f', clause {clause}' if clause else ''}"
        print(f"{what}: {count} definitions in {len(files)} files, {len(types)} types in {len({file for file, _ in types})} files")
        if is_long:
            for file in sorted({file for file, _, _ in found}):
                print(f"  {file}: {', '.join(sorted(name for it, name, _ in found if it == file))}")
        lacks += [it for it in files if (it.split("/")[1], os.path.basename(it)) not in page and it not in lacks]
    for path in lacks:
        print("docs/DEFINITIONS.md lacks", path)
    return 1 if lacks else 0


if __name__ == "__main__":
    sys.exit(main(sys.argv[1:]))
