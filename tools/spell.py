#!/usr/bin/env python3
"""Spells the definitions, lemmas, fields and variables of this repository in snake case, as the library does.

usage: tools/spell.py [--list]       at the top of the repository, once, after the library's own names were turned

A name is the repository's own if it stands in a crate's specs/ or right in its proofs/ and is imported from no library. Types
and modules, which begin with a capital, keep their names; so do the names of Rust. Where a definition and a lemma would have
one name, the lemma gets '_lem'. In the folder of a function's proof its own names turn too, but for those of goals.
What is turned: *.antt, the clauses and imports of *.rt, *.edit, and code between backticks in *.md. --list prints the names
and changes nothing. A second run changes nothing.
"""
import collections
import glob
import os
import re
import sys

WORD = re.compile(r"[^\s(){}.;,@\"«»`]+")
USE = re.compile(r"\buse\s+([^\s{;]+)\.\{([^}]*)\}")
OWN = {os.path.basename(c) for c in glob.glob("crates/*")}


def bare(text):
    text = re.sub(r'"(?:[^"\\\n]|\\.)*"', "", text)
    return re.sub(r'(?m)(?<![^\s(){}.;,@"«»])--[^\n]*', "", text)


def snake(name):
    name = name.replace("getD", "get_or")
    return re.sub(r"(?<=[a-zA-Z0-9])([A-Z])", lambda m: "_" + m.group(1).lower(), name).replace("-", "_")


def turns(name):
    return not name[0].isupper() and re.search(r"[a-zA-Z0-9]-[a-zA-Z0-9]|[a-z][A-Z]", name)


def read(path):
    with open(path, encoding="utf-8") as file:
        return file.read()


def paths(pattern):
    return sorted(p for p in glob.glob(pattern, recursive=True) if "/out/" not in p and "/target/" not in p)


def table_of():
    library, used, there = set(), set(), set()
    shared = paths("crates/*/specs/**/*.antt") + paths("crates/*/proofs/*.antt")
    for path in paths("crates/**/*.antt"):
        text = bare(read(path))
        for place, items in USE.findall(text):
            parts = place.split(".")
            if parts[0] != "Rattle" or parts[1] not in OWN:
                library |= {item.strip().split(" as ")[0].strip() for item in items.split(",")}
        there |= set(WORD.findall(USE.sub("", text)))
        if path in shared:
            used |= set(WORD.findall(USE.sub("", text)))
    groups = collections.defaultdict(set)
    for name in used:
        if turns(name) and name not in library:
            groups[snake(name)].add(name)
    table = {}
    for new, names in groups.items():
        for name in names:
            twin = len(names) > 1 or new in SPEC_WORDS
            table[name] = new + "_lem" if twin and "-" in name else new
    return table


# spelled so by the library's own turning, and beside each of them a lemma of the same words
SPEC_WORDS = {"all_of", "is_yes", "share_of"}


def spelled(text, table):
    return WORD.sub(lambda m: table.get(m.group(), m.group()), text)


def proof_spelled(text, table):
    goals = set(re.findall(r"(?m)^(?:abbrev |pub )*([^\s:]+) :(?=[^\n]* (?:tie|goal)\.)", bare(text)))
    names = set(re.findall(r"(?m)^(?:abbrev |unfoldable |pub )*([^\s:(){}]+) :", bare(text)))
    mine = {name: snake(name) for name in names - goals if turns(name)}
    return spelled(text, {**table, **mine})


def page_spelled(text, table):
    return re.sub(r"(?s)(`+)(.*?)\1", lambda m: spelled(m.group(), table), text)


def turned(path, text, table):
    if path.endswith(".md"):
        return page_spelled(text, table)
    if re.search(r"/proofs/.*/", path):
        return proof_spelled(text, table)
    return spelled(text, table)


def main():
    table = table_of()
    if "--list" in sys.argv:
        print("\n".join(f"{old}\t{new}" for old, new in sorted(table.items())))
        return
    count = 0
    for kind in ("crates/**/*.antt", "crates/**/*.rt", "crates/**/*.edit", "docs/**/*.md", "README.md"):
        for path in paths(kind):
            text = read(path)
            new = turned(path, text, table)
            if new != text:
                count += 1
                with open(path, "w", encoding="utf-8") as file:
                    file.write(new)
    print(f"{len(table)} names, {count} files")


main()
