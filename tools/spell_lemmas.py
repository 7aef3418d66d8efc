#!/usr/bin/env python3
"""Gives four lemmas the ending '_lem', since port.py and spell.py gave them the name of the definition that they speak of.

usage: tools/spell_lemmas.py COMMIT      once, after tools/spell.py; COMMIT is the repository before the port

Which of the places that now read alike was the lemma is read off COMMIT, where the lemma had a dash and the definition none.
"""
import re
import subprocess
import sys

WORD = re.compile(r"[^\s(){}.;,@\"«»`]+")
LEMMAS = {
    "in-order": ("in_order", {"inOrder"}, {"crates/desk/proofs/InOrder.antt", "crates/ledger/proofs/InOrder.antt"}),
    "share-in": ("share_in", {"shareIn"}, {"crates/shares/proofs/Shares.antt"}),
    "from-one": ("from_one", {"fromOne"}, {"crates/ticks/proofs/Tests.antt"}),
    "goes-on": ("goes_on", {"goesOn"}, {"crates/answers/proofs/Answers.antt"}),
}


def git(*args):
    return subprocess.run(["git", *args], capture_output=True, text=True, check=True).stdout


def places(text, words):
    return [m for m in WORD.finditer(text) if m.group() in words]


def body_of(text):
    lines = text.split("\n")
    ends = [i for i, line in enumerate(lines) if line.startswith(("use ", "pub use "))]
    cut = ends[-1] + 1 if ends else 0
    return "\n".join(lines[:cut]), "\n".join(lines[cut:])


def homes_of(uses, dash, new):
    found = []
    for path, items in re.findall(r"use ([^\s{]+)\.\{([^}]*)\}", uses):
        if new in [item.strip() for item in items.split(",")]:
            parts = path.split(".")
            found.append("crates/" + "/".join(parts[1:]) + ".antt" if parts[0] == "Rattle" else "")
    return found


def main():
    old = sys.argv[1]
    for path in git("ls-tree", "-r", "--name-only", old).split():
        if not path.endswith(".antt"):
            continue
        was = git("show", old + ":" + path)
        for dash, (new, twins, homes) in LEMMAS.items():
            if dash not in WORD.findall(was):
                continue
            with open(path, encoding="utf-8") as file:
                text = file.read()
            uses, body = body_of(text)
            mine = [h for h in homes_of(uses, dash, new) if h in homes]
            if not mine and path not in homes:
                continue
            before = places(body_of(was)[1], {dash, new} | twins)
            now = places(body, {new})
            if len(before) != len(now):
                print("by hand:", path, dash, len(before), len(now))
                continue
            for b, n in reversed(list(zip(before, now))):
                if b.group() == dash:
                    body = body[: n.start()] + new + "_lem" + body[n.end():]
            lines = []
            for line in uses.split("\n"):
                if any(h in homes for h in homes_of(line, dash, new)):
                    line = re.sub(r"(?<=[{ ])" + new + r"(?=[,}])", new + "_lem", line)
                lines.append(line)
            with open(path, "w", encoding="utf-8") as file:
                file.write("\n".join(lines) + "\n" + body)
            print("turned:", path, dash)


main()
