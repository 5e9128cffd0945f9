#!/usr/bin/env python3
"""Brings this repository's own definitions and lemmas to the spelling of today's Rattle. Run once, at the top, after the kit's port.py.

- What is in camel case with a small first letter (`isFree`) is in snake case (`is_free`), wherever it stands.
- A dash in a lemma's name stays where it joins the names of two definitions (`cells_of-words_of`); a plain word is added with `_`.
- Names of what Rattle makes (goals, fields of a step) are not touched, nor is any Rust name.
In comments and pages only what stands between backquotes is respelled, since a dash is also English.

It stops, and writes nothing, where two names would fall together in one file's scope.
"""

import collections
import glob
import os
import re
import subprocess
import sys

CAMEL = re.compile(r"(?<![\w'])[a-z][a-z0-9]*(?:[A-Z][a-z0-9]*)+(?![\w'])")
TOKEN = re.compile(r"[^\s(){}\[\].,;:`\"|$&=<>*/∷]+")
DECLARED = re.compile(r"^ {0,8}(?:(abbrev|unfoldable) )?(?:pub )?(?:(record|data) )?([^\s:(){}.]+)(?: (?:\([^)]*\)|\{[^}]*\}))* : ")
STD = set("length take drop set sets get_or replicate append cond not eqb ltb leb min max bit_and bit_or bit_xor".split())
# Lemmas that port.py brought to the very name that a definition has now, by the file that declares each.
TWICE = {"line_after": "crates/program/specs/Turns.antt", "is_live": "crates/table/specs/Table.antt"}
MADE = re.compile(r"-(spec|requires|requires-\d+)$|^(returns|add|mul|sub|cast|loop|invariant|decreases|slice|array|element|shared|enum)-")


def snake(word):
    # std's getD has a new name
    word = word.replace("getD", "get_or")
    return re.sub(r"(?<=[a-z0-9])([A-Z])", lambda m: "_" + m.group(1).lower(), word) if re.match(r"[a-z]", word) else word


def tracked():
    for path in subprocess.run(["git", "ls-files", "-z"], capture_output=True, text=True, check=True).stdout.split("\0"):
        if path and (path.startswith("crates/") or path.endswith(".md")) and path.endswith((".antt", ".rt", ".edit", ".md")):
            yield path


# What port.py respelled in the code, but in no comment and no page.
ONCE = set()


def declared():
    kinds = collections.defaultdict(set)
    fields = set()
    for path in tracked():
        if not path.endswith(".antt") or "/proofs/" in path and path.count("/") > 3:
            continue
        for line in open(path, encoding="utf-8"):
            m = DECLARED.match(line)
            if m:
                kinds[m.group(3)].add(m.group(1) or m.group(2) or "lemma")
                if line.startswith(" "):
                    fields.add(m.group(3))
    return kinds, fields


def respelled(name, functions):
    out = ""
    for part in re.split(r"(-|→)", name):
        if part == "-":
            out += "-"
        else:
            out += snake(part)
    words = out.split("-")
    joined = words[0]
    for left, right in zip(words, words[1:]):
        both = re.sub("→$|^→", "", left) in functions and re.sub("→$|^→", "", right) in functions
        joined += ("-" if both else "_") + right
    return joined


def code(text, names, made=frozenset()):
    text = CAMEL.sub(lambda m: snake(m.group(0)), text)

    def token(m):
        if m.group(0) in made and text[m.start() - 1 : m.start()] == ".":
            return m.group(0)
        return names.get(m.group(0), m.group(0))

    return TOKEN.sub(token, text)


def quoted(text, names):
    return re.sub(r"`[^`\n]+`", lambda m: code(m.group(0), names | {n.replace("_", "-"): n for n in ONCE}), text)


def apart(path, text):
    """The lemmas of TWICE get their own names first, where they are declared or imported."""
    for name, home in TWICE.items():
        module = "Rattle." + home.split("/")[1] + ".specs." + os.path.basename(home)[:-5]
        imported = re.search(re.escape(module) + r"\.\{[^}]*\b" + name + r"\b", text)
        if path == home or path.endswith(".antt") and imported:
            text = re.sub(r"(?<![\w.-])" + name + r"(?![\w'-])", name + "_lem", text)
    return text


def turn(path, text, names, made=frozenset()):
    text = apart(path, text)
    if path.endswith(".md"):
        return quoted(text, names)
    mark = "--" if path.endswith(".antt") else "//"
    lines = []
    for line in text.split("\n"):
        at = re.search(r"(?:^|\s)" + mark + r"(?:\s|$)", line)
        cut = at.start() if at else len(line)
        lines.append(code(line[:cut], names, made) + quoted(line[cut:], names))
    return "\n".join(lines)


def scope(text):
    """The names that a file declares or imports, each with how often it comes."""
    seen = collections.Counter()
    for line in text.split("\n"):
        m = DECLARED.match(line)
        if m and not line.startswith(" "):
            seen[m.group(3)] += 1
    for m in re.finditer(r"^(?:ghost )?use [^\n{]*\{([^}]*)\}", text, re.M):
        for name in m.group(1).split(","):
            seen[name.strip().split(" as ")[-1]] += 1
    return seen


def main():
    kinds, fields = declared()
    ONCE.update(n for n in kinds if "_" in n and n.replace("_", "-") not in kinds)
    functions = {snake(n) for n, k in kinds.items() if k & {"abbrev", "unfoldable", "record", "data"}} | STD
    names = {}
    for name, kind in kinds.items():
        if "-" in name and not MADE.search(name):
            names[snake_parts(name)] = respelled(name, functions)
    taken = {snake(n) for n in kinds if "-" not in n}
    for old, new in list(names.items()):
        if new in taken and new != old:
            print(f"{old}: {new} is taken, so it ends in _lem")
            names[old] = new + "_lem"
    # a step of a proof may have the name of a lemma: what follows a dot there is respelled only where it is a field of ours
    steps = {n for n in names if n not in fields}
    bad = 0
    texts = {}
    for path in tracked():
        text = open(path, encoding="utf-8").read()
        new = turn(path, text, names, steps if path.endswith("Proof.antt") else frozenset())
        if path.endswith((".antt", ".rt")):
            for name, count in scope(new).items():
                if count > scope(text).get(name, 0) and count > 1:
                    print(f"{path}: {name} falls together")
                    bad += 1
        if new != text:
            texts[path] = new
    if bad and "--force" not in sys.argv:
        return 1
    for path, new in texts.items():
        open(path, "w", encoding="utf-8").write(new)
    print(f"{len(texts)} files, {len(names)} names with dashes")
    return 0


def snake_parts(name):
    return CAMEL.sub(lambda m: snake(m.group(0)), name)


if __name__ == "__main__":
    raise SystemExit(main())
