#!/usr/bin/env python3
"""Brings the names of this repository's own definitions and lemmas to one spelling: words in snake case, types in upper camel case.

usage: python3 tools/respell.py        at the top of the repository

A name is one that a file right in specs/ or proofs/ defines (also a field or a constructor), or a lemma that an answer file keeps for itself.
A dash stays where it joins two names: where each part is a function that std or a file here defines, or the whole is a name of std.
Names that Rattle makes (goals, steps) and names of the code are not touched. Two names that would fall together stop the script.
"""

import os
import re
import sys

STD = "/opt/rattle/rattle"
SIGNATURE = re.compile(r"^( *)((?:abbrev |unfoldable |pub )*)([^\s:(){}]+)((?: [({][^:\n]*)?) ?:(?![=:])", re.M)
RECORD = re.compile(r"^(?:pub )?record ([^\s:({]+)", re.M)
FAMILY = re.compile(r"^(?:pub )?data ([^\s:({]+)", re.M)
WORD = re.compile(r"[A-Za-z_][A-Za-z0-9_'→≤≡ℕ-]*")
BY_HAND = {
    "getD-listed": "get_or-listed",
    "listed-getD": "listed-get_or",
    "read-sizes": "read_sizing",
    "judge-sizes": "judge_sizing",
    "encode-sizes": "encode_sizing",
    "take-sizes": "take_sizing",
    "last-at": "last_number",
}


def files(top, kinds):
    for folder, dirs, names in os.walk(top):
        dirs[:] = sorted(d for d in dirs if d != "out")
        for n in sorted(names):
            if n.endswith(kinds):
                yield os.path.join(folder, n)


def read(path):
    with open(path, encoding="utf-8") as f:
        return f.read()


def own(top):
    """The names that the repository defines, and those among them that are lemmas."""
    names, functions = set(), set()
    for path in files(os.path.join(top, "crates"), ".antt"):
        parts = path.split(os.sep)
        shared = parts[-2] in ("specs", "proofs")
        text = read(path)
        for m in RECORD.finditer(text):
            names.add(m[1])
        for m in SIGNATURE.finditer(text):
            name, rest = m[3], text[m.end() : m.end() + 20].strip()
            if rest.startswith("goal."):
                continue
            if m[1] and not shared:
                continue
            names.add(name)
            if "abbrev" in m[2] or "unfoldable" in m[2]:
                functions.add(name)
    return names, functions


def std_words():
    """The names that std defines."""
    words = set()
    for path in files(STD, ".antt"):
        words.update(m[3] for m in SIGNATURE.finditer(read(path)))
    return words


def respelled(name, functions, std):
    if name in BY_HAND:
        return BY_HAND[name]
    if "-" not in name or name in std:
        return name
    parts = name.split("-")
    if name[0].isupper():
        return parts[0] + "".join(p[0].upper() + p[1:] for p in parts[1:])
    if name not in functions and all(p in functions or p in ("add", "mul", "neg", "zero", "one", "length", "get_or") for p in parts):
        return name
    return name.replace("-", "_")


def main():
    top = os.getcwd()
    names, functions = own(top)
    std = std_words()
    turned = {n: respelled(n, functions, std) for n in names}
    turned = {n: t for n, t in turned.items() if n != t}
    texts = {}
    for path in files(os.path.join(top, "crates"), (".antt", ".rt", ".edit")):
        texts[path] = read(path)
    present = set()
    for text in texts.values():
        present.update(WORD.findall(text))
    seen = {}
    bad = False
    for n, t in sorted(turned.items()):
        if t in present or t in seen:
            print(f"{n} would fall together with {seen.get(t, t)}", file=sys.stderr)
            bad = True
        seen[t] = n
    if bad:
        return 1
    for path, text in texts.items():
        mark = "--" if path.endswith(".antt") else "//"
        lines = []
        for line in text.split("\n"):
            comment = re.match(r"\s*" + mark, line)
            lines.append(line if comment else WORD.sub(lambda m: turned.get(m[0], m[0]), line))
        new = "\n".join(lines)
        if new != text:
            with open(path, "w", encoding="utf-8") as f:
                f.write(new)
    for n, t in sorted(turned.items()):
        print(f"{n} {t}")
    return 0


if __name__ == "__main__":
    sys.exit(main())
