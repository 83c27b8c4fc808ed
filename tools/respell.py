#!/usr/bin/env python3
"""Respells the definitions and lemmas of this repository as today's Rattle writes them.

usage: python3 tools/respell.py [--dry]     at the top of the repository, right after the kit's port.py

A type or a record, as Is-order, becomes IsOrder; any other word, as later-list, becomes later_list. Only names that
specs/ and proofs/ define are touched, wherever a .rt, .antt or .edit file or a page of docs/ cites them; in comments and
pages only what stands in backticks. Names that the prover makes (goals, steps of a function) and the names of Rust code
stay. Names that would fall together with another one are in OTHERS.
"""
import os
import re
import sys

# names that would fall together with a variant, a function or another definition
OTHERS = {
    "At-most": "AtMostAmong",
    "Too-large": "IsTooLarge",
    "Too-dense": "IsTooDense",
    "Too-wide": "IsTooWide",
    "Put-back": "IsPutBack",
    "Sound-prop": "Sound_prop",
    "Sound-entry-prop": "SoundEntry_prop",
    "Sound-offset-prop": "SoundOffset_prop",
    "bit-and": "bit-bit_and",
    "bit-or": "bit-bit_or",
    "bit-xor": "bit-bit_xor",
}
DEFINITION = re.compile(
    r"^\s*((?:(?:abbrev|unfoldable|pub|record|data|ruleset|module)\s+)*)([A-Za-z][^\s(){}:;,.\[\]]*)(\s.*)?$"
)
KIND = re.compile(r"\b(record|data|ruleset|module)\b")
TOKEN = re.compile(r"[A-Za-z_][\w'\u2032\u2070-\u209f]*(?:-[\w'\u2032\u2070-\u209f]+)+")


def texts(*ends):
    for top in ("crates", "docs"):
        for folder, dirs, files in os.walk(top):
            dirs[:] = sorted(d for d in dirs if d not in ("out", "target"))
            for name in sorted(files):
                if name.endswith(ends):
                    yield os.path.join(folder, name)


def respelt(name):
    if name in OTHERS:
        return OTHERS[name]
    if name[0].isupper():
        return "".join(part[:1].upper() + part[1:] for part in name.split("-"))
    return name.replace("-", "_")


def defined():
    """The names with a dash that this repository defines, fields too, and the goals that its answers name."""
    names, goals = set(), set()
    for path in texts(".antt"):
        with open(path, encoding="utf-8") as f:
            for line in f.read().split("\n"):
                m = DEFINITION.match(line)
                if not m:
                    continue
                kind, name, rest = m.group(1), m.group(2), m.group(3) or ""
                if re.match(r"^\s*:\s*goal\.", rest):
                    goals.add(name)
                elif "-" in name and TOKEN.fullmatch(name):
                    if KIND.search(kind) or re.match(r"^\s*(?:[({].*)?\s?:(\s|$)", rest):
                        names.add(name)
    return names | set(OTHERS) - goals, goals


def turn(text, names, path):
    """The text with each of the names respelt; in a page or a comment only what stands in backticks."""

    def one(m):
        return respelt(m.group(0)) if m.group(0) in names else m.group(0)

    def quoted(line):
        return re.sub(r"`[^`\n]*`", lambda q: TOKEN.sub(one, q.group(0)), line)

    if path.endswith(".md"):
        return quoted(text)
    lines = text.split("\n")
    return "\n".join(quoted(x) if x.lstrip().startswith(("//", "-- ")) else TOKEN.sub(one, x) for x in lines)


def main(argv):
    names, goals = defined()
    words = set()
    for path in texts(".antt", ".rt"):
        with open(path, encoding="utf-8") as f:
            words |= set(re.findall(r"[A-Za-z_][\w'-]*", f.read()))
    new = {}
    for name in sorted(names):
        new.setdefault(respelt(name), []).append(name)
    for to, olds in sorted(new.items()):
        if len(olds) > 1 or to in words:
            print("look:", to, "was", ", ".join(olds), "and stands already" if to in words else "")
    if "--dry" in argv:
        return 0
    changed = 0
    for path in texts(".antt", ".rt", ".edit", ".md"):
        with open(path, encoding="utf-8") as f:
            text = f.read()
        after = turn(text, names, path)
        if after != text:
            changed += 1
            with open(path, "w", encoding="utf-8") as f:
                f.write(after)
    print(len(names), "names respelt in", changed, "files")
    return 0


if __name__ == "__main__":
    raise SystemExit(main(sys.argv[1:]))
