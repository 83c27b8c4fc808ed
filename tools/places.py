#!/usr/bin/env python3
"""Lists the places in crates/*/src that the design pass looks at, point by point.

    tools/places.py            the counts
    tools/places.py POINT      the places of one point

Run at the top of the repository. The tests' crates are listed with the others.
"""
import re
import sys
from pathlib import Path

FILES = sorted(Path("crates").glob("*/src/**/*.rt"))


def lines():
    for path in FILES:
        for number, line in enumerate(path.read_text().split("\n"), 1):
            yield path, number, line


def matching(pattern):
    test = re.compile(pattern)
    return [(str(p), n, l.strip()) for p, n, l in lines() if test.search(l)]


def functions():
    """Each function: file, line, name, parameters, body."""
    head = re.compile(r"^( *)(?:pub(?:\(crate\))? )?fn (\w+)")
    for path in FILES:
        text = path.read_text().split("\n")
        at = 0
        while at < len(text):
            m = head.match(text[at])
            if m:
                end = at
                while end < len(text) and text[end] != m[1] + "}" and not (
                    text[end].endswith(";") and end > at and text[end].startswith(m[1] + "    ")
                    and "{" not in "".join(text[at:end + 1])):
                    end += 1
                body = "\n".join(text[at:end + 1])
                depth, start, params = 0, body.find("("), ""
                for ch in body[start:]:
                    depth += ch in "(<[" 
                    depth -= ch in ")]" or (ch == ">" and not params.endswith("-"))
                    params += ch
                    if depth == 0:
                        break
                yield str(path), at + 1, m[2], params, body
            at += 1


def sentinels():
    found = matching(r"^\s*//.*\b(or|is) (65|256|1026|how many there are|0 where|0 if)\b")
    found += matching(r"\b(256|65|1026)$")
    found += matching(r"^\s*(line|field): 0,")
    return found


def codes():
    return matching(r"\bfn number\(&self\)") + matching(r"fn \w*stands?\(\) -> u8")


def unpacked():
    found = matching(r"let Ok\((mut )?\w+\) = .*else \{|let Ok\(.*\) = .* else")
    found += matching(r"Err\(_\) => Err\(|Err\((\w+)\) => Err\(\w+\(\1\)\)|Ok\((\w+)\) => Ok\(\2\),")
    found += matching(r"-> Option<Refusal>")
    return found


def counted_out():
    """Functions that write into a lent buffer and return how many they wrote."""
    return [(p, n, name) for p, n, name, params, body in functions()
            if "&mut [" in params and re.search(r"-> (Option<usize>|usize|Result<usize)", body.split("{")[0] + body)
            and re.search(r"\b(len|count|tail|end|total) \+= 1", body)]


def loops():
    return matching(r"^\s*(while|for \w+ in .*\.\.|loop \{)")


def counting_loops():
    """A range or a while whose variable serves to reach a place of a list."""
    found = []
    for path in FILES:
        text = path.read_text().split("\n")
        for at, line in enumerate(text):
            m = re.match(r"^( *)for (\w+) in .*\.\.", line)
            w = re.match(r"^( *)(while|loop)\b", line)
            if not m and not w:
                continue
            ind = (m or w)[1]
            end = at
            while text[end] != ind + "}":
                end += 1
            body = "\n".join(text[at + 1:end])
            if m:
                v = m[2]
                hit = re.search(r"\[[^\]]*\b%s\b[^\]]*\]" % v, body) or re.search(r"neighbour\(\w+, %s\)" % v, body)
                hit = hit or re.search(r"\[(len|count|tail|end|i|total)\b", body)
            else:
                hit = re.search(r"(lowest|highest)\(|\b(k|len|count|tail|at|head|height|rest|low) (\+=|=) ", body)
            if hit:
                found.append((str(path), at + 1, line.strip()))
    return found


def twins():
    names = {}
    for p, n, name, params, body in functions():
        crate = p.split("/")[1]
        if not crate.endswith("checks") and name not in ("new", "size", "holds", "clashes", "degree", "neighbour",
                                                       "bound", "main", "from", "next"):
            names.setdefault(name, []).append((p, n, name))
    return [x for xs in names.values() if len({p.split("/")[1] for p, _, _ in xs}) > 1 for x in xs]


def by_hand():
    found = codes()[:0]
    found += matching(r"fn (number|replied|pair|smaller|far_end|write_number|digits|is_above|copy_front|wipe|clear|"
                      r"clear_heads|fill|all_below|highest|unplaced|misplaced)\b")
    return found


def many_parameters():
    return [(p, n, f"{name}: {params.count(':')} parameters") for p, n, name, params, body in functions()
            if params.count(":") + params.count("&self") + params.count("&mut self") >= 6]


def buffers():
    return matching(r"let mut \w+ = \[[^\]]*; \w+\]") + matching(r"^\s*(pub )?(pub\(crate\) )?\w+: \[\w+; \w+\],")


def switches():
    return matching(r"\bdyn\b|: fn\(|\bif at == 1\b|match self\.standing|match call\b")


POINTS = {
    "1": [("numbers for none", sentinels), ("numbers for kinds", codes), ("results taken apart by hand", unpacked)],
    "2": [("functions of one name in two crates", twins)],
    "3": [("all loops over ranges and whiles", loops), ("of these with a hand-made index", counting_loops)],
    "4": [("conversions, copies and tests by hand", by_hand)],
    "5": [("functions with six parameters or more", many_parameters)],
    "6": [("arrays as buffers", buffers), ("writers that return a length", counted_out)],
    "7": [("switches on a step", switches)],
}

if __name__ == "__main__":
    asked = sys.argv[1:] or list(POINTS)
    for point in asked:
        for title, find in POINTS[point]:
            places = sorted(set(find()))
            print(f"{point}. {title}: {len(places)}")
            if sys.argv[1:]:
                for path, number, text in places:
                    print(f"    {path}:{number}: {text}")
