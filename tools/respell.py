#!/usr/bin/env python3
"""Respells the repository's own definitions and lemmas as the kit's style page asks.

usage: python3 tools/respell.py [--list]      at the top, once, right after the kit's own script for an older repository

A dash within a name of ours becomes an underscore where the name begins with a small letter, and falls away, with a
capital behind it, where it begins with a capital. A dash stays where it joins the names of two functions, as in
`length-row`. Names of src/ and those that Rattle makes for its goals and steps keep their spelling. A new name that
stands for something else already is listed, and nothing is written.
"""

import os
import re
import sys

TOKEN = r"[A-Za-z_][\w']*(?:-[\w']+)*"
EDGE_BEFORE, EDGE_AFTER = r"(?<![\w'-])", r"(?![\w'-])"
DECLARED = re.compile(r"^\s*(?:(?:pub|abbrev|unfoldable)\s+)*(?:(?:record|data)\s+)?(" + TOKEN + r")(?:\s+[({].*)?\s*:\s(.*)$")
RECORD = re.compile(r"^\s*(?:pub\s+)?(?:record|data)\s+(" + TOKEN + r")")
GOAL = re.compile(r"^(?:\w+\.)?(?:goal|need|choice|given)\.")
# a dash that joins the names of two functions stays
JOINED = {
    "getD-row": "get_or-row",
    "length-row": "length-row",
    "row-drop": "row-drop",
    "row-append": "row-append",
    "length-drop": "length-drop",
    "drop-row": "drop-row",
    "take-row": "take-row",
    "drop-drop": "drop-drop",
    "count-row": "count-row",
}
# names that have no dash, and are no Rust identifiers in snake case
PLAIN = {
    "flashOf": "flash_of",
    "labelFlaw": "label_flaw",
    "ruleFlaw": "rule_flaw",
    "writtenIn": "written_in",
}


def files():
    for folder, dirs, names in os.walk("crates"):
        dirs[:] = sorted(d for d in dirs if d not in ("out", "must-fail", "data"))
        for name in sorted(names):
            if name.endswith((".rt", ".antt")):
                yield os.path.join(folder, name)


def respelled(name):
    if name in JOINED:
        return JOINED[name]
    parts = name.split("-")
    if name[0].isupper():
        return parts[0] + "".join(p[0].upper() + p[1:] for p in parts[1:])
    return "_".join(parts)


def own_names():
    found = {}
    for path in files():
        if not path.endswith(".antt"):
            continue
        for line in open(path, encoding="utf-8"):
            m = DECLARED.match(line)
            if m and GOAL.match(m[2].strip()):
                continue
            m = m or RECORD.match(line)
            if m and "-" in m[1]:
                found.setdefault(m[1], path)
    return found


def code(line, path):
    """The part of a line that is no comment, and the rest."""
    at = line.find("//" if path.endswith(".rt") else "-- ")
    return (line, "") if at < 0 else (line[:at], line[at:])


def main():
    names = {n: respelled(n) for n in own_names()}
    names.update(PLAIN)
    names.update({o: n for o, n in JOINED.items() if o != n})
    names = {o: n for o, n in names.items() if o != n}
    seen = {}
    for path in files():
        for line in open(path, encoding="utf-8"):
            for t in re.findall(EDGE_BEFORE + "(" + TOKEN + ")" + EDGE_AFTER, code(line, path)[0]):
                seen.setdefault(t, path)
    fall = [f"{o} -> {n}: {n} stands in {seen[n]}" for o, n in sorted(names.items()) if n in seen]
    if "--list" in sys.argv:
        print("\n".join(f"{o} {n}" for o, n in sorted(names.items())))
    if fall:
        print("these fall together with another name; look at each:")
        print("\n".join(fall))
        if "--anyway" not in sys.argv:
            return 1
    pattern = re.compile(EDGE_BEFORE + "(" + "|".join(re.escape(o) for o in sorted(names, key=len, reverse=True)) + ")" + EDGE_AFTER)
    changed = 0
    for path in files():
        old = open(path, encoding="utf-8").read()
        lines = []
        for line in old.splitlines(keepends=True):
            text, comment = code(line, path)
            lines.append(pattern.sub(lambda m: names[m[1]], text) + comment)
        new = "".join(lines)
        if new != old and "--list" not in sys.argv:
            open(path, "w", encoding="utf-8").write(new)
            changed += 1
    print(f"{len(names)} names, {changed} files")
    return 0


if __name__ == "__main__":
    raise SystemExit(main())
