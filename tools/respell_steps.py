#!/usr/bin/env python3
"""Respells, in the proofs of functions, the names that Rattle makes: its own words and the names of the source.

usage: python3 tools/respell_steps.py CRATE..      at the top, behind tools/respell.py

`returns-in-err-take` becomes `returns-in_err-take`, `c.spare-slots.ensures` becomes `c.spare_slots.ensures`. A name that
a file imports, or that a `let` or a binder gives, is left as it is.
"""

import glob
import os
import re
import sys

TOKEN = re.compile(r"(?<![\w'-])[A-Za-z_][\w']*(?:-[\w']+)+(?![\w'-])")
WORDS = [
    r"overflow-(?:add|sub|mul|shl|shr|cast|step)", r"nonzero-(?:div|rem)", r"(?:offset|slice)-bounds", r"invariant-of",
    r"type-inv", r"in-(?:default|ok|err)", r"from-residual", r"call-mut",
]


def sources():
    found = {"from_residual", "copy_from_slice", "as_slice", "get_mut", "trailing_ones"}
    for path in glob.glob("crates/*/src/**/*.rt", recursive=True):
        text = re.sub(r"//[^\n]*", "", open(path, encoding="utf-8").read())
        found |= set(re.findall(r"\b[a-z][a-z0-9]*(?:_[a-z0-9]+)+\b", text))
    return sorted(found, key=len, reverse=True)


def main():
    names = sources()
    word = re.compile(r"(?<![\w'])(" + "|".join(WORDS) + r")(?![\w'])")
    name = re.compile(r"(?<![\w'])(" + "|".join(n.replace("_", "-") for n in names) + r")(?![\w'])")
    for crate in sys.argv[1:]:
        for path in sorted(glob.glob(f"crates/{crate}/proofs/**/*.antt", recursive=True)):
            if os.path.dirname(path) == f"crates/{crate}/proofs":
                continue
            old = open(path, encoding="utf-8").read()
            imported = set()
            for m in re.finditer(r"^(?:pub )?use (?![^\n]*\.(?:Goals|Given)\.\{)[^\n]*?\.\{([^}]*)\}", old, re.M):
                imported |= {w.split(" as ")[-1].strip() for w in m[1].split(",")}
            imported |= set(re.findall(r"\blet ([\w'-]+)", old))

            def turn(m):
                if m[0] in imported:
                    return m[0]
                return name.sub(lambda x: x[0].replace("-", "_"), word.sub(lambda x: x[0].replace("-", "_"), m[0]))

            new = "\n".join(l if l.startswith("--") else TOKEN.sub(turn, l) for l in old.split("\n"))
            if new != old:
                open(path, "w", encoding="utf-8").write(new)
                print(path)


if __name__ == "__main__":
    main()
