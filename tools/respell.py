#!/usr/bin/env python3
"""Brings the repository's own definitions and lemmas to today's spelling: words in snake case, types in camel case.

usage: tools/respell.py        at the top of the repository, once, after the kit's port.py

A name that begins with a small letter and has capitals inside, as `stopCount` or `stopCount-pow`, becomes `stop_count`, `stop_count-pow`;
`getD`, which the library calls `get_or`, becomes that. The proof of a function f is called `f_spec`. Names of types, functions of src/,
strings, inputs and outputs stay. Two local names that would fall together with a definition get others.
"""
import os
import re
import sys

WORD = r"[\w'◌≢≤<≡∷∙→ℕℤ*^+-]"
TOKEN = re.compile(WORD + "+")
# what falls together with a definition of the new spelling, by file
LOCAL = {
    "crates/groups/proofs/Start.antt": {"in_group": "within_group"},
    "crates/group_sums/proofs/Block.antt": {"in_place": "stop_in_place"},
}
# what port.py respelled as if `getD` were three words
OTHER = {"get_d_any": "get_or-any", "get_d_rows": "get_or-rows", "get_d_tabulate": "get_or-tabulate"}


def is_own(token):
    return "/" not in token and any(s and s[0].islower() and re.search(r"[a-z0-9][A-Z]", s) for s in token.split("-"))


def respelled(token):
    parts = []
    for s in token.split("-"):
        if s and s[0].islower():
            s = s.replace("getD", "get_or")
            s = re.sub(r"([a-z0-9])([A-Z])", lambda m: m.group(1) + "_" + m.group(2).lower(), s)
        parts.append(s)
    return "-".join(parts)


def files(ends):
    for folder, dirs, names in os.walk("crates"):
        dirs[:] = sorted(d for d in dirs if d != "out")
        for f in sorted(names):
            if f.endswith(ends):
                yield os.path.join(folder, f)


def rewrite(path, turn):
    with open(path, encoding="utf-8") as f:
        before = f.read()
    after = TOKEN.sub(lambda m: turn(m.group(0)), before)
    if after != before:
        with open(path, "w", encoding="utf-8") as f:
            f.write(after)


def main():
    names = {}
    for path in files((".antt", ".rt")):
        with open(path, encoding="utf-8") as f:
            for token in TOKEN.findall(f.read()):
                if is_own(token):
                    names[token] = respelled(token)
    names.update(OTHER)
    for path in files((".antt", ".rt", ".edit")):
        local = dict(LOCAL.get(path, {}))
        if path.endswith("/Proof.antt"):
            function = os.path.basename(os.path.dirname(path)).lstrip("+")
            local[function.replace("_", "-") + "-spec"] = function + "_spec"
            local[function + "-spec"] = function + "_spec"
            local["+" + function.replace("_", "-") + "-spec"] = "+" + function + "_spec"
            local["+" + function + "-spec"] = "+" + function + "_spec"
        rewrite(path, lambda t: local.get(t) or names.get(t, t))
    pages = ["README.md"] + [os.path.join(d, f) for d, _, fs in os.walk("docs") for f in fs if f.endswith(".md") and f != "PORT.md"]
    for path in pages:
        rewrite(path, lambda t: respelled(t) if is_own(t) else names.get(t, t))
    print(f"{len(names)} names", file=sys.stderr)


if __name__ == "__main__":
    main()
