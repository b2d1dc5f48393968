#!/usr/bin/env python3
"""Spells the repository's own definitions, lemmas and record fields as today's Rattle does: in snake case, with no dash.

usage: tools/respell.py            at the top of the repository, after the kit's port.py and before any edit by hand

Own names are those that a file of specs/ or a file of lemmas in proofs/ declares, or that a `use` gives by `as`. `a-b` becomes `a_b`, and `getD`, which the library now calls `get_or`,
goes along. The names of the library, of the functions of src/, of what Rattle makes (goals, steps, types) and of files stay. It stops where two names would fall together.
It turns .antt files, .rt files (but for strings), must-fail edits, and code spans of comments and of the pages that are no landing notes."""

import collections
import glob
import re
import sys

WORD = r"[^\s(){}.;,@\"«»`]+"
DECLARED = re.compile(r"^\s*(?:(?:pub|abbrev|unfoldable|open)\s+)*(" + WORD + r")(?:\s+\{[^{}\n]*\}|\s+\([^()\n]*\))*\s*:(?=\s|$)", re.M)
USE = re.compile(r"use ([^\s;{]+?)\.?\{([^}]*)\}")
# Names of the library that stood under another name, as `old as name`.
ALIASES = {"List·getD-append": "get_or-append", "List·getD-eq-default": "get_or-eq_default", "List·getD-map": "get_or-map"}


def read(path):
    with open(path, encoding="utf-8", newline="") as file:
        return file.read()


def antt_files():
    return sorted(glob.glob("crates/*/specs/**/*.antt", recursive=True) + glob.glob("crates/*/proofs/**/*.antt", recursive=True))


def is_of_function(path):
    return path.endswith("/Proof.antt")


def is_library(module):
    return not re.match(r"Rattle\.(?!std\b)", module) and not module.startswith("crate")


def spelled(name):
    return name.replace("getD", "get_or").replace("-", "_")


def imports(text):
    """The names that a file has from the library, and those that it names by `as`."""
    library, named = set(), set()
    for m in USE.finditer(text):
        for item in m[2].split(","):
            parts = item.split(" as ")
            if is_library(m[1]) and parts[0].strip():
                library.add(parts[-1].strip())
            if len(parts) > 1:
                named.add(parts[1].strip())
    return library, named


def own_names():
    own = set()
    for path in antt_files():
        text = read(path)
        library, named = imports(text)
        if not is_of_function(path):
            own |= set(DECLARED.findall(re.sub(r"--[^\n]*", "", text)))
        own |= named
    for path in glob.glob("crates/*/src/**/*.rt", recursive=True):
        own |= imports(read(path))[1]
    return {n: spelled(n) for n in own if n not in ALIASES and re.search(r"[A-Za-z]", n) and n[0] != "#" and spelled(n) != n}


def main():
    turned = own_names()
    by_new = collections.defaultdict(set)
    for old, new in turned.items():
        by_new[new].add(old)
    clashes = [sorted(olds) for olds in by_new.values() if len(olds) > 1]
    if clashes:
        print("names fall together:", clashes)
        return 1

    def one(text, stays=frozenset()):
        def new_name(m):
            name = m[0]
            if name in ALIASES:
                return ALIASES[name]
            return turned[name] if name in turned and name not in stays else name

        return re.sub(WORD, new_name, text)

    def spans(text):
        return re.sub(r"`[^`\n]*`", lambda m: one(m[0]), text)

    def code(text, comment, stays):
        out = []
        for line in text.split("\n"):
            parts = re.split(r'("(?:[^"\\]|\\.)*")', line) if comment == "//" else [line]
            made, said = "", False
            for part in parts:
                if said or part.startswith('"'):
                    made += spans(part) if said else part
                    continue
                at = part.find(comment)
                while at > 0 and part[at - 1] not in " \t":
                    at = part.find(comment, at + 1)
                if at < 0:
                    made += one(part, stays)
                else:
                    made += one(part[:at], stays) + spans(part[at:])
                    said = True
            out.append(made)
        return "\n".join(out)

    changed = 0
    pages = [p for p in glob.glob("**/*.md", recursive=True) if not p.startswith(("docs/landings/", "oracle/target", "oracle/vendor"))]
    sources = glob.glob("crates/*/src/**/*.rt", recursive=True)
    edits = glob.glob("crates/*/must-fail/*.edit")
    for path in antt_files() + sources + edits + pages:
        text = read(path)
        if path.endswith(".md"):
            new = spans(text)
        else:
            library, _ = imports(text)
            new = code(text, "//" if path.endswith(".rt") else "--", library & set(turned))
        new = re.sub(r"(?<![^\s{,])(" + WORD + r") as \1(?![^\s,}])", r"\1", new)
        if new != text:
            changed += 1
            with open(path, "w", encoding="utf-8", newline="") as file:
                file.write(new)
    print(f"{len(turned)} names, {changed} files")
    return 0


if __name__ == "__main__":
    sys.exit(main())
