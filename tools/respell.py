#!/usr/bin/env python3
"""Brings the names of definitions and lemmas to one spelling: words in snake case, types and modules in camel case.

usage: tools/respell.py [--list]      at the top of the repository, once, right behind port.py

The names are those that files of specs/ and proofs/ declare, but not the walks of single functions, proofs/F/Proof.antt.
'frameFrom' becomes 'frame_from', 'stored-room' becomes 'stored_room'. A name that would then meet another in some file gets '_lem'.
Turned are specs/, proofs/, the clauses and ghost items of src/, must-fail edits, pairs' patches and the code spans of pages. The code, strings, inputs and
outputs stay. A line 'look:' names a file in which a new name stood already. --list writes nothing and prints the table.
"""

import collections
import glob
import os
import re
import sys

WORD = re.compile(r'[^\s(){}.;,@"«»`|]+')
DECLARED = re.compile(r'^( *)(?:(?:abbrev|unfoldable|pub|mutual|opaque|private|record|data|ruleset) )*([^\s(){}.;,@"«»]+)(?: [({].*[)}])* (?:: |:$|where$)')
WALK = re.compile(r"/proofs/.+/[^/]*\.antt$")


def read(path):
    with open(path, encoding="utf-8") as f:
        return f.read()


def files(*patterns):
    return sorted({p for q in patterns for p in glob.glob(q, recursive=True) if os.path.isfile(p) and "/out/" not in p})


def snake(name):
    return re.sub(r"(?<=[a-z0-9])[A-Z]", lambda m: "_" + m[0].lower(), name).replace("-", "_")


def table():
    """The old names with the new, and all names."""
    places = collections.defaultdict(set)
    for path in files("crates/*/specs/**/*.antt", "crates/*/proofs/**/*.antt"):
        if WALK.search(path):
            continue
        for line in read(path).split("\n"):
            found = DECLARED.match(line)
            if found and not line.lstrip().startswith("--"):
                places[found[2]].add("specs" if "/specs/" in path else "proofs")
    together = collections.defaultdict(set)
    for path in files("crates/*/specs/**/*.antt", "crates/*/proofs/**/*.antt", "crates/*/src/**/*.rt"):
        for word in set(WORD.findall(read(path))):
            together[word].add(path)
    turned = {}
    names = [n for n in places if n[0].islower() and snake(n) != n]
    for name in sorted(names, key=lambda n: ("specs" not in places[n], n)):
        new = snake(name)
        holders = {n for n, t in turned.items() if t == new} | ({new} if new in places else set())
        if any(together[name] & together[h] for h in holders):
            new += "_lem"
        turned[name] = new
    return turned, set(turned.values()) | set(places)


def words(text, turned, skip_dotted=False, names=()):
    """The text with its words turned; those too that port.py turned elsewhere, where names are given."""

    def one(m):
        if skip_dotted and m.start() and text[m.start() - 1] == ".":
            return m[0]
        if m[0] not in turned and snake(m[0]) in names and m[0][0].islower():
            return snake(m[0])
        return turned.get(m[0], m[0])

    return WORD.sub(one, text)


def antt(text, turned, walk):
    """An antt text but for its strings."""
    parts = re.split(r'("(?:[^"\\\n]|\\.)*")', text)
    return "".join(p if i % 2 else words(p, turned, walk) for i, p in enumerate(parts))


def code(text, turned, names=()):
    """A Rattle text but for its strings: no name of the code has a capital behind a small letter or a dash."""
    parts = re.split(r'(b?"(?:[^"\\]|\\.)*")', text)
    return "".join(p if i % 2 else words(p, turned, names=names) for i, p in enumerate(parts))


def spans(text, turned, names):
    """The code spans of a page."""
    return re.sub(r"`[^`\n]+`", lambda m: words(m[0], turned, names=names), text)


def already(text, new):
    return re.search(r"(?<![\w'.-])" + re.escape(new) + r"(?![\w'-])", text)


def main():
    turned, names = table()
    if "--list" in sys.argv[1:]:
        for old in sorted(turned):
            print(old + "\t" + turned[old])
        return
    for path in files("crates/*/specs/**/*.antt", "crates/*/proofs/**/*.antt", "crates/*/src/**/*.rt", "crates/*/must-fail/*", "pairs/*.patch", "README.md", "docs/*.md", "examples/*.md", "oracle/*.md"):
        text = read(path)
        if path.endswith(".antt"):
            new = antt(text, turned, bool(WALK.search(path)))
        elif path.endswith(".md"):
            new = spans(text, turned, names)
        else:
            new = code(text, turned, () if path.endswith(".rt") else names)
        if new != text:
            if not path.endswith((".md", ".edit", ".patch")):
                bare = re.sub(r"(?:--|//)[^\n]*", "", text)
                for old in {w for w in WORD.findall(bare) if w in turned}:
                    met = already(bare, turned[old])
                    if met and not (path.endswith(".rt") and re.search(r"\bfn " + re.escape(turned[old]) + r"\b", bare) ):
                        print(f"look: {path}: '{old}' is '{turned[old]}' now, and that stood there")
            with open(path, "w", encoding="utf-8") as f:
                f.write(new)


main()
