#!/usr/bin/env python3
"""Spells the repository's own definitions and lemmas as today's Rattle does.

usage: respell.py          at the top of the repository: rewrites the files of crates/ and docs/ in place
       respell.py --table  prints each old name beside its new one, and rewrites nothing

A definition, a field or a lemma is spelled in snake case. A dash stays where it joins two names. A lemma that
would fall together with a definition gets `_lem`. Types, modules, functions of src/, exported names and strings
keep their names, and so do the names of a function's goals, which a proof file has after `tie.` and `c.`.
"""

import collections
import glob
import re
import sys

NAME = r"[^\s(){}.;,@\"«»:`\[\]/|]+"
DECLARED = re.compile(r"^(\s*)((?:(?:pub|abbrev|unfoldable|pattern|axiom)\s+)*)(" + NAME + r")(?:\s*\{[^{}\n]*\})*\s+:(?!=)", re.M)
MODULE = re.compile(r"^\s*(?:pub\s+)?mod\s+(\S+)", re.M)
# Words that stand for operators and for functions of the library.
OPERATORS = set("add sub mul div mod pow neg le lt eq length set take drop append replicate sum at cost floor limited".split())
# What a walk of the code calls its own parts.
OF_A_WALK = re.compile(r"/proofs/.*/Proof\.antt$")


def snake(word):
    word = word.replace("′", "'")
    word = re.sub(r"(?<=[a-z0-9])ℕ", "_ℕ", word)
    return re.sub(r"(?<=[a-z0-9])[A-Z](?=[a-z]|$|[-_'→])", lambda m: "_" + m[0].lower(), word)


def read(path):
    with open(path, encoding="utf-8", newline="") as it:
        return it.read()


def files(*patterns):
    return sorted(f for p in patterns for f in glob.glob(p, recursive=True) if "/out/" not in f)


def is_type(name):
    return name[:1].isupper()


def names():
    """Every name that the files of specs/ and of lemmas declare: in which files, and whether as a definition."""
    at = collections.defaultdict(set)
    for f in files("crates/*/specs/**/*.antt", "crates/*/proofs/**/*.antt"):
        if not OF_A_WALK.search(f):
            for m in DECLARED.finditer(read(f)):
                at[m[3]].add(f)
    return at


def table():
    at = names()
    defined = {snake(n) for n, fs in at.items() if any("/specs/" in f for f in fs)}
    joined = defined | OPERATORS
    out = {}

    def spelled(name):
        parts = name.split("-")
        new = snake(parts[0])
        for before, part in zip(parts, parts[1:]):
            both = snake(before) in joined and snake(part) in joined
            head = is_type(before) and before == parts[0]
            new += ("-" if both or head else "_") + snake(part)
        return new

    for name in at:
        if not re.match(r"[A-Za-z]", name) or name in ("go",):
            continue
        new = name if is_type(name) and "-" not in name else spelled(name)
        if new != name:
            out[name] = new
    # Two lemmas of `words` would meet functions of the library.
    for name in ("bit-or", "bit-and"):
        if name in out:
            out[name] += "_lem"
    # What falls together: the definition keeps the name.
    taken = collections.defaultdict(set)
    for name in at:
        taken[out.get(name, name)].add(name)
    for new, olds in taken.items():
        if len(olds) > 1:
            of_specs = [n for n in olds if any("/specs/" in f for f in at[n])]
            keeps = (of_specs or [n for n in olds if n == new] or sorted(olds, key=lambda n: ("-" in n, n)))[0]
            for n in olds:
                if n != keeps and n in out:
                    out[n] = new + "_lem"
    return out, at


def respell(text, new, fields, walk):
    token = re.compile(r"\"(?:[^\"\\\n]|\\.)*\"|«[^»\n]*»|(?:" + NAME + r")(?:\.(?:" + NAME + r"))*|\.(?:" + NAME + r")(?:\.(?:" + NAME + r"))*")

    def put(m):
        t = m[0]
        if t[0] in "\"«":
            return t
        parts = t.split(".")
        rooted = parts[0] in ("Rattle",)
        for i, p in enumerate(parts):
            if p not in new:
                continue
            if i == 0 and not (t.startswith(".")):
                parts[i] = new[p]
            elif rooted or p in fields:
                parts[i] = new[p]
            elif i == len(parts) - 1 and parts[0][:1].islower() and parts[0] in aliases:
                parts[i] = new[p]
        return ".".join(parts)

    aliases = set(re.findall(r"\bas (\w+)", text))
    lines = []
    for line in text.split("\n"):
        lines.append(token.sub(put, line))
    return "\n".join(lines)


def main():
    new, at = table()
    if "--table" in sys.argv:
        for n in sorted(new):
            print(n, new[n])
        return
    # A field is a name inside a record of specs/ or proofs/.
    fields = set()
    for f in files("crates/*/specs/**/*.antt", "crates/*/proofs/**/*.antt"):
        if not OF_A_WALK.search(f):
            inside = False
            for line in read(f).split("\n"):
                if re.match(r"\s*(?:pub\s+)?(?:record|data)\b.*where", line):
                    inside = True
                elif line and not line.startswith(" "):
                    inside = False
                elif inside:
                    m = DECLARED.match(line)
                    if m:
                        fields.add(m[3])
    for f in files("crates/*/specs/**/*.antt", "crates/*/proofs/**/*.antt", "crates/*/src/**/*.rt", "crates/*/must-fail/*.edit"):
        text = read(f)
        out = respell(text, new, fields, OF_A_WALK.search(f))
        if out != text:
            with open(f, "w", encoding="utf-8", newline="") as it:
                it.write(out)
    quoted = re.compile(r"`[^`\n]+`")
    for f in files("README.md", "docs/*.md"):
        text = read(f)
        out = quoted.sub(lambda m: respell(m[0], new, fields, False), text)
        if out != text:
            with open(f, "w", encoding="utf-8", newline="") as it:
                it.write(out)


if __name__ == "__main__":
    main()
