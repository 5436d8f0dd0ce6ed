#!/usr/bin/env python3
"""Brings the names of the definitions and lemmas of crates/ to one spelling: words in snake case, types and facts in camel case.

usage: tools/respell.py            in the repository: rewrites the files of specs/ and proofs/ and the clauses of src/, once
       tools/respell.py --names    prints each name and its new one, and changes nothing

A name of Rust, a string and a name that Rattle makes stay. Where two names would become one in some file, the lemma gets _lem behind it.
"""

import collections
import os
import re
import sys

NAME = r'[^\s(){}.;,@"«»]+'
TOKEN = re.compile(NAME)
DECLARED = re.compile(r"^\s*(?:(?:pub|abbrev|unfoldable) )*(" + NAME + r")((?: *[({][^(){}]*[)}])*) :\s")
FIELD_OF = re.compile(r"^(?:pub )?(record|data) ")


def snake(name):
    return re.sub(r"(?<=[a-z0-9])[A-Z]", lambda m: "_" + m[0].lower(), name).replace("-", "_")


def texts(root, endings):
    for folder, dirs, files in os.walk(os.path.join(root, "crates")):
        dirs[:] = sorted(d for d in dirs if d != "out")
        for f in sorted(files):
            if f.endswith(endings):
                yield os.path.join(folder, f)


def read(path):
    with open(path, encoding="utf-8") as f:
        return f.read()


# The names that the texts declare, the fields among them, and which names meet in a file.
def declared(root):
    names, fields, meet = set(), set(), []
    for p in texts(root, (".antt",)):
        inside = False
        for line in read(p).split("\n"):
            if line.lstrip().startswith("--") or " tie." in line and p.endswith("/Proof.antt"):
                continue
            if line[:1].strip():
                inside = bool(FIELD_OF.match(line))
            m = DECLARED.match(line)
            if m and m.group(1)[:1].islower():
                names.add(m.group(1))
                if inside and line[:1] == " ":
                    fields.add(m.group(1))
    for p in texts(root, (".antt", ".rt")):
        meet.append(set(TOKEN.findall(read(p))))
    return names, fields, meet


def respelled(names, meet):
    groups = collections.defaultdict(set)
    for n in names:
        groups[snake(n)].add(n)
    new = {}
    for s, group in groups.items():
        files = [t & group for t in meet]
        together = any(len(f) > 1 for f in files)
        # A definition keeps the plain word: first camel case, then what is so spelled already.
        order = sorted(group, key=lambda n: ("-" in n, n == s, n))
        for i, n in enumerate(order):
            to = s + "_lem" if together and i else s
            if to != n:
                new[n] = to
    return new


def turn_antt(text, new, fields):
    def word(m):
        t, before = m[0], text[: m.start()]
        if t not in new:
            return t
        if before.endswith("."):
            owner = re.search(r"(" + NAME + r")\.$", before)
            if t not in fields and not (owner and owner[1][:1].isupper()):
                return t
        line = before.rsplit("\n", 1)[-1]
        if line.lstrip().startswith("--") and not re.search(r"[a-z][A-Z]", t) and not re.fullmatch(r"--   +", line) and not line.endswith("`"):
            return t
        return new[t]

    return TOKEN.sub(word, text)


# In src/ only words that no Rust has: camel case from a small letter on.
def turn_rt(text, new):
    return re.sub(r"(?<![\w\"'])[a-z]\w*(?![\w'])", lambda m: new.get(m[0], m[0]) if re.search(r"[a-z0-9][A-Z]", m[0]) else m[0], text)


def main():
    root = os.getcwd()
    names, fields, meet = declared(root)
    new = respelled(names, meet)
    if "--names" in sys.argv:
        for n in sorted(new):
            print(n, new[n])
        return
    for p in texts(root, (".antt", ".rt")):
        old = read(p)
        now = turn_rt(old, new) if p.endswith(".rt") else turn_antt(old, new, fields)
        if now != old:
            with open(p, "w", encoding="utf-8") as f:
                f.write(now)


main()
