#!/usr/bin/env python3
"""Respells the names that the repository's own specs/ and proofs/ declare, as Rattle spells names today.

usage: python3 tools/respell.py [--list]      at the top of the repository, once, right after port.py

It was run once, and docs/PORT.md says on what; it is kept so that this step can be done again on the text from before.
Don't run it on today's text: the two names of APART are those of ghost fields now.

Types, and definitions whose values are types, become UpperCamelCase. Every other definition, field,
constructor and lemma becomes snake_case; in a lemma's name a dash stays where it joins two names, as
in has-those (not for lemmas that stand indented, below a module line). It goes by words: each word of
an .antt file, and of the ghost lines of an .rt file, that is such a name is turned, also where it stands
for something else. It leaves alone the lines of an .rt file that hold no ghost text and no "{ ", and all
other files; it has no notion of strings and comments, and none that stood in its way had such a name.
Names that fall together are told, and nothing stops for them. With --list nothing is written: the names
are printed.
"""

import os
import re
import sys

TOKEN = re.compile(r"[A-Za-z_ρ][\w'ρ]*(?:-[\w'ρ]+)*")
TOP = re.compile(r"^(?:abbrev |unfoldable )?(?:mutual )?(?:pub )?(record |data )?([A-Za-z_][\w'-]*)(?= |$)(.*)$")
INNER = re.compile(r"^ {2,}(?:pub )?([A-Za-z_][\w'-]*) :(?: (.*))?$")
HEAD = re.compile(r"^\s+ghost \w+:")
SKIP = {"use", "pub", "mod", "unfolding", "where", "ghost", "open", "abbrev", "unfoldable", "mutual"}

# names that would fall together with a ghost field or a function's own name in a clause
APART = {"reading-of": "reading_of", "no_node": "missing_node", "no-node": "missing_node", "no-rule": "missing_rule", "no_rule": "missing_rule"}

# std's words that a dash may join to a name
WORDS = {"length", "append", "take", "drop", "le", "lt", "eq", "map", "set", "not", "cond", "true", "false", "push", "joined"}


def files(root, ends):
    for folder, dirs, names in os.walk(root):
        dirs[:] = sorted(d for d in dirs if d not in ("out", "target", ".git"))
        for n in sorted(names):
            if n.endswith(ends):
                yield os.path.join(folder, n)


def snake(name):
    return name.replace("-", "_")


def camel(name):
    return "".join(p[:1].upper() + p[1:] for p in name.split("-"))


def declared(path, lines):
    """The names that a file declares: (name, sort, whether of specs/), with sort fact, definition, field or lemma."""
    spec = "/specs/" in path
    for i, line in enumerate(lines):
        m = INNER.match(line)
        if m:
            yield m.group(1), ("fact" if re.search(r"Type \d$", m.group(2) or "") else "field")
            continue
        m = TOP.match(line)
        if not m or m.group(2) in SKIP:
            continue
        kind, name, rest = m.groups()
        if kind:
            yield name, "fact"
            continue
        if not re.match(r"^ *(\(.*\) )?:( |$)", rest) or " = " in rest.split(":")[0]:
            continue
        if "goal." in rest:
            continue
        if re.search(r"Type \d *$", rest):
            yield name, "fact"
        elif line.startswith(("abbrev", "unfoldable")) or spec:
            yield name, "definition"
        else:
            yield name, "lemma"


def lemma(name, names):
    parts = name.split("-")
    out = parts[0]
    for left, right in zip(parts, parts[1:]):
        out += ("-" if left in names and right in names else "_") + right
    return out


def table(root):
    found = {}
    for p in files(os.path.join(root, "crates"), ".antt"):
        lines = open(p, encoding="utf-8").read().split("\n")
        for name, sort in declared(p, lines):
            found.setdefault(name, set()).add(sort)
    names = WORDS | {n for n, s in found.items() if "definition" in s and "-" not in n}
    turn = {}
    for name in APART:
        turn[name] = APART[name]
    for name, sorts in sorted(found.items()):
        if name in APART:
            turn[name] = APART[name]
        elif "-" not in name:
            continue
        elif "fact" in sorts and name[0].isupper():
            turn[name] = camel(name)
        elif sorts == {"lemma"}:
            turn[name] = lemma(name, names)
        else:
            turn[name] = snake(name)
    return {k: v for k, v in turn.items() if k != v}, found


def main():
    root = "."
    turn, found = table(root)
    for k, v in sorted(turn.items()):
        if k not in APART and (v in found or list(turn.values()).count(v) > 1):
            print(f"falls together: {k} -> {v}", file=sys.stderr)
    if "--list" in sys.argv:
        for k, v in sorted(turn.items()):
            print(f"{k:28} {v:28} {' '.join(sorted(found.get(k, ())))}")
        return
    for p in files(os.path.join(root, "crates"), (".antt", ".rt")):
        text = open(p, encoding="utf-8").read()
        out = []
        for line in text.split("\n"):
            # strings and comments of src/ keep their spelling, and so do the names that Rattle makes
            if p.endswith(".rt") and not re.search(r"ghost|requires|ensures|^\s*#\[", line) and "{ " not in line:
                out.append(line)
                continue
            h = HEAD.match(line)
            head = h.group(0) if h and p.endswith(".rt") else ""
            out.append(head + TOKEN.sub(lambda m: turn.get(m.group(0), m.group(0)), line[len(head):]))
        new = "\n".join(out)
        if new != text:
            open(p, "w", encoding="utf-8").write(new)


main()
