#!/usr/bin/env python3
"""respell: brings the definitions and lemmas of specs/ and proofs/ to the spelling of today's Rattle.

usage: python3 tools/respell.py          at the top of the repository, after the kit's port.py: rewrites files in place
       python3 tools/respell.py --list   prints the renaming, and changes nothing

Functions, lemmas, fields and constructors go to snake case. A dash stays where it joins two names that are defined,
and a plain word is added with an underscore. Names of src/, strings, inputs and outputs stay. A new name that
another one already has, in the same crate or in one that it is used from, gets the ending _lem."""
import collections
import glob
import re
import sys

HEAD = re.compile(r"^[ ]*(?:(?:unfoldable|abbrev|pub) )*(?:(ruleset|data|record) )?([^\s(){}\[\].,;:\"`|]+)(?: [^\n:=]*| \([^\n]*| \{[^\n]*)?(?: :(?= |$)| =)", re.M)
TOKEN = re.compile(r"[^\s(){}\[\].,;:\"`⌜⌝@\\|]+")
WORDS = {"where", "let", "in", "elim", "use", "module", "open", "mod", "pub", "if", "then", "else", "unfolding", "record", "data", "--"}
# words of std that stand for an older one inside a name of the repository
OLDER = {"getD": "get_or", "natAbs": "nat_abs", "ofInt": "of_int", "ltZ": "lt_z", "isSome": "is_some"}


def antt():
    return sorted(glob.glob("crates/*/specs/**/*.antt", recursive=True) + glob.glob("crates/*/proofs/**/*.antt", recursive=True))


def shared(path):
    """Whether a file's names are the repository's own, and not those that the check asks a function's proof for."""
    return "/specs/" in path or path.count("/") == 3


def declared():
    """Each name that a shared .antt file of the repository declares, with the files that do."""
    names = collections.defaultdict(set)
    for path in filter(shared, antt()):
        with open(path) as f:
            text = re.sub(r"--.*", "", f.read())
        for kind, name in HEAD.findall(text):
            if name not in WORDS and not name.startswith("◌") and "◌" not in name:
                names[name].add(path)
    return names


def camel(part):
    part = OLDER.get(part, part)
    if part[:1].isupper():
        return part
    return re.sub(r"(?<=[a-z0-9])([A-Z]+)(?=$|[a-z0-9_'→])", lambda m: "_" + m.group(1).lower(), part)


def spelled(name, known):
    """The name in today's spelling."""
    if not re.search(r"[A-Za-z]", name) or name.startswith("-") or name.endswith("-"):
        return name
    parts = name.split("-")
    out = camel(parts[0])
    for before, after in zip(parts, parts[1:]):
        joins = before in known and after in known or not after[:1].isalpha() or not before[-1:].isalnum() or after[:1].isupper()
        out += ("-" if joins else "_") + camel(after)
    return out


def renaming():
    names = declared()
    plain = {n for n in names if "-" not in n}
    std = {"length", "take", "drop", "set", "sets", "append", "map", "replicate", "reverse", "cond", "min", "max", "sum", "suc", "zero", "mul", "add", "sub", "mod", "div", "get_or", "getD"}
    new, taken = {}, collections.defaultdict(set)
    for n in names:
        if spelled(n, plain | std) == n:
            taken[n] = {n}
    for n in sorted(names, key=lambda n: ("-" in n, n)):
        s = spelled(n, plain | std)
        if s == n:
            continue
        while taken[s] - {n}:
            s += "_lem"
        taken[s].add(n)
        new[n] = s
    return new


def turn(text, new):
    return TOKEN.sub(lambda m: new.get(m.group(0), m.group(0)), text)


def ticked(text, new):
    """A comment or a page: only what stands between back quotes."""
    return re.sub(r"`[^`\n]+`", lambda m: turn(m.group(0)[1:-1], new).join("``"), text)


def code(line, new, comment):
    """A line of code: its text outside strings, and what its comment quotes."""
    at = line.find(comment)
    head, tail = (line, "") if at < 0 else (line[:at], line[at:])
    parts = re.split(r'("(?:[^"\\]|\\.)*")', head)
    return "".join(p if k % 2 else turn(p, new) for k, p in enumerate(parts)) + ticked(tail, new)


def main():
    new = renaming()
    if sys.argv[1:] == ["--list"]:
        for old in sorted(new):
            print(old, new[old])
        return
    for path in antt() + sorted(glob.glob("crates/*/src/*.rt") + glob.glob("crates/*/must-fail/*.edit")):
        with open(path) as f:
            text = f.read()
        if path.endswith(".edit"):
            turned = "".join(
                ticked(line, new) if line.startswith("#") else code(line, new, "//") for line in text.splitlines(keepends=True)
            )
        else:
            mark = "--" if path.endswith(".antt") else "//"
            turned = "".join(code(line, new, mark) for line in text.splitlines(keepends=True))
        if turned != text:
            with open(path, "w") as f:
                f.write(turned)
    for path in ["README.md"] + sorted(glob.glob("docs/*.md")):
        with open(path) as f:
            text = f.read()
        turned = ticked(text, new)
        if turned != text:
            with open(path, "w") as f:
                f.write(turned)


main()
