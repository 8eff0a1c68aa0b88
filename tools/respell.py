#!/usr/bin/env python3
"""Brings the names of definitions, lemmas, constructors and fields to today's spelling, once, after the kit's port.py: run it at the top of the repository.

Words are in snake case; a dash joins the parts of a lemma's name alone; a prime is an apostrophe; no name has a middle dot. Names of the code, of modules and of types
stay. With --list it prints the pairs of names and writes nothing. Where a file has a new name already, beside the old one, that is told on standard error: it is
to be looked at by eye.
"""

import pathlib
import re
import sys

TOP = pathlib.Path("crates")
FILES = sorted(p for p in TOP.rglob("*") if p.suffix in (".antt", ".rt") and "out" not in p.parts)
WORD = re.compile(r"[^\W\d][\w'′₀-₉-]*")
MARKS = r"(?:(?:pub|abbrev|unfoldable|pattern)\s+)*"
CAMEL = re.compile(r"(?<=[a-z0-9])([A-Z]+)")

# Names that would fall together with another: the lemma, or the one that is used less, takes these.
TOLD = {
    "getD-mem": "get_or-mem",
}
# The same, in one file alone.
TOLD_IN = {
    "crates/month/proofs/Least.antt": {"new_in": "new_in-above"},
    "crates/pack/proofs/Sorted.antt": {"in_order": "in_order-rising", "walk_from": "walk_from-flatten"},
    "crates/route/proofs/Assembled.antt": {"own_bits": "own_bits-of"},
}


def declared():
    """Each declared name and the kinds that it has: definition, lemma, constructor or field, alias."""
    names = {}
    for path in FILES:
        text = path.read_text()
        for alias in re.findall(r"\bas ([^\W\d][\w'′-]*)", text):
            names.setdefault(alias, set()).add("alias")
        if path.suffix != ".antt":
            continue
        within = None
        for line in text.split("\n"):
            if line and not line[0].isspace():
                top = re.match(r"(?:pub )?(data|record) ", line)
                within = top and top[1]
                found = re.match(MARKS + r"([^\s(){}:;,.]+)(?:\s*\{[^}]*\})?\s*:\s", line)
                if found and not top:
                    kind = "definition" if "specs" in path.parts else "lemma"
                    names.setdefault(found[1], set()).add(kind)
            elif found := re.match(r"\s+(?:abbrev |unfoldable )+(?:pub )?([^\s(){}:;,.]+)(?:\s*\{[^}]*\})?\s*:\s", line):
                names.setdefault(found[1], set()).add("definition")
            elif found := re.match(r"\s+(?:pub )?([^\s(){}:;,.]+)\s*:\s", line):
                names.setdefault(found[1], set()).add("member" if within else "local")
    return names


def respelled(name, kinds):
    if name in TOLD:
        return TOLD[name]
    parts = name.replace("′", "'").split("-")
    parts = [part if part[:1].isupper() else CAMEL.sub(lambda m: "_" + m[1].lower(), part) for part in parts]
    return ("_" if kinds & {"definition", "member"} else "-").join(parts)


def turned(text, pairs):
    return WORD.sub(lambda m: pairs.get(m[0], m[0]), text)


def outside_strings(text, pairs):
    """The text with names turned, but for what stands in quotes."""
    return "".join(part if part.startswith('"') else turned(part, pairs) for part in re.split(r'("(?:\\.|[^"\\\n])*")', text))


def main(words):
    names = declared()
    # Of names that begin with a capital only those of constants, which have dashes: the others are types.
    names = {name: kinds for name, kinds in names.items() if not name[0].isupper() or "-" in name and name.isupper()}
    pairs = {name: respelled(name, kinds) for name, kinds in names.items() if respelled(name, kinds) != name}
    together = []
    done = {}
    for path in FILES:
        text = path.read_text()
        text = re.sub(r"\b(\w+) as \w+·\1\b", r"\1", text)
        text = re.sub(r"\b(?:Listing|Tree)·(\w+)", r"\1", text)
        text = text.replace("Option·elim", "Option-elim")
        text = turned(text, TOLD_IN.get(str(path), {}))
        there = set(WORD.findall(text))
        if path.suffix == ".antt":
            together += [f"{path}: {old} and {new}" for old, new in pairs.items() if old in there and new in there]
        done[path] = outside_strings(text, pairs) if path.suffix == ".rt" else turned(text, pairs)
    if words == ["--list"]:
        for old, new in sorted(pairs.items()):
            print(old, new)
        print("\n".join(together), file=sys.stderr)
        return
    for line in together:
        print("falls together:", line, file=sys.stderr)
    for path, text in done.items():
        path.write_text(text)


main(sys.argv[1:])
