#!/usr/bin/env python3
"""Lists the definitions and lemmas of crates/ that nothing names: python3 compare/unused.py

A name is in use where a file of crates/ that has it, its own or by a `use` line, names it outside its own declaration, where an attribute of a function or a
set of rules names it, or where a document names it in backquotes. In the proof of a function the statements that the prover asks for (`goal.`) are in use. Exits 1 where it lists anything.
"""

import re
import sys
from collections import defaultdict
from pathlib import Path

TOP = Path(__file__).resolve().parent.parent
WORD = re.compile(r"[^\s(){}\[\],;.:]+")
KIND = re.compile(r" *(?:(?:pub|unfoldable|abbrev|opaque|data|record) )*")
USE = re.compile(r"(?:ghost |pub )*use Rattle\.(\w+)\.(specs|proofs)\.(\S+?)\.\{(.*)\};?$")
ALIAS = re.compile(r"(?:ghost |pub )*use Rattle\.(\w+)\.(specs|proofs)\.(\S+) as (\S+?);?$")
# A definition or lemma that an attribute names: `crate::proofs::Numbers::another`.
CITED = re.compile(r"(\w+)::(specs|proofs)::([\w:]+)::(\w+)")
RULES = re.compile(r" *(?:pub )?ruleset ")
# The files of a function's proof: what they declare of `goal` is asked by the prover.
PROOFS = ("Answers.antt", "Invariants.antt")


def words(line):
    return WORD.findall(line.split("-- ")[0])


def declares(line):
    """The name that a line declares: one with a colon behind it and its parameters, outside all brackets."""
    name, _, rest = line[KIND.match(line).end() :].partition(" ")
    depth = 0
    for sign in rest:
        if sign == ":" and depth == 0:
            return name
        if sign == "=" and depth == 0:
            return ""
        depth += (sign in "({") - (sign in ")}")
    return ""


def parts(text):
    """The declarations of a file, each with the words of its lines. What a `module _` holds is indented under it and counts like the rest."""
    level, found = 0, [("", [])]
    for line in text.splitlines():
        if not line.strip() or line.lstrip().startswith("--") or line.startswith(("use ", "pub use ", "ghost use ", "pub mod ")):
            continue
        indent = len(line) - len(line.lstrip())
        level = min(level, indent)
        if line.lstrip().startswith("module _"):
            level = indent + 2
            found.append(("", []))
        elif RULES.match(line):
            found.append(("", []))
        elif indent == level and (name := declares(line)) and name != found[-1][0]:
            found.append((name, []))
        found[-1][1].extend(words(line))
    return found


def main():
    declared, named = [], defaultdict(set)
    kinds = ("specs/**/*.antt", "proofs/**/*.antt", "src/**/*.rt")
    for path in sorted(path for kind in kinds for path in (TOP / "crates").glob(f"*/{kind}")):
        crate, area, *rest = path.relative_to(TOP / "crates").parts
        module = ".".join(rest).removesuffix(".antt")
        text = path.read_text(encoding="utf-8")
        items = parts(text)
        said = {word for _, body in items for word in body}
        for line in text.splitlines():
            if use := USE.match(line):
                for name in use[4].split(", "):
                    real, _, alias = name.partition(" as ")
                    if (alias or real) in said or line.startswith("pub "):
                        named[use[1], use[2], use[3]].add(real)
            elif alias := ALIAS.match(line):
                for name in set(re.findall(rf"(?<![\w·-]){re.escape(alias[4])}\.([^\s(){{}}\[\],;.:]+)", text)):
                    named[alias[1], alias[2], alias[3]].add(name)
        if path.suffix != ".antt":
            for of, kind, where, name in CITED.findall(text):
                named[crate if of == "crate" else of, kind, where.replace("::", ".")].add(name)
            continue
        here = named[crate, area, module]
        counts = defaultdict(int)
        for name, body in items:
            for word in set(body):
                counts[word] += word != name
        for name, body in items:
            asked = path.name in PROOFS and "goal" in body
            if counts[name] or asked:
                here.add(name)
            if name:
                declared.append((path, (crate, area, module), name))
    told = " ".join(document.read_text(encoding="utf-8") for document in [TOP / "README.md", *sorted((TOP / "docs").glob("*.md"))])
    shown = {word for quoted in re.findall(r"`([^`\n]+)`", told) for word in quoted.split()}
    free = [f"{path.relative_to(TOP)}: {name}" for path, place, name in dict.fromkeys(declared) if name not in named[place] and name not in shown]
    print("\n".join(free) if free else "unused: every definition and lemma is named")
    return bool(free)


if __name__ == "__main__":
    sys.exit(main())
