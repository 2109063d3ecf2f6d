#!/usr/bin/env python3
"""Respells this repository's own definitions and lemmas in the style of today's Rattle.

Run once at the top of the repository, right after the kit's port.py. A definition or a plain word of a
lemma's name is in snake case (`put-outcome` becomes `put_outcome`), a type in camel case
(`Stands-for-line` becomes `StandsForLine`), and a lemma's name keeps its dashes only
where it is made of names alone, as `length-rings`. Names that Rattle makes, names of std and functions of src/ keep their spelling.
"""
import glob
import re

WORD = r"[\w'◌]"
# Words of std that lemmas here speak of.
STD = set("length take drop append set cond gathered insert inserted remove removed filter sum".split())
# Parameters, and names given by `as`, which no signature shows.
LOCAL = set("hashed-state split-state low-state high-state low-valid high-valid low-outside high-outside".split())
SIGNATURE = re.compile(r"^\s*((?:abbrev |unfoldable |pub |data |record )*)([^\s:(){}]+)((?:\s+[^\s:(){}]+)*) :(?: |$)")


def declared(files):
    names = set()
    for path in files:
        for line in open(path):
            found = SIGNATURE.match(line)
            if found and not line.strip().startswith("--"):
                names |= {n for n in [found[2], *found[3].split()] if re.fullmatch(WORD + r"+", n.replace("-", "").replace("++", "x"))}
    return names


def snake(name):
    name = name.replace("putMid", "put_mid")
    if name[0].isupper() and "-" in name:
        return "".join(part[0].upper() + part[1:] for part in name.split("-"))
    return name.replace("-", "_")


def lemma(name, known):
    """A lemma's name: dashes where it is made of known names alone, else in snake case."""
    parts, units, i = name.split("-"), [], 0
    while i < len(parts):
        n = next(n for n in range(len(parts) - i, 0, -1) if n == 1 or "_".join(parts[i:i + n]) in known)
        units.append("_".join(parts[i:i + n]))
        i += n
    return "-".join(units) if all(unit in known or unit == "++" for unit in units) else snake(name)


def main():
    specs = sorted(glob.glob("crates/*/specs/**/*.antt", recursive=True))
    lemmas = sorted(glob.glob("crates/*/proofs/*.antt"))
    definitions = declared(specs)
    known = {snake(n) for n in definitions} | STD
    new = {n: snake(n) for n in definitions | LOCAL if "-" in n}
    new |= {n: lemma(n, known) for n in declared(lemmas) - definitions if "-" in n and not n[0].isupper()}
    new = {old: to for old, to in new.items() if old != to}
    for old, to in sorted(new.items()):
        print(old, to)
    pattern = re.compile(r"(?<![\w'◌-])(?<!\bc\.)(?<!\bl\.)(?<!goal\.)(" + "|".join(map(re.escape, sorted(new, key=len, reverse=True))) + r")(?![\w'◌+-])")
    for path in sorted(glob.glob("crates/**/*.antt", recursive=True) + glob.glob("crates/**/*.rt", recursive=True)):
        text = open(path).read()
        changed = pattern.sub(lambda m: new[m[1]], text)
        if changed != text:
            open(path, "w").write(changed)


main()
