#!/usr/bin/env python3
"""Respells the repository's own names of specifications and proofs, once, after the kit's port.py: what is declared in
specs/ or proofs/ with a dash gets underscores (a name that begins with a capital letter: no dash, camel case). Names that the
library or the prover gives (answers, invariants) stay, and so does every name of src/.

usage: python3 tools/respell.py          lists the new names and where two would fall together, and writes nothing
       python3 tools/respell.py write    writes them"""
import os, re, sys

TOP = os.path.dirname(os.path.dirname(os.path.abspath(__file__)))
# Names whose respelling would be another name already, or no name that says what it is.
CHOSEN = {"Message-discrete": "discrete_from_parts"}
WORD = r"[\w'⊑-]"
GIVEN = ("Answers.antt", "Invariants.antt", "Proof.antt")
DECLARED = re.compile(r"\s*(?:(?:abbrev|pub|unfoldable|record|data)\s+)*(" + WORD + r"+)\s*(?:[({].*)?:")


def files(*ends):
    for folder, dirs, names in os.walk(os.path.join(TOP, "crates")):
        dirs[:] = sorted(d for d in dirs if d != "out")
        for n in sorted(names):
            if n.endswith(ends):
                yield os.path.join(folder, n)


def read(path):
    with open(path, encoding="utf-8") as f:
        return f.read()


def respelled(name):
    if name in CHOSEN:
        return CHOSEN[name]
    if name[0].isupper():
        return "".join(w[:1].upper() + w[1:] for w in name.split("-"))
    return name.replace("-", "_")


def declared():
    """The names with a dash that specs/ and proofs/ declare, lemmas inside answer files among them."""
    found, used = set(), set()
    for path in files(".antt"):
        text = read(path)
        used.update(re.findall(WORD + "+", text))
        given = set(re.findall(r"goal\.(" + WORD + "+)", text)) if path.endswith(GIVEN) else set()
        for line in text.splitlines():
            m = DECLARED.match(line)
            if m and "-" in m.group(1).strip("-") and m.group(1) not in given:
                found.add(m.group(1))
        for m in re.finditer(r"\bderiving \w+ as (" + WORD + "+)", text):
            if "-" in m.group(1):
                found.add(m.group(1))
        for m in re.finditer(r"\b(?:let|as) (" + WORD + "+)", text):
            if "-" in m.group(1):
                found.add(m.group(1))
    found.add("where-missing")
    return found, used


def library():
    """The names that are taken from another place than this repository."""
    own = {d for d in os.listdir(os.path.join(TOP, "crates"))}
    names = set()
    for path in files(".antt", ".rt"):
        for m in re.finditer(r"use ([\w.+]+)\.\{([^}]*)\}", read(path)):
            parts = m.group(1).split(".")
            if not (parts[0] == "Rattle" and len(parts) > 1 and parts[1] in own):
                names.update(n.split(" as ")[0].strip() for n in m.group(2).split(","))
    return names


def main(argv):
    found, used = declared()
    taken = library()
    turn = {n: respelled(n) for n in sorted(found) if n not in taken}
    for n in sorted(found & taken):
        print(f"left: {n} is a name of the library too")
    for n, to in turn.items():
        twin = [o for o, t in turn.items() if t == to and o != n]
        if to in used or to in taken or twin:
            print(f"look: {n} becomes {to}, which stands already")
    print(f"{len(turn)} names")
    if argv[1:] != ["write"]:
        print("\n".join(f"{n} {to}" for n, to in turn.items()))
        return 0
    one = re.compile("(?<!" + WORD + ")(" + "|".join(sorted(map(re.escape, turn), key=len, reverse=True)) + ")(?!" + WORD + ")")
    ghost = re.compile(r"\s*(//|ghost |requires|ensures|\w+: \{)")
    for path in files(".antt", ".rt", ".edit"):
        text = read(path)
        lines = text.split("\n")
        for i, line in enumerate(lines):
            if path.endswith(".antt") or ghost.match(line):
                lines[i] = one.sub(lambda m: turn[m.group(1)], line)
        if "\n".join(lines) != text:
            with open(path, "w", encoding="utf-8") as f:
                f.write("\n".join(lines))
    return 0


raise SystemExit(main(sys.argv))
