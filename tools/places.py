#!/usr/bin/env python3
"""Counts the places in src/ (and for proofs in proofs/) that an older language shows through: see docs/DESIGN-PASS.md.

    tools/places.py            a line for each point: how many places
    tools/places.py POINT      the places of one point (1 to 8), each with its file and line
"""
import pathlib
import re
import sys

TOP = pathlib.Path(__file__).resolve().parent.parent


def sources(tests):
    for path in sorted(TOP.glob("crates/*/src/*.rt")):
        crate = path.parts[-3]
        test = path.name == "tests.rt" or crate.endswith("_tests")
        if test and not tests:
            continue
        text = path.read_text()
        if not tests:
            # a module of tests at the end of a file
            text = re.split(r"#\[cfg\(test\)\]\nmod tests \{", text)[0]
        yield path.relative_to(TOP), text


def found(pattern, tests=False, flags=0):
    for path, text in sources(tests):
        for m in re.finditer(pattern, text, flags):
            line = text.count("\n", 0, m.start()) + 1
            shown = " ".join(m.group(0).split())
            yield f"{path}:{line}: {shown[:110]}"


def closing(text, start, pair):
    """The place behind the bracket that closes the one at `start`."""
    depth = 0
    for i in range(start, len(text)):
        depth += (text[i] == pair[0]) - (text[i] == pair[1])
        if depth == 0:
            return i + 1
    return len(text)


def functions():
    """Each function with its parameters (name and type), its clauses (kind and text) and its body."""
    for path, text in sources(False):
        for m in re.finditer(r"^ *(?:pub(?:\(crate\))? )?fn (\w+)", text, re.M):
            opened = text.index("(", m.end())
            end = closing(text, opened, "()")
            params = re.findall(r"(\w+): ([^,]+?(?:\([^()]*\))?)(?=,|$)", " ".join(text[opened + 1 : end - 1].split()))
            clauses = []
            while True:
                found_next = re.compile(r"\{|;|\b(requires|ensures)\b\*?(?: \w+)? \{").search(text, end)
                if not found_next or not found_next.group(1):
                    break
                opened = found_next.end() - 1
                end = closing(text, opened, "{}")
                clauses.append((found_next.group(1), " ".join(text[opened + 1 : end - 1].split())))
            line = text.count("\n", 0, m.start()) + 1
            body = ""
            if found_next and found_next.group(0) == "{":
                body = text[found_next.end() : closing(text, found_next.start(), "{}") - 1]
            yield f"{path}:{line}", m.group(1), params, clauses, " ".join(body.split())


def point1():
    # enums of the shape of Option or Result: two variants, of which each has at most one field and one has one
    for path, text in sources(False):
        for m in re.finditer(r"enum (\w+)(?:<[^>]*>)? \{(.*?)\n\}", text, re.S):
            body = re.sub(r"//[^\n]*", "", m.group(2))
            variants = re.findall(r"(\w+)(\([^)]*\)|\s*\{[^}]*\})?,", body)
            fields = [v[1].count(",") + 1 if v[1] else 0 for v in variants]
            if len(variants) == 2 and max(fields) == 1:
                line = text.count("\n", 0, m.start()) + 1
                yield f"{path}:{line}: enum {m.group(1)} has the shape of Option or Result"
            if len(variants) == 1:
                line = text.count("\n", 0, m.start()) + 1
                yield f"{path}:{line}: enum {m.group(1)} has one variant"
    # a kind, sign, way, form or row as a bare number: in a parameter, a field
    yield from found(r"\b(?:form|sign|way|kind|row): u(?:8|16)\b")
    # Option and Result taken apart by hand
    yield from found(r"let Some\([^\n]*?\) = [^;{]*? else \{\s*return None;\s*\}", flags=re.S)
    yield from found(r"let Some\([^\n]*?\) = [^;{]*? else \{\s*return Err\([^;\n]*\);\s*\}", flags=re.S)
    yield from found(r"\bNone => None,|\bNone => Err\([^;\n]*\)|\bErr\((\w+)\) => Err\(\1\)")
    # an end that stands for 'not found': a function from a list to an index that is tested against the length
    yield from found(r"if \w+ < self\.\w+\.len\(\) \{\s*Some", flags=re.S)
    # a number that is an enum's, or the other way, by a function of its own
    yield from found(r"fn (?:listed|number)\((?:self|number: u16)\)[^{\n]*")


def point2():
    # functions of one crate with the same clauses
    seen = {}
    for where, name, _, clauses, _ in functions():
        crate = where.split("/")[1]
        text = " ; ".join(f"{k} {c}" for k, c in clauses if k == "ensures")
        if text:
            seen.setdefault((crate, text), []).append((where, name))
    for (crate, text), places in seen.items():
        if len(places) > 1:
            yield f"{crate}: {', '.join(n for _, n in places)}: {text[:80]}"
    # functions of one name in two crates with the same lines
    bodies = {}
    for path, text in sources(False):
        for m in re.finditer(r"^(?:    )?(?:pub(?:\(crate\))? )?fn (\w+).*?\n(?:    )?\}$", text, re.M | re.S):
            key = " ".join(re.sub(r"pub(\(crate\))? ", "", m.group(0)).split())
            bodies.setdefault(key, []).append(f"{path}: {m.group(1)}")
    for places in bodies.values():
        if len(places) > 1:
            yield "the same lines: " + "; ".join(places)
    # the memory and the limit of a list, held by hand in more than one type
    yield from found(r"ghost room: \{[^}]*\}")


def point3():
    yield from found(r"for \w+ in 0\.\.[^\n]*")
    yield from found(r"for \(\w+, \w+\) in [^\n]*enumerate\(\) \{\s*if [^\n]*\{\s*return [^\n]*", flags=re.S)
    yield from found(r"^\s*(?:while|loop)\b[^\n]*", flags=re.M)


def point4():
    # equality that is more than a lone `==`, and traits of it
    for where, name, _, _, body in functions():
        if name in ("is_same", "first_same") and not re.fullmatch(r"[\w.*]+ == [\w.*]+", body):
            yield f"{where}: fn {name}"
    yield from found(r"\w+\.0 [!=]= \w+(?:\.0)?[^\n]*\.1 [!=]= [^\n]*")
    yield from found(r"fn (?:listed|number|letter|words|of|name)\((?:self|number: u16|\w+: [A-Z]\w+)\)[^\n]*")
    yield from found(r"fn answer\(\w+: Result[^\n]*")
    # parts of a text that are written by functions beside Display
    for path, text in sources(False):
        for m in re.finditer(r"fn (\w+)<W: fmt::Write>", text):
            if m.group(1) != "fmt":
                yield f"{path}:{text.count(chr(10), 0, m.start()) + 1}: fn {m.group(1)} writes to a formatter"


def point5():
    facts, groups = {}, {}
    for where, name, params, clauses, _ in functions():
        for kind, clause in clauses:
            facts.setdefault(clause, []).append(f"{where} {name}")
        group = tuple(sorted(p for p, _ in params if p not in ("f", "rt", "self")))
        for k in range(len(group)):
            for l in range(k + 1, len(group)):
                groups.setdefault((group[k], group[l]), []).append(f"{where} {name}")
    for clause, places in facts.items():
        if len(places) > 2:
            yield f"{len(places)} contracts: {clause[:100]}"
    for pair, places in sorted(groups.items()):
        if len(places) > 2:
            yield f"{len(places)} functions take {' and '.join(pair)}: " + ", ".join(p.split()[-1] for p in places)


def point6():
    yield from found(r"\w+: \[\w+; \w+\],\s*(?:pub )?(?:len|count|used): usize", flags=re.S)
    yield from found(r"^\s*(?:Stored|Compound)\(Operation, u16, u16\)", flags=re.M)
    yield from found(r"let mut (\w+) = \[0; \w+\];")


def point7():
    for path, text in sources(False):
        for m in re.finditer(r"match [^\n]*\{\n((?:\s+[^\n]*=> (?:self|book|Call)\S*\([^\n]*\),?\n){3,})", text):
            line = text.count("\n", 0, m.start()) + 1
            yield f"{path}:{line}: a match of which each arm calls one step"
    yield from found(r"\[\w*fn\(|Box<dyn Fn|&dyn Fn")


def point8():
    for path in sorted(TOP.glob("crates/*/proofs/**/Answers.antt")):
        n = len(re.findall(r"^pub \S+ : goal", path.read_text(), re.M))
        yield f"{path.relative_to(TOP)}: {n} answers"
    for path in sorted(TOP.glob("crates/*/**/*.antt")):
        if "out" in path.relative_to(TOP).parts:
            continue
        text = path.read_text()
        for word in ("AllByRecursion", "ContainsAt", "ByRecursion.{"):
            if word in text:
                yield f"{path.relative_to(TOP)}: {word}"


POINTS = [point1, point2, point3, point4, point5, point6, point7, point8]


def main():
    if len(sys.argv) > 1:
        for place in POINTS[int(sys.argv[1]) - 1]():
            print(place)
        return
    for i, point in enumerate(POINTS, 1):
        print(f"point {i}: {len(list(point()))} places")


main()
