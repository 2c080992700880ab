#!/usr/bin/env python3
"""Brings the repository's own definitions and lemmas to one spelling: types in upper camel case, all else in snake case.

usage: tools/respell.py [--names]     at the top of the repository; --names only lists old and new names

Names of the library, of functions in src/ and of generated goals stay as they are, and so do comments.
A name is turned where a file of specs/ or proofs/ defines it, wherever it is imported or projected.
"""

import os
import re
import sys

OWN = "domain expression forms workspace machine walk proposal correspondence rules judgement guarantee coverage records compare".split()
SEPARATORS = r"\s(){}\[\],;.:\"`|@"
TOKEN = re.compile(r"[^" + SEPARATORS + r"]+")
NAME = r"[^\s(){}\[\],;.:=λ→⟨⟩]+"
MARKS = r"\s*(?:(?:pub|abbrev|unfoldable|pattern|axiom)\s+)*"
FUNCTION_FILES = ("Answers.antt", "Invariants.antt", "Proof.antt")

# Where the plain respelling would fall together with a type of src/, or a capital is a variable's name.
CHOSEN = {
    "Pair-head": "HeadOfPair",
    "Claim-head": "HeadOfClaim",
    "K-is": "k_is",
    "K-some": "k_some",
}


def respelt(name):
    """The name in the new spelling."""
    if name in CHOSEN:
        return CHOSEN[name]
    if name[0].isupper():
        return "".join(w[:1].upper() + w[1:] for w in name.split("-"))
    name = name.replace("getD", "get_or")
    name = re.sub(r"(?<=[a-z])([A-Z])", lambda m: "_" + m.group(1).lower(), name)
    return name.replace("-", "_")


def is_old(name):
    return bool(re.match(r"[A-Za-z]", name)) and respelt(name) != name


def files(*endings):
    for folder, inner, names in os.walk("crates"):
        inner[:] = sorted(d for d in inner if d != "out")
        for name in sorted(names):
            if name.endswith(endings):
                yield os.path.join(folder, name)


def lines_of(path):
    with open(path, encoding="utf-8") as f:
        return f.read().split("\n")


def is_comment(line):
    return line.lstrip().startswith(("--", "//"))


def is_import(line):
    return line.lstrip().startswith(("use ", "pub use ", "ghost use ", "pub ghost use "))


def is_own(line):
    return re.search(r"(?:Rattle|crate)\.(?:" + "|".join(OWN) + r")\b", line) is not None


def is_generated(line):
    return re.search(r"\.(?:Goals|Given)\b", line) is not None


def defined(line):
    """The names that a line declares: a signature with one or more names, or a record, data type or module."""
    m = re.match(MARKS + r"(?:data|record|module)\s+(" + NAME + ")", line)
    if m:
        return [m.group(1)]
    m = re.match(MARKS + r"((?:" + NAME + r"\s+)*" + NAME + r")\s*(?:\{[^}]*\}\s*)?:\s", line)
    return m.group(1).split() if m else []


def foreign_of(lines):
    """The names that a file imports from outside the repository."""
    found = set()
    for line in lines:
        if is_import(line) and not is_own(line):
            found.update(TOKEN.findall(line))
    return found


def globals_of():
    """Every name to turn that a definition or lemma file declares."""
    names = set()
    for path in files(".antt"):
        if os.path.basename(path) in FUNCTION_FILES:
            continue
        for line in lines_of(path):
            if not is_comment(line) and not is_import(line):
                names.update(n for n in defined(line) if is_old(n))
    return names


def turn_lines(lines, names):
    out = []
    for line in lines:
        if is_comment(line):
            out.append(line)
        elif is_import(line) and (not is_own(line) or is_generated(line)):
            out.append(line)
        else:
            out.append(TOKEN.sub(lambda m: respelt(m.group(0)) if m.group(0) in names else m.group(0), line))
    return out


def names_of_lemma_file(lines, names):
    """In a file of definitions or lemmas also the names of its variables are turned."""
    foreign = foreign_of(lines)
    local = set()
    for line in lines:
        if not is_comment(line) and not is_import(line):
            local.update(t for t in TOKEN.findall(line) if re.search(r"[A-Za-z]-[A-Za-z]", t) and is_old(t))
    return {n for n in names | local if n not in foreign}


def names_of_function_file(lines, names):
    """In a function's proof only what it imports from the repository, and its own lemmas, but not the goals."""
    taken = set()
    goals = set()
    for line in lines:
        if is_comment(line):
            continue
        if is_import(line):
            if is_own(line) and not is_generated(line):
                taken.update(t for t in TOKEN.findall(line) if t in names)
            continue
        found = defined(line)
        if re.search(r":\s+(?:goal|need|given)s?\.", line):
            goals.update(found)
        else:
            taken.update(n for n in found if is_old(n) and not n.startswith(("invariant-", "decreases-", "measure-")))
    return taken - goals - foreign_of(lines)


def fields_of():
    """The fields of records to turn: they are projected in functions' proofs without an import."""
    fields = set()
    for path in files(".antt"):
        if os.path.basename(path) in FUNCTION_FILES:
            continue
        depth = None
        for line in lines_of(path):
            if is_comment(line) or not line.strip():
                continue
            indent = len(line) - len(line.lstrip())
            if re.match(MARKS + r"record\s", line):
                depth = indent
                continue
            if depth is not None and indent <= depth:
                depth = None
            if depth is not None:
                fields.update(n for n in defined(line) if is_old(n))
    return fields


def turn_fields(lines, fields):
    out = []
    for line in lines:
        if not is_comment(line) and not is_import(line):
            line = re.sub(r"(?<=\.)([^" + SEPARATORS + r"]+)", lambda m: respelt(m.group(1)) if m.group(1) in fields else m.group(1), line)
            line = re.sub(r"(?<=[{;] )([^" + SEPARATORS + r"]+)(?= = )|^(\s+)([^" + SEPARATORS + r"]+)(?= = )", lambda m: (respelt(m.group(1)) if m.group(1) in fields else m.group(1)) if m.group(1) else m.group(2) + (respelt(m.group(3)) if m.group(3) in fields else m.group(3)), line)
        out.append(line)
    return out


def clashes(names):
    """Two names that become one, or one that another definition has."""
    known = set()
    for path in files(".antt"):
        for line in lines_of(path):
            if not is_comment(line) and not is_import(line):
                known.update(defined(line))
    new = {}
    for n in sorted(names):
        if respelt(n) in known or respelt(n) in new:
            yield f"{n} -> {respelt(n)}, which is also {new.get(respelt(n), 'defined')}"
        new[respelt(n)] = n


def main(argv):
    names = globals_of()
    fields = fields_of()
    for clash in clashes(names):
        print("look: " + clash)
    if argv == ["--names"]:
        print("\n".join(f"{n} {respelt(n)}" for n in sorted(names)))
        return 0
    for path in files(".antt", ".rt"):
        lines = lines_of(path)
        if os.path.basename(path) in FUNCTION_FILES:
            turned = turn_fields(turn_lines(lines, names_of_function_file(lines, names)), fields)
        elif path.endswith(".rt"):
            turned = turn_lines(lines, {n for n in names if n not in foreign_of(lines)})
        else:
            turned = turn_fields(turn_lines(lines, names_of_lemma_file(lines, names)), fields)
        if turned != lines:
            with open(path, "w", encoding="utf-8") as f:
                f.write("\n".join(turned))
    return 0


if __name__ == "__main__":
    raise SystemExit(main(sys.argv[1:]))
