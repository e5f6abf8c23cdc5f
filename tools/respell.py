#!/usr/bin/env python3
"""Spells the repository's own definitions and lemmas as today's Rattle does.

    python3 tools/respell.py        at the top of the repository, after the kit's script for older repositories; a second run changes nothing

Names with a hyphen become names in snake case, and types (names that begin with a capital letter) names in camel case.
Renamed are names that a file of specs/, or a lemma file right in proofs/, defines: definitions, lemmas, fields,
parameters and local names. They are renamed wherever they stand in .antt files, in clauses and ghost items of .rt files,
in must-fail edits, and in the text copies of such files. The names that Rattle makes for the goals of a function stay,
since they belong to the language: so in a folder of proofs/ a name after a dot stays, unless it is a field of a record of
specs/. Comments keep their words.
"""
import os, re, sys

WORD = r"A-Za-z0-9_'′\u0370-\u03ff\u2080-\u2089-"
NAME = re.compile(rf"(?<![{WORD}])[A-Za-z][{WORD}]*-[{WORD}]*[A-Za-z0-9'′](?![{WORD}])")
SKIP = {"out", ".git", "target"}


def files():
    for top in ("crates", "unfinished"):
        for folder, dirs, names in os.walk(top):
            dirs[:] = sorted(d for d in dirs if d not in SKIP)
            for name in sorted(names):
                path = os.path.join(folder, name)
                bare = path[:-4] if path.endswith(".txt") else path
                if bare.endswith((".antt", ".rt", ".edit")):
                    yield path, bare


def read(path):
    with open(path, encoding="utf-8") as f:
        return f.read()


def is_definition_file(bare):
    parts = bare.split("/")
    return bare.endswith(".antt") and ("specs" in parts or parts[-2] == "proofs")


def split(line):
    """A line without its comment, and the comment."""
    at = re.search(r"(?:^|\s)--(?:\s|$)", line)
    return (line[: at.start()], line[at.start() :]) if at else (line, "")


def new_name(old):
    parts = old.replace("′", "'").split("-")
    if parts[0][:1].isupper():
        return "".join(p[:1].upper() + p[1:] for p in parts)
    return "_".join(parts)


def collect():
    """The hyphenated names of definition files that no `use` line brings in from elsewhere, and those of them that are fields of records in specs/."""
    crates = {p.split("/")[1] for p, _ in files() if p.startswith("crates/")}
    own, fields, brought = set(), set(), set()
    for path, bare in files():
        if not bare.endswith(".antt"):
            continue
        for m in re.finditer(r"^\s*(?:pub )?use ([^\s{]+?)\.\{([^}]*)\}", read(path), re.M):
            module = re.match(r"Rattle[.\u00b7](\w+)[.\u00b7]", m.group(1))
            if not module or module.group(1) not in crates:
                brought |= {w for x in m.group(2).split(",") for w in [x.strip().split(" as ")[0].strip()]}
                brought |= {x.strip().split(" as ")[1].strip() for x in m.group(2).split(",") if " as " in x}
    for path, bare in files():
        if not is_definition_file(bare):
            continue
        in_record = False
        for line in read(path).split("\n"):
            code, _ = split(line)
            if re.match(r"\S", code):
                in_record = bool(re.match(r"(pub )?record\b", code))
            if re.match(r"\s*(pub )?use ", code):
                continue
            m = re.match(rf"\s+pub ([{WORD}]+)\s*(?:[({{].*)?:", code)
            if in_record and m and "-" in m.group(1) and "specs" in bare:
                fields.add(m.group(1))
            for m in NAME.finditer(code):
                if not code[: m.start()].endswith(".") and m.group() not in brought:
                    own.add(m.group())
    return own, fields


def respell_code(code, own, fields, made):
    def turn(m):
        name = m.group()
        dotted = code[: m.start()].endswith(".")
        if name not in own and name not in fields:
            return name
        if made and dotted and name not in fields:
            return name
        return new_name(name)

    return NAME.sub(turn, code)


def respell_antt(text, bare, own, fields):
    made = not is_definition_file(bare)
    lines = []
    for line in text.split("\n"):
        code, comment = split(line)
        head = re.match(rf"(pub |abbrev )*([{WORD}]+) (?=:)", code) if made else None
        goal = made and (re.match(rf"(?:pub |abbrev )*[{WORD}]+ : goal\.", code) or re.match(rf"use .*\.Goals\.", code) or re.match(rf"use .*\.Given\.", code))
        if goal:
            lines.append(line)
            continue
        lines.append(respell_code(code, own, fields, made) + comment)
    return "\n".join(lines)


def respell_rt(text, own, fields):
    """Only in ghost items and clauses: from `requires`, `ensures` or `ghost` to the brace or semicolon that ends it."""
    out, i = [], 0
    for m in re.finditer(r"//[^\n]*|\"(?:\\.|[^\"\\])*\"|\b(requires|ensures|ghost)\b", text):
        if m.start() < i or not m.group(1):
            continue
        j, depth = m.end(), 0
        while j < len(text):
            if text[j] == "{":
                depth += 1
            elif text[j] == "}":
                depth -= 1
                if depth <= 0:
                    j += 1
                    break
            elif text[j] == ";" and depth == 0:
                j += 1
                break
            j += 1
        out.append(text[i : m.start()])
        out.append(respell_code(text[m.start() : j], own, fields, False))
        i = j
    out.append(text[i:])
    return "".join(out)


def respell_edit(text, own, fields):
    lines = text.split("\n")
    of_specs = any(re.match(r"file: (specs|proofs)/", l) for l in lines)
    clause = re.compile(r"\b(requires|ensures|ghost)\b")
    return "\n".join(respell_code(l, own, fields, False) if re.match(r"(old|new): ", l) and (of_specs or clause.search(l)) else l for l in lines)


def main():
    own, fields = collect()
    if "--list" in sys.argv:
        seen = {}
        for name in sorted(own | fields):
            print(name, new_name(name), "field" if name in fields else "")
            seen.setdefault(new_name(name), []).append(name)
        for new, olds in seen.items():
            if len(olds) > 1:
                print("FALL TOGETHER", new, olds)
        return
    for path, bare in files():
        text = read(path)
        if bare.endswith(".antt"):
            new = respell_antt(text, bare, own, fields)
        elif bare.endswith(".rt"):
            new = respell_rt(text, own, fields)
        else:
            new = respell_edit(text, own, fields)
        if new != text:
            with open(path, "w", encoding="utf-8") as f:
                f.write(new)


main()
