#!/usr/bin/env python3
"""Gives the repository's own definitions and lemmas today's spelling: snake case for functions, lemmas, fields and
constructors, upper camel case for types. A dash stays where it joins the name of a function to the rest of a lemma's name,
as in length-half_read. Run once, at the top of the repository, after the kit's own script. Functions of src/, strings,
comments and files that are no source of a proof keep their names; in docs and the README names between backquotes follow.

usage: python3 tools/respell.py [--list]     --list prints the names, old and new, and writes nothing
"""

import glob
import os
import re
import sys

# functions of the library whose names begin lemmas
LIBRARY = "length map take drop get_or cond sum replicate append ones min max set reverse count put".split()
# names that a script cannot spell
SPECIAL = {"nth-getD": "nth-get_or"}
TOKEN = re.compile(r"[^\s(){}\[\];,.\"«»`:]+")
DEFINED = re.compile(r"^[ ]*((?:(?:abbrev|pub|unfoldable|data|record|ruleset)\s+)*)([^\s:(){}]+)(?:\s*[({][^\n]*)?\s*:(?!=)\s(.*)$", re.M)
BOUND = ("λ", "let", "in", "use", "module", "--")


def files(pattern):
    return sorted(glob.glob("crates/*/" + pattern, recursive=True))


def answers(path):
    return os.path.basename(path) in ("Answers.antt", "Invariants.antt", "Proof.antt", "Choices.antt")


def definitions():
    """Each name that specs/ or proofs/ declares, with whether it is a function and whether it is a goal's answer alone."""
    names, functions, goals = set(), set(LIBRARY), set()
    for path in files("specs/**/*.antt") + files("proofs/**/*.antt"):
        with open(path, encoding="utf-8") as f:
            text = f.read()
        for said, name, kind in DEFINED.findall(text):
            if name in BOUND or (kind.startswith("goal.") and answers(path)):
                goals.add(name)
                continue
            names.add(name)
            if name[0].islower() and ("abbrev" in said or "unfoldable" in said):
                functions.add(name)
    return names, functions, goals


def camel(name):
    return "".join(p[:1].upper() + p[1:] for p in re.split("[-_]", name))


def snake(name, functions):
    parts = name.split("-")
    if name in functions:
        return "_".join(parts)
    for n in range(len(parts) - 1, 0, -1):
        head = "-".join(parts[:n])
        if head in functions or "_".join(parts[:n]) in functions:
            return "_".join(parts[:n]) + "-" + "_".join(parts[n:])
    return "_".join(parts)


def spelled():
    names, functions, goals = definitions()
    table = {}
    for name in sorted(names):
        is_type = name[0].isupper() and "_" in name
        if name in goals or name in SPECIAL.values():
            continue
        if is_type or "-" in name and re.fullmatch(r"[A-Za-z][\w']*(?:-[\w']+)+", name):
            new = SPECIAL.get(name) or (camel(name) if name[0].isupper() else snake(name, functions))
            if new != name:
                table[name] = new
    return table, names


def turn_code(text, table, comment):
    """Names outside comments and string literals; none of a path that the check makes."""
    out = []
    for line in text.split("\n"):
        at = re.search(r"(?:^|\s)" + comment + r"(?:\s|$)", line)
        code, rest = (line[: at.start()], line[at.start():]) if at else (line, "")

        def one(m):
            before = code[: m.start()]
            if before.endswith(".") and re.search(r"(?:\bgoal|\bneed)\.$", before):
                return m.group(0)
            return table.get(m.group(0), m.group(0))

        out.append(TOKEN.sub(one, code) + rest)
    return "\n".join(out)


def turn_page(text, table):
    return re.sub(r"`[^`\n]+`", lambda m: TOKEN.sub(lambda t: table.get(t.group(0), t.group(0)), m.group(0)), text)


def main(argv):
    table, names = spelled()
    for old, new in table.items():
        if new in names or list(table.values()).count(new) > 1:
            print(f"together: {old} and another become {new}", file=sys.stderr)
    if argv == ["--list"]:
        for old, new in table.items():
            print(old, new)
        return 0
    for path in files("specs/**/*.antt") + files("proofs/**/*.antt") + files("src/**/*.rt"):
        with open(path, encoding="utf-8") as f:
            text = f.read()
        new = turn_code(text, table, "--" if path.endswith(".antt") else "//")
        if new != text:
            with open(path, "w", encoding="utf-8") as f:
                f.write(new)
    for path in ["README.md"] + sorted(glob.glob("docs/**/*.md", recursive=True)):
        with open(path, encoding="utf-8") as f:
            text = f.read()
        new = turn_page(text, table)
        if new != text:
            with open(path, "w", encoding="utf-8") as f:
                f.write(new)
    return 0


if __name__ == "__main__":
    raise SystemExit(main(sys.argv[1:]))
