#!/usr/bin/env python3
"""places: where src/ still has a form that today's Rattle says plainer. Run it at the repository's root; it changes nothing.

    python3 tools/places.py            the number of places of each kind
    python3 tools/places.py KIND..     these places, one line each (KIND is the first word of a count's line)

Each place is only a place to look: docs/DESIGN-PASS.md says of each what became of it. Kinds by the page's points:
  1 enum     an enum that the repository declares            1 code     a pair or a field that carries a refusal's number,
  1 fault    a fault put together by hand                               or a number written for a kind in a pattern
  1 match    a match that only hands an error or a nothing on
  2 twin     functions whose texts differ in at most one word in six, a group a line
  3 while    a `while` or `loop`                             3 range    a `for` over a range of numbers
  3 count    a counter that the body of a loop raises by one
  4 fields   a comparison field by field                     4 bytes    a number put together from bytes, or taken apart
  4 names    a function that matches texts and cases        4 zeros    a value of zeros written out
  5 fact     a fact in the contracts of three or more functions
  5 pair     two parameters that three or more functions take together
  6 array    a field that is an array of a fixed size        6 window   a stretch cut out of an array by a product
  6 link     a walk along numbers of a table's entries
  7 step     a function that picks another by a text or a case
  8 answer   a proof file of answers (8 lemma: a file of lemmas)
"""
import difflib
import re
import subprocess
import sys
from collections import defaultdict
from pathlib import Path


def sources():
    names = subprocess.run(["git", "ls-files", "crates"], capture_output=True, text=True).stdout.splitlines()
    return [(n, Path(n).read_text()) for n in sorted(names) if n.endswith(".rt") and "/src/" in n and Path(n).exists()]


def plain(text):
    """The text with comments and the insides of quotes blanked, each line and column kept."""
    blank = lambda m: m.group()[0] + " " * (len(m.group()) - 2) + m.group()[-1]
    text = re.sub(r"//[^\n]*", lambda m: " " * len(m.group()), text)
    return re.sub(r'"(?:\\.|[^"\\\n])*"', blank, text)


def line_of(text, at):
    return text.count("\n", 0, at) + 1


def close(text, at):
    """Where the brace that opens at `at` closes."""
    depth = 0
    for i in range(at, len(text)):
        depth += {"{": 1, "}": -1}.get(text[i], 0)
        if depth == 0:
            return i
    return len(text)


def functions(name, text):
    """Each function: its name, its line, its parameters, its clauses and its body."""
    for m in re.finditer(r"\bfn\s+(\w+)", text):
        i, depth, clauses, body, params = m.end(), 0, [], "", ""
        while i < len(text):
            word = re.compile(r"(requires|ensures|ghost)\*?\b[ \t]*\w*:?\s*\{").match(text, i)
            if word and depth == 0:
                end = close(text, word.end() - 1)
                clauses.append((word.group(1), " ".join(text[word.end():end].split())))
                i = end + 1
                continue
            c = text[i]
            if c == "(" and depth == 0 and not params:
                level, j = 1, i + 1
                while level:
                    level += {"(": 1, ")": -1}.get(text[j], 0)
                    j += 1
                params, i = text[i + 1:j - 1], j
                continue
            if c == "{":
                body = text[i:close(text, i) + 1]
                break
            if c == ";":
                break
            i += 1
        yield m.group(1), line_of(text, m.start()), params, clauses, body


LINES = {
    "code": r"\(u8, usize\)|\bnumber: u8\b|\b1000 \+|^\s*[0-9]+ => ",
    "while": r"^\s*(?:let \w+ = )?(?:while|loop)\b",
    "range": r"\bfor (?!_\b)\w+ in (?!&)[^{]*\.\.",
    "count": r"\b\w+ \+= 1;",
    "fields": r"(\w+)\.(\w+) == (\w+)\.(?:\w+\.)*\2\b.*&&|&& (\w+)\.(\w+) == ",
    "bytes": r"[%/] 256|256 \*",
    "array": r"^\s*(?:pub(?:\(crate\))? )?\w+: \[[^\]]*;",
    "window": r"\[\w+ \* \w+\.\.",
    "link": r"\]\.(?:next|first)\b|\bnode\.next\b|sibling\.next",
}


# arms of a match between a text and a case, and arms that pick a function by a text or a case
NAME = r'"[^"\n]*" => (?:Some\(|Ok\(|Err\()?\w+::\w+|\w+::\w+(?:\([^)]*\))? =>\s*(?:f\.write_str\()?"'
STEP = r'(?:"[a-z]+"|\b(?:Method|Call|Way)::\w+(?:\([^)]*\))?) => (?:[\w:]+\(|\w+ \{|match )'


def found():
    out, texts = defaultdict(list), sources()
    facts, pairs, bodies = defaultdict(set), defaultdict(set), []
    for name, raw in texts:
        text = plain(raw)
        for kind, form in LINES.items():
            for n, line in enumerate(text.splitlines(), 1):
                if re.search(form, line):
                    out[kind].append(f"{name}:{n}: {line.strip()}")
        for m in re.finditer(r"\benum (\w+)", text):
            out["enum"].append(f"{name}:{line_of(text, m.start())}: {m.group(1)}")
        for m in re.finditer(r"(?<!struct )(?<!for )\bFault \{(?!\s*refusal(?:: \w+)?, (?:order|detail: \w+) \}\) =>)", text):
            out["fault"].append(f"{name}:{line_of(text, m.start())}: {text.splitlines()[line_of(text, m.start()) - 1].strip()}")
        for m in re.finditer(r"Err\((\w+)\) => (?:return )?(?:Err\(|false|0,|None)|Ok\(\w*(?:\(\))?\) => (?:true|Ok\(\w+\)),|None => (?:None|false),", text):
            out["match"].append(f"{name}:{line_of(text, m.start())}: {m.group()}")
        for m in re.finditer(r"\b\w+ \{(?:\s*\w+: 0,?){3,}\s*\}", text):
            out["zeros"].append(f"{name}:{line_of(text, m.start())}: {' '.join(m.group().split())}")
        for fn, line, params, clauses, body in functions(name, text):
            crate = name.split("/")[1]
            first = [i for i, l in enumerate(text.splitlines(True)) if i + 1 == line][0]
            start = sum(len(l) for l in text.splitlines(True)[:first])
            where = text.find(body, start) if body else start
            code = re.sub(r"//[^\n]*", "", raw[where:where + len(body)])
            for kind, form in (("names", NAME), ("step", STEP)):
                arms = len(re.findall(form, code))
                if arms >= 2:
                    out[kind].append(f"{name}:{line}: {fn}: {arms} arms")
            for kind, clause in clauses:
                if kind == "requires":
                    fact = re.sub(r"\.(now|old|entry)\b", "", clause)
                    for part in re.split(r" × (?![^(]*\))", fact):
                        facts[crate, part.strip("() ")].add(f"{name}:{line} {fn}")
            typed = [" ".join(p.split()) for p in re.split(r",(?![^<(\[]*[>)\]])", params) if ":" in p]
            words = [(w, re.sub(r"&(?:mut )?|'\w+ |<.*", "", t).strip()) for w, t in (p.split(":", 1) for p in typed)]
            for a in range(len(words)):
                for b in range(a + 1, len(words)):
                    if words[a][0] != "rt":
                        pairs[crate, words[a], words[b]].add(f"{name}:{line} {fn}")
            tokens = re.findall(r"\w+|[^\s\w]", body)
            if len(tokens) >= 24:
                bodies.append((name, line, fn, tokens))
    for (crate, fact), where in sorted(facts.items()):
        if len(where) >= 3:
            out["fact"].append(f"{crate}: {fact}: {len(where)} functions: " + ", ".join(sorted(w.split()[-1] for w in where)))
    for (crate, a, b), where in sorted(pairs.items()):
        if len(where) >= 3:
            out["pair"].append(f"{crate}: {a[0]}, {b[0]}: {len(where)} functions: " + ", ".join(sorted(w.split()[-1] for w in where)))
    above = list(range(len(bodies)))

    def root(a):
        return a if above[a] == a else root(above[a])

    def join(a, b):
        above[root(b)] = root(a)

    for a in range(len(bodies)):
        for b in range(a + 1, len(bodies)):
            x, y = bodies[a][3], bodies[b][3]
            if abs(len(x) - len(y)) * 6 > max(len(x), len(y)):
                continue
            match = difflib.SequenceMatcher(None, x, y, autojunk=False)
            if match.real_quick_ratio() > 0.83 and match.quick_ratio() > 0.83 and match.ratio() > 0.83:
                join(a, b)
    groups = defaultdict(list)
    for a in range(len(bodies)):
        groups[root(a)].append(f"{bodies[a][0]}:{bodies[a][1]} {bodies[a][2]}")
    out["twin"] = [" ~ ".join(g) for g in groups.values() if len(g) > 1]
    names = subprocess.run(["git", "ls-files", "crates"], capture_output=True, text=True).stdout.splitlines()
    for n in sorted(n for n in names if "/proofs/" in n and n.endswith(".antt") and Path(n).exists()):
        lines = len(Path(n).read_text().splitlines())
        if not n.endswith("/Lib.antt") and not n.endswith("/Invariants.antt"):
            out["answer" if n.endswith("Answers.antt") else "lemma"].append(f"{n}: {lines} lines")
    return out


KINDS = [(1, "enum"), (1, "code"), (1, "fault"), (1, "match"), (2, "twin"), (3, "while"), (3, "range"), (3, "count"), (4, "fields"), (4, "bytes"),
         (4, "names"), (4, "zeros"), (5, "fact"), (5, "pair"), (6, "array"), (6, "window"), (6, "link"), (7, "step"), (8, "answer"), (8, "lemma")]

if __name__ == "__main__":
    places = found()
    for point, kind in KINDS:
        if kind in sys.argv[1:]:
            print("\n".join(places[kind]))
        elif len(sys.argv) == 1:
            print(f"{kind:8} point {point}: {len(places[kind])}")
