#!/usr/bin/env python3
"""Brings the repository's own definitions and lemmas to today's spelling: words in snake case, types in camel case.

usage: python3 tools/respell.py [--dry]      at the top of the repository, once, right after the kit's port.py

Renamed is what specs/ and proofs/ declare in camel case or with a dash: a word in camel case turns to snake case; a dash stays only where it joins
two definitions' names, and is an underscore before or after a plain word. Types keep their capitals. A lemma that would fall together with another name gets `_lem`,
a definition `_of`. Names of src/, exported names, strings, inputs and outputs stay; so do the goals' names of a function's proof, which the checker makes.
"""
import collections
import glob
import os
import re
import sys

DRY = "--dry" in sys.argv
FILES = sorted(f for p in ("specs/**/*.antt", "proofs/**/*.antt", "src/**/*.rt", "must-fail/*.edit") for f in glob.glob("crates/*/" + p, recursive=True))
TEXT = {f: open(f, encoding="utf8").read() for f in FILES}
TOKEN = re.compile(r"[^\W\d][\w'′₀-₉-]*")
HEAD = re.compile(r"^( *)((?:(?:abbrev|unfoldable|pub) +)*)((?:record|data) +(?:pub +)?)?([^\s(){}\[\],;:.|=]+)((?: *(?:\([^()]*\)|\{[^{}]*\}))*) *: (.*)")
# aliases and parameters of specs/ that no declaration names
FURTHER = dict(l.split() for l in """
optF64 opt_f64
optUsize opt_usize
optU64 opt_u64
optI64 opt_i64
rowDominates row_dominates
forRoom for_room
forPool for_pool
forLines for_lines
forCandidates for_candidates
fromLines from_lines
fromDistances from_distances
open-lines lines_open
unitsOf unit_count
toWord to_word
noLine without_line
passedOver is_passed_over
""".split("\n") if l)
STD = {"length", "get_or", "take", "drop", "map", "set", "reverse", "replicate", "append", "sum", "filter", "all", "max", "min", "sym", "not", "cond", "eqb", "leb", "ltb"}


def snake(w):
    if not w or not (w[0].islower() or w[0] == "_"):
        return w
    return re.sub(r"(?<=[a-z0-9'])([A-Z])", lambda m: "_" + m.group(1).lower(), re.sub(r"([A-Z])(?=[A-Z][a-z])|(?<=[a-z])([A-Z]+)(?=$|[^A-Za-z])", lambda m: m.group(0), w)) if re.search("[A-Z]", w) else w


def lowered(w):
    s = snake(w)
    return s.lower() if s and s[0].islower() else s


# what is declared, and whether it is a lemma: a lemma's type does not end in a type of data
declared = collections.defaultdict(list)
goals = set()
for f in FILES:
    if not f.endswith(".antt"):
        continue
    for line in TEXT[f].splitlines():
        m = HEAD.match(line)
        if not m or line.strip().startswith(("--", "use ", "|", "open ")):
            continue
        name, typ = m.group(4), m.group(6)
        if f.endswith("/Proof.antt") and (typ.startswith("tie.") or name in ("close",)):
            goals.add((f, name))
            continue
        declared[name].append((f, bool(m.group(3)) or "abbrev" in m.group(2) or "unfoldable" in m.group(2), m.group(1)))
definitions = {lowered(n) for n, ds in declared.items() if "-" not in n and any("/specs/" in d[0] or d[1] for d in ds)} | STD


def new_name(n):
    parts = n.split("-")
    if n in FURTHER or any("/specs/" in f for f, _, _ in declared[n]):
        return FURTHER.get(n) or "_".join(lowered(p) for p in parts)
    out = lowered(parts[0])
    for i, p in enumerate(parts[1:], 1):
        q = lowered(p)
        left = re.split("-", out)[-1]
        rest = "_".join(lowered(x) for x in parts[i:])
        both = left in definitions and (q in definitions or rest in definitions)
        out += ("-" if both else "_") + q
    return out


# what is imported from the kit keeps its spelling, and so does a name of the repository's own that equals it
own = {f.split("/")[1] for f in FILES}
kits = set()
for f, t in TEXT.items():
    for m in re.finditer(r"\buse +([^\s{;]+?)\.\{([^}]*)\}", t):
        path = m.group(1).split(".")
        if not (path[0] == "Rattle" and len(path) > 1 and path[1] in own):
            kits |= {w for it in m.group(2).split(",") for w in it.split()}

for n in FURTHER:
    declared[n] = declared.get(n, [])
changed = {}
for n in declared:
    if n in kits:
        continue
    if n[0].isupper() and "-" not in n:
        continue
    w = new_name(n)
    if w != n:
        changed[n] = w



def names_in(f, t):
    """The names that a file's terms can mean: not the parts of a path or a projection, and of a source file what a clause can mean."""
    t = re.sub(r"(?m)(^|\s)(--|//).*$", "", t)
    found = {m.group(0) for m in TOKEN.finditer(t) if t[max(0, m.start() - 1):m.start()] not in (".", ":") or t[max(0, m.start() - 2):m.start()] == ".."}
    if f.endswith((".rt", ".edit")):
        bound = set(re.findall(r"(\w+): ", t)) | set(re.findall(r"\((\w+) :", t)) | set(re.findall(r"λ (\w+)\.", t))
        return {w for w in found if w in declared} | bound
    return found


tokens = {f: names_in(f, t) for f, t in TEXT.items()}


def is_def(n):
    return any("/specs/" in f or k for f, k, _ in declared[n]) and "-" not in n


def clashes(n, w):
    """Files in which n stands and w would meet another name."""
    out = []
    for f, s in tokens.items():
        if n not in s:
            continue
        if w in s and w not in changed:
            out.append((f, w))
        for o in s:
            if o != n and changed.get(o) == w:
                out.append((f, o))
    return out


by_new = collections.defaultdict(list)
for n, w in changed.items():
    by_new[w].append(n)
log = []
for n in sorted(changed, key=lambda x: (is_def(x), x)):
    w = changed[n]
    c = clashes(n, w)
    if not c and "-" in n and (len(by_new[w]) > 1 or w in declared):
        c = [("elsewhere", w)]
    if c and n not in FURTHER:
        other = w + ("_of" if is_def(n) else "_lem")
        log.append((n, w, other, c[:3]))
        changed[n] = other
again = [(n, w, clashes(n, w)[:2]) for n, w in changed.items() if clashes(n, w)]
modules = collections.defaultdict(lambda: collections.defaultdict(set))
for n, ds in declared.items():
    for f, _, _ in ds:
        modules[f][changed.get(n, n)].add(n)
together = [(f, w, s) for f, ws in modules.items() for w, s in ws.items() if len(s) > 1]
if DRY:
    print(len(changed), "names change")
    print("moved aside:", len(log))
    for l in log:
        print("  ", l)
    print("still falling together:", again, together)
    raise SystemExit


def turned(text, is_rt):
    return TOKEN.sub(lambda m: m.group(0) if text[max(0, m.start() - 4):m.start()] == "tie." else changed.get(m.group(0), m.group(0)), text)


def split_rt(text):
    """Strings of a source file stay as they are."""
    out, at = [], 0
    for m in re.finditer(r'b?"(?:[^"\\]|\\.)*"', text):
        out += [turned(text[at:m.start()], True), m.group(0)]
        at = m.end()
    return "".join(out + [turned(text[at:], True)])


for f in FILES:
    t = TEXT[f]
    new = split_rt(t) if f.endswith(".rt") else turned(t, False)
    if new != t:
        open(f, "w", encoding="utf8").write(new)
with open("tools/respelled.tsv", "w", encoding="utf8") as out:
    for n in sorted(changed):
        out.write(f"{n}\t{changed[n]}\n")
print(len(changed), "names respelled; tools/respelled.tsv has them")
