#!/usr/bin/env python3
"""Brings the repository's own definitions and lemmas to today's spelling: words in snake case, types in camel case.

usage: python3 tools/respell.py        at the top of the repository, once, right after the kit's own script

Functions of src/, exported names, strings, inputs and outputs keep their names. Names that would fall together in a file are printed, and nothing is written.
"""
import glob
import re
import sys

WORD = re.compile(r"[^\s(){};,.\[\]|:]+")
OWN = ("ieee", "double_double", "tables", "erfc", "bounds", "figures", "replay", "reprint", "bihumlad", "checks")
# names that the rules below would spell alike with another, or badly
BY_HAND = {
    "comparisonEnd": "compared_below",
    "accurate-argument": "accurate_argument_lem",
    "accurate-multiple": "accurate_multiple_lem",
    "accurate-row": "big_row",
    "in-float": "in_float_lem",
    "plain-product": "plain_product_lem",
    "scaled-down": "scaled_down_lem",
    "scaled-up": "scaled_up_lem",
    "step-up": "step_up_lem",
    "step_down": "step_down_lem",
    "sum-of": "sum_of_lem",
    "times_power": "times_power_lem",
    "under": "Under",
}


def wanted(name):
    return name in BY_HAND or "-" in name.strip("-") or re.match(r"[a-z]\w*[A-Z]", name)


def respelled(name):
    if name in BY_HAND:
        return BY_HAND[name]
    if name[0].isupper():
        return "".join(w[0].upper() + w[1:] for w in name.replace("-", "_").split("_") if w)
    name = name.replace("-", "_")
    return re.sub(r"(?<=[a-z0-9])_?([A-Z])", lambda m: "_" + m.group(1).lower(), name)


def code(text):
    """The text with comments blanked out, in the same places."""
    return re.sub(r"(?m)(^|(?<=\s))--.*$", lambda m: " " * len(m.group()), text)


def read(path):
    with open(path, encoding="utf-8") as f:
        return f.read()


def made(path):
    return path.endswith(("/Answers.antt", "/Invariants.antt", "/Proof.antt"))


proofs = [p for p in sorted(glob.glob("crates/*/specs/**/*.antt", recursive=True) + glob.glob("crates/*/proofs/**/*.antt", recursive=True)) if "/out/" not in p]
sources = [p for p in sorted(glob.glob("crates/*/src/**/*.rt", recursive=True))]
edits = sorted(glob.glob("crates/*/must-fail/*.edit"))

declared = set()
for p in proofs:
    for line in code(read(p)).split("\n"):
        m = re.match(r" *(?:abbrev pub |abbrev |unfoldable pub |unfoldable |pub )?(?:record |data |ruleset )?([^\s(){};,.]+) *(:|\(|\{|=)", line)
        if m and wanted(m.group(1)) and not (made(p) and re.search(r": *(goal|need|given)\.", line)):
            declared.add(m.group(1))
for p in sources:
    declared |= {n for n in re.findall(r"^\s*ghost (\w+):", read(p), re.M) if wanted(n)}
new = {n: respelled(n) for n in declared}

bad = []
by = {}
for n, m in new.items():
    by.setdefault(m, []).append(n)


def foreign(text):
    """The names that the file takes from elsewhere."""
    out = set()
    for m in re.finditer(r"use ([\w.+]+?)\.\{([^}]*)\}", text):
        if not (m.group(1).startswith("Rattle.") and m.group(1).split(".")[1] in OWN):
            for n in m.group(2).split(","):
                out |= set(n.strip().split(" as "))
    return out


def turned(text, path, keep=frozenset()):
    shown = code(text) if path.endswith(".antt") else text
    others = foreign(shown) | keep
    if "under" in set(WORD.findall(shown)) and not re.search(r"specs\.Val\.\{[^}]*\bunder\b|pub under", shown):
        others = others | {"under"}
    # a path of a module is no name of ours
    shown = re.sub(r"(?m)^((?:pub |ghost )?use )([\w.+-]+?)(?=\.\{|;| as |$)", lambda m: m.group(1) + " " * len(m.group(2)), shown)
    used = set(WORD.findall(shown))
    for n in sorted(used & set(new) - others):
        if new[n] in others or (new[n] in used and new[n] not in new):
            bad.append(f"{path}: {n} would be {new[n]}, which stands there")
        if len([o for o in by[new[n]] if o in used]) > 1:
            bad.append(f"{path}: {by[new[n]]} fall together")
    out, last = [], 0
    for m in WORD.finditer(shown):
        n = m.group()
        if n in new and n not in others:
            out += [text[last:m.start()], new[n]]
            last = m.end()
    return "".join(out) + text[last:]


def clauses(text):
    """The places of a source file that are clauses, ghost items or ghost imports."""
    for m in re.finditer(r"^ghost use .*?;$|^\s*(?:requires|ensures|ghost)\b[^{;\n]*\{", text, re.M):
        start, end = m.start(), m.end()
        if text[end - 1] == "{":
            depth = 1
            while depth:
                depth += {"{": 1, "}": -1}.get(text[end], 0)
                end += 1
        yield start, end


def source(text, path):
    out, last = [], 0
    for a, b in clauses(text):
        out += [text[last:a], turned(text[a:b], path)]
        last = b
    return "".join(out) + text[last:]


written = {}
for p in proofs:
    t = read(p)
    keep = frozenset(re.findall(r"(?:goal|need|given)\.([^\s(){};,]+)", t)) if made(p) else frozenset()
    written[p] = turned(t, p, keep)
for p in sources:
    written[p] = source(read(p), p)
for p in edits:
    t = read(p)
    # of an edit in src/, a clause alone has names of ours
    written[p] = turned(t, p) if t.startswith("file: specs/") or t.startswith("file: proofs/") else t
if bad:
    print("\n".join(sorted(set(bad))))
    if "--force" not in sys.argv:
        sys.exit(1)
n = 0
for p, t in written.items():
    if t != read(p):
        n += 1
        with open(p, "w", encoding="utf-8") as f:
            f.write(t)
print(f"{n} files, {len(new)} names")
