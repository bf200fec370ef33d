#!/usr/bin/env python3
"""Counts, in the sources of a checkout, the places at which docs/DESIGN-PASS.md looked.

usage: tools/places.py [-v] [CHECKOUT]      (-v lists them)
"""
import collections
import glob
import os
import re
import sys

args = [a for a in sys.argv[1:] if a != "-v"]
verbose = "-v" in sys.argv
top = args[0] if args else os.path.join(os.path.dirname(__file__), "..")
files = sorted(glob.glob(os.path.join(top, "crates/*/src/*.rt")))


def name(f):
    return f.split("crates/")[1].replace("/src", "")


def show(title, found):
    print(f"{title}: {len(found)}")
    if verbose:
        for x in found:
            print("   ", x)


def grep(pattern):
    found = []
    for f in files:
        for n, line in enumerate(open(f), 1):
            if re.search(pattern, line):
                found.append(f"{name(f)}:{n}: {line.strip()}")
    return found


def functions():
    """(file, name, parameters, clauses) of each function with a signature of its own."""
    for f in files:
        text = open(f).read()
        for m in re.finditer(r"^ *(?:pub(?:\(crate\))? )?fn (\w+)(<.*?>)?\(", text, re.M):
            depth, i = 1, m.end()
            while depth:
                depth += {"(": 1, ")": -1}.get(text[i], 0)
                i += 1
            params = [p.strip() for p in re.split(r",\s*(?![^<\[(]*[>\])])", text[m.end() : i - 1]) if p.strip()]
            clauses = []
            for line in text[i:].split("\n")[1:]:
                c = re.match(r"\s*(requires|ensures)( \w+)? (\{.*\});?$", line)
                if c:
                    clauses.append((c[1], c[3]))
                elif re.match(r"\s*(where|\)|->)", line):
                    continue
                else:
                    break
            yield name(f), m[1], params, clauses


show("1a enums of our own", grep(r"^(pub(\(crate\))? )?enum "))
show("1b answers and fields that are a bool", grep(r"(-> bool|: bool\b)"))
show("1c kinds as a number (mark: u8)", grep(r"\bmark: u8\b"))
show("1d errors handed on by hand", grep(r"Err\(\w+\) => (return )?(Ok\()?Err\("))
show("3a loops over a range", grep(r"^\s*for \S+ in .*\.\."))
show("3b while loops", grep(r"^\s*while "))
show("3c elements by a counted index", grep(r"\b\w+\[[^\]]*\b[ijkr]\b[^\]]*\]"))
show("4a conversions, equalities and texts as plain functions", grep(r"fn (same|of|of_mask|cause_of|refusal|refused|or_default|or_black|default_ground|number|code|decode|\w+_text|\w+_name|sentence|told|summary|kind|counts|is_beside)\b"))
show("4b texts made by format!", grep(r"format!\("))

clauses = collections.defaultdict(set)
groups = collections.defaultdict(set)
for f, fn, params, cs in functions():
    for kind, c in cs:
        clauses[(kind, c)].add(f"{f} {fn}")
    ps = sorted(p for p in params if "self" not in p)
    for i in range(len(ps)):
        for j in range(i + 1, len(ps)):
            for k in range(j + 1, len(ps)):
                groups[(ps[i], ps[j], ps[k])].add(f"{f} {fn}")
many = sorted((k for k, v in clauses.items() if len(v) >= 3), key=lambda k: -len(clauses[k]))
show("5a clauses that stand in three or more functions", [f"{len(clauses[k])} times: {k[0]} {k[1][:150]}" for k in many])
shared = sorted((k for k, v in groups.items() if len(v) >= 3), key=lambda k: -len(groups[k]))
show("5b triples of parameters that stand in three or more functions", [f"{len(groups[k])} times: {', '.join(k)}" for k in shared])
show("6 arrays of fixed length, and lengths beside a buffer", grep(r"^\s*(pub(\(crate\))? )?(\w+: \[\w+; \w+\],|len: usize,)|\[\w+; \d+\]"))
show("7 matches on a step, a turn, an axis, a mask, a ground, an aim or a form", grep(r"match (self\.)?(step|turn|axis|mask|fill|form|aim\(.*|named|default_ground\(\)|cut\(.*)\b.*\{"))

answers = lines = 0
for f in glob.glob(os.path.join(top, "crates/*/proofs/**/*.antt"), recursive=True):
    t = open(f).read()
    lines += t.count("\n")
    if f.endswith("Answers.antt"):
        answers += len(re.findall(r"^pub \S+ : goal\.", t, re.M))
lemmas = 0
for f in glob.glob(os.path.join(top, "crates/*/proofs/*.antt")) + glob.glob(os.path.join(top, "crates/*/specs/*.antt")):
    lemmas += len(re.findall(r"^ *(pub )?[\w'’◌-]+ : .*→", open(f).read(), re.M))
print(f"8 answers: {answers}; lines of proofs: {lines}")
