#!/usr/bin/env python3
"""Finds the places of a design pass in crates/*/src: for each point the lines that a reader has to judge.

usage: python3 tools/places.py [ROOT] [-v]      -v prints the lines, not only their number
"""

import collections
import glob
import os
import re
import sys

ARGS = [a for a in sys.argv[1:] if a != "-v"]
ROOT = ARGS[0] if ARGS else "."
SHOW = "-v" in sys.argv[1:]

# The points, each with the patterns that a line of code may match.
POINTS = [
    ("1 enums of the shape of Option or Result, flags with a value, refusals that are no Err, numbers for kinds", [
        r"^\s*(pub |pub\(crate\) )?enum ",
        r"-> Option<\w*Fault>",
        r"-> \((\w+, )*bool(, \w+)*\)",
        r"fn (cause|place|number|numbers)\(",
    ]),
    ("3 loops that count or step by hand", [
        r"^\s*while (?!let)",
        r"^\s*while let ",
        r"^\s*loop \{",
        r"^\s*for \w+ in [^{]*\.\.",
        r"^\s*for .* in ",
    ]),
    ("4 equality, order, conversion, printing by hand", [
        r"^impl.* (PartialEq|Eq|PartialOrd|Ord|Clone|From<.*>|TryFrom<.*>|fmt::Display) for ",
        r"Ordering::(Less|Equal|Greater) =>",
        r"^\s*(Some|Ok|Err)\((\w+)\) => (Some|Ok|Err)\(\*?\2\)",
        r"^\s*(None => None|None => Err\(|Err\(_\) => None|Some\(_\) => Ok\(\(\)\)|None => (true|false)|Some\(_\) => [01]|None => [01])",
        r"fn (same\w*|is_same|differs|less|at_most|comes_before|either)\b",
        r"fn (add_decimal|add_digits|digit_of|digit|escape_of)\b",
    ]),
    ("6 buffers with a length beside, parallel arrays, lists searched by hand", [
        r"^\s*(pub )?\w+: \[[^;\]]+; \w+\],",
        r"^\s*(pub )?len: usize,",
        r"-> \(\[.*usize\)",
        r"let mut (low|high|held|plain|table|rows|buffer)\b.* = \[",
        r"let mut (low|high|count|len|n|place|lacking|at|to|i|left)\b.*= ",
    ]),
    ("7 switches on which step to run, tables of functions", [
        r"match self\.stage|enum Stage|match kind|kind: &str",
        r"fn \w+\(.*fn\(",
    ]),
]


def code_files():
    return sorted(glob.glob(os.path.join(ROOT, "crates/*/src/**/*.rt"), recursive=True))


def point_lines(patterns):
    found = []
    for path in code_files():
        for number, line in enumerate(open(path, encoding="utf-8"), 1):
            if line.strip().startswith("//"):
                continue
            if any(re.search(p, line) for p in patterns):
                found.append((os.path.relpath(path, ROOT), number, line.rstrip()))
    return found


def functions(path):
    """(name, body of clauses, body) of each function of a file."""
    text = open(path, encoding="utf-8").read()
    for m in re.finditer(r"^( *)(?:pub(?:\(\w+\))? )?(?:final )?(?:const )?fn (\w+)", text, re.M):
        end = re.compile(r"^%s\}" % m.group(1), re.M).search(text, m.end())
        yield m.group(2), text[m.end():end.end() if end else len(text)]


def twins():
    """Functions of one name in several places, and functions whose bodies differ in words alone."""
    names, shapes = collections.defaultdict(list), collections.defaultdict(list)
    for path in code_files():
        for name, rest in functions(path):
            where = os.path.relpath(path, ROOT) + ":" + name
            names[name].append(where)
            body = rest[rest.find("\n    {") if "\n    {" in rest else rest.find("{"):]
            shape = re.sub(r"\"[^\"]*\"|b'.'|\b\w+\b", "_", re.sub(r"ensures.*|requires.*|//.*", "", rest))
            shape = re.sub(r"\s+", "", shape)
            if len(shape) > 40:
                shapes[shape].append(where)
    return ([w for w in names.values() if len(w) > 1], [w for w in shapes.values() if len(w) > 1])


def repeated_facts():
    """Facts that stand, word for word, in a requires of three or more functions."""
    facts = collections.defaultdict(set)
    for path in code_files():
        for name, rest in functions(path):
            for fact in re.findall(r"requires(?: \w+)? \{ (.*) \}", rest):
                facts[re.sub(r"\b(rows|self|text|store|session)\.(now|old)\b", "_", fact)].add(os.path.relpath(path, ROOT) + ":" + name)
    return {f: w for f, w in facts.items() if len(w) > 2}


def main():
    for title, patterns in POINTS:
        lines = point_lines(patterns)
        print(f"{title}: {len(lines)}")
        if SHOW:
            for path, number, line in lines:
                print(f"    {path}:{number}: {line.strip()}")
        if title.startswith("1 "):
            named, shaped = twins()
            print(f"2 functions of one name: {sum(map(len, named))} in {len(named)} groups; of one shape: {sum(map(len, shaped))} in {len(shaped)} groups")
            if SHOW:
                for group in named + [["-- of one shape"]] + shaped:
                    print("    " + ", ".join(group))
        if title.startswith("4 "):
            facts = repeated_facts()
            print(f"5 facts required by three or more functions: {len(facts)}, in {sum(map(len, facts.values()))} functions")
            if SHOW:
                for fact, where in sorted(facts.items()):
                    print(f"    {fact}: {', '.join(sorted(where))}")
    answers = glob.glob(os.path.join(ROOT, "crates/*/proofs/**/Answers.antt"), recursive=True)
    invariants = glob.glob(os.path.join(ROOT, "crates/*/proofs/**/Invariants.antt"), recursive=True)
    every = glob.glob(os.path.join(ROOT, "crates/*/proofs/**/*.antt"), recursive=True)
    count = sum(len(re.findall(r"^pub \S+ : goal\.", open(p, encoding="utf-8").read(), re.M)) for p in answers)
    size = sum(len(open(p, encoding="utf-8").readlines()) for p in every)
    print(f"8 proofs: {count} answers in {len(answers)} files, {len(invariants)} files of invariants, {size} lines in all")


main()
