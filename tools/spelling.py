#!/usr/bin/env python3
"""Spells this repository's own definitions and lemmas as today's Rattle does. Run once, at the top, after port.py.

A definition, field or constructor of specs/ goes in snake case, a type in camel case. In a lemma's name a dash joins
two names of definitions (has-less, the laws of has at less) and an underscore joins everything else (with_keeps).
Functions of src/, strings and the names of goals are left alone. Prints each name that it turned.
"""

import os
import re
import sys

NAME = r"[A-Za-z_ℕ][\w'ℕ-]*"
TOKEN = re.compile(r"(?<![\w'◌·-])" + NAME + r"(?![\w'-])")
HEAD = re.compile(r"^\s*(?:pub |abbrev pub |abbrev |unfoldable pub |unfoldable |pub record |record |pub data |data |let )?(" + NAME + r") (?::|\((?=[^()]*:)) ?(.*)")
LET = re.compile(r"\blet (" + NAME + r") [:=]|[(λ] ?\(?(" + NAME + r") :")
GOAL = re.compile(r"^(?:goal\.|G\.)")
# names of std that a lemma of ours may join by a dash
STD = {"length", "set", "take", "drop", "get_or", "append", "replicate", "zero", "and", "or", "xor", "pow", "ones", "map"}
# words that are names of definitions too, but mean the plain word in a lemma's name
PLAIN = {"at", "both", "keeps", "said", "told", "note", "noted", "table", "gap", "differs", "rules", "rows", "rest", "done", "before", "after", "past", "made", "content", "called", "granted", "run", "places", "given", "turn", "tale", "texts", "pieces", "positions", "further", "fresh", "cases", "total", "within", "with", "without", "lined", "faulted", "answered", "attended", "loaded", "outcome", "declared"}
# old names that follow a rule of their own
OWN = {"Cases-stand": "CasesStand", "has-with": "has-with", "has-without": "has-without", "has-declared": "has-declared"}


def files(root):
    for folder, dirs, names in os.walk(os.path.join(root, "crates")):
        dirs[:] = sorted(d for d in dirs if d != "out")
        for n in sorted(names):
            if n.endswith((".antt", ".rt")):
                yield os.path.join(folder, n)


def declared(text):
    for line in text.splitlines():
        m = HEAD.match(line)
        if m and not GOAL.match(m.group(2)) and "goal." not in m.group(2)[:8]:
            yield m.group(1)
        for m in LET.finditer(line):
            yield m.group(1) or m.group(2)


def lemma(name, known):
    parts = name.split("-")
    out, was_known = "", False
    while parts:
        for n in range(len(parts), 0, -1):
            word = "_".join("get_or" if p == "getD" else p for p in parts[:n])
            if word in known:
                break
        else:
            n, word = 1, "get_or" if parts[0] == "getD" else parts[0]
        here = word in known
        out += ("-" if was_known and here else "_" if out else "") + word
        was_known = here
        parts = parts[n:]
    return out


def main():
    root = sys.argv[1] if len(sys.argv) > 1 else "."
    texts = {}
    for p in files(root):
        with open(p, encoding="utf-8") as f:
            texts[p] = f.read()
    specs, other, goals = set(), set(), set()
    for p, t in texts.items():
        if not p.endswith(".antt"):
            continue
        goals.update(re.findall(r"goal\.(" + NAME + ")", t))
        (specs if "/specs/" in p else other).update(declared(t))
    used = {w for t in texts.values() for w in TOKEN.findall(t)}
    made = {n for p, t in texts.items() if "/specs/" in p for n in re.findall(r"^(?:abbrev|unfoldable) pub (" + NAME + ")", t, re.M)}
    known = {s.replace("-", "_") for s in made if not s[:1].isupper()} - PLAIN | STD
    table = dict(OWN)
    for s in specs:
        if "-" in s and s not in goals and s not in OWN:
            table[s] = s.replace("-", "_")
    for s in other - specs:
        if ("-" in s or "getD" in s) and s not in goals:
            new = lemma(s, known)
            table.setdefault(s, new)
    clash = [(a, b) for a, b in table.items() if b in used or sum(1 for x in table.values() if x == b) > 1]
    for a, b in sorted(clash):
        print(f"falls together: {a} -> {b}")
    for p, t in texts.items():
        out = []
        for line in t.split("\n"):
            if p.endswith(".rt"):
                # code keeps its text: only clauses, ghost items and ghost imports are respelled
                if not re.search(r"\b(ghost|ensures|requires)\b", line):
                    out.append(line)
                    continue
            out.append(TOKEN.sub(lambda m: table.get(m.group(0), m.group(0)), line))
        new = "\n".join(out)
        if new != t:
            with open(p, "w", encoding="utf-8") as f:
                f.write(new)
    for a, b in sorted(table.items()):
        if a != b:
            print(a, "->", b)


main()
