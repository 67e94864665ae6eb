#!/usr/bin/env python3
"""Brings the names that specs/ and proofs/ declare to one spelling: types in camel case, all else in snake case.

usage: python3 tools/respell.py          rewrites the files of crates/ in place; run once, right after port.py
       python3 tools/respell.py --list   only prints old and new names

Functions of src/, names that the check makes and names of libraries keep their spelling.
"""
import os
import re
import sys

ROOT = os.path.join(os.path.dirname(os.path.abspath(__file__)), "..", "crates")
WORD = r"[A-Za-z_²³ℤℕ≤≡<'0-9⊎]+(?:-[A-Za-z_²³ℤℕ≤≡<'0-9⊎]+)+"
TOKEN = re.compile(r"(?<![\w'·.-])(" + WORD + r")(?![\w'·-])|(?<=\.)(" + WORD + r")(?![\w'·-])")
NAME = r"[^\s:(){}\[\],.;=→λ]+"
SIGNATURE = re.compile(r"^\s*(?:(?:abbrev|unfoldable|pub|mutual)\s+)*(" + NAME + r"(?:\s+" + NAME + r")*)\s*:\s")
HEAD = re.compile(r"^\s*(?:pub\s+)?(?:record|data|module)\s+(" + NAME + r")")
BINDER = re.compile(r"[({]\s*(" + NAME + r"(?:\s+" + NAME + r")*)\s*:\s")
LET = re.compile(r"\blet\s+(" + NAME + r")\s*(?:=|:)")
LAMBDA = re.compile(r"λ\s+((?:" + NAME + r"\s*)+)\.")
IMPORT = re.compile(r"use\s+([\w.+'-]+)\.\{([^}]*)\}")
GOAL = re.compile(r":\s*goal\.")


def files(*ends):
    for folder, dirs, names in os.walk(ROOT):
        dirs[:] = sorted(d for d in dirs if d not in ("out", "data"))
        for n in sorted(names):
            if n.endswith(ends):
                yield os.path.join(folder, n)


def own(path, crates):
    parts = path.split(".")
    return parts[0] == "Rattle" and parts[1] in crates


def declared():
    crates = set(os.listdir(ROOT))
    mine, theirs, goals = set(), set(), set()
    for p in files(".antt", ".rt"):
        for m in IMPORT.finditer(open(p, encoding="utf-8").read()):
            if not own(m.group(1), crates):
                theirs |= {w.split(" as ")[0].strip() for w in m.group(2).split(",")}
    for p in files(".antt"):
        for line in open(p, encoding="utf-8"):
            line = line.split("--")[0] if line.lstrip().startswith("--") else line
            s = SIGNATURE.match(line)
            if s:
                for w in s.group(1).split():
                    (goals if GOAL.search(line) else mine).add(w)
            for r in (HEAD, LET):
                mine |= {m.group(1) for m in r.finditer(line)}
            for r in (BINDER, LAMBDA):
                for m in r.finditer(line):
                    mine |= set(m.group(1).split())
    mine = {w for w in mine if re.fullmatch(WORD, w)}
    return mine, theirs, goals


# facts, and so types, although they began with a small letter
FACTS = {"exact-reads", "solids-check", "joints-check", "nodes-check", "order-check", "unused-check", "header-check"}


def spelled(w):
    parts = w.split("-")
    if w in FACTS:
        parts[0] = parts[0].capitalize()
    if parts[0][:1].isupper() and len(parts[0]) > 1:
        return "".join(x[:1].upper() + x[1:] for x in parts)
    return "_".join(parts)


def turn(text, names, comment):
    out = []
    for line in text.split("\n"):
        body, tail = line, ""
        at = line.find(comment)
        if at >= 0:
            body, tail = line[:at], line[at:]
        put = lambda m: names.get(m.group(1) or m.group(2), m.group(0))
        body = TOKEN.sub(put, body)
        tail = re.sub(r"`[^`]*`", lambda q: TOKEN.sub(put, q.group(0)), tail)
        out.append(body + tail)
    return "\n".join(out)


def main():
    mine, theirs, goals = declared()
    names = {w: spelled(w) for w in sorted(mine - theirs - goals)}
    if "--list" in sys.argv:
        for w, n in names.items():
            print(w, n)
        print("kept, since a library has it:", sorted(mine & theirs))
        print("kept, since the check makes it:", sorted(mine & goals))
        return
    for p in files(".antt", ".rt"):
        old = open(p, encoding="utf-8").read()
        new = turn(old, names, "--" if p.endswith(".antt") else "//")
        if new != old:
            open(p, "w", encoding="utf-8").write(new)


main()
