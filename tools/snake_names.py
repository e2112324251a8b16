#!/usr/bin/env python3
"""Brings the repository's own names in specs/ and proofs/ to today's spelling: definitions, lemmas, fields and
constructors in snake case. A dash stays only between two names, as in `length-sets`.

usage: tools/snake_names.py [--say] [FOLDER]

It goes over every .antt file of crates/ and, in .rt files, over names that are no Rust identifiers of theirs. Names that a
Proof.antt gives to its own goals stay, and so do functions of src/, exported C names, strings and file names.
--say prints the table and writes nothing.
"""
import os
import re
import sys

NAME = r"[^\s(){}.;,@\"«»\[\]\\◌]+"
TOKEN = re.compile(r"--[^\n]*|//[^\n]*|\"(?:[^\"\\\n]|\\.)*\"|«[^»]*»|" + NAME)
HEAD = re.compile(r"^(\s*)((?:pub |abbrev |unfoldable |opaque )*)(data |record )?(" + NAME + r")(?= [:{(])")
CAMEL = re.compile(r"[a-z][a-z0-9]*[A-Z]")
# Fields of records, which may have the name of a definition.
FIELDS = {"goes_on"}
KEYWORDS = {"use", "module", "where", "let", "in", "λ", "elim", "unfolding", "as", "record", "data", "pub", "abbrev", "if", "rw", "simp"}


def files(top):
    for folder, dirs, names in os.walk(os.path.join(top, "crates")):
        dirs[:] = sorted(d for d in dirs if d not in ("out", "target", ".git"))
        for name in sorted(names):
            if name.endswith((".antt", ".rt")):
                yield os.path.join(folder, name)


def snake(word):
    out = re.sub(r"(?<=[a-z0-9])([A-Z])(?=[a-z0-9₀₁₂'-]|$)", lambda m: "_" + m[1].lower(), word)
    return out


def defined(text):
    """Names that a file defines: heads of signatures, fields and constructors, at any indentation."""
    out = []
    for line in text.split("\n"):
        m = HEAD.match(line)
        if m and m[4] not in KEYWORDS and not m[4].startswith("--"):
            rest = line[m.end():]
            if rest.startswith(" :") or m[2] or m[3]:
                out.append((m[4], len(m[1]), bool(m[2] or m[3])))
    return out


def of_libraries(text):
    """Names that a file imports from a library, which keep their spelling there."""
    out = set()
    for m in re.finditer(r"^use (?!Rattle\.(?!std\.))[\w.]+\.\{(.*)\}", text, re.M):
        out |= {it.strip().split(" as ")[0] for it in m[1].split(",")}
    return out


def main(argv):
    say = "--say" in argv
    argv = [a for a in argv if a != "--say"]
    top = argv[0] if argv else "."
    texts = {}
    for p in files(top):
        with open(p, encoding="utf-8") as f:
            texts[p] = f.read()
    own, all_tokens, goals = {}, set(), {}
    for p, t in texts.items():
        for m in TOKEN.finditer(t):
            w = m[0]
            if not w.startswith(("--", "//", '"', "«")):
                all_tokens.add(w)
        if p.endswith(".antt"):
            for name, depth, marked in defined(t):
                if p.endswith("/Proof.antt"):
                    goals.setdefault(p, set()).add(name)
                else:
                    own.setdefault(name, set()).add(p)
    table = {}
    # 1. camel case: every such word of the .antt files is the repository's own
    for w in sorted(all_tokens):
        if CAMEL.match(w) and w[0].islower():
            table[w] = snake(w)
    names = {table.get(w, w) for w in own if "-" not in w} | {
        "length", "get_or", "take", "drop", "set", "sets", "replicate", "map", "sum", "count", "keep", "append", "reverse", "min", "max",
        "pow", "mod", "div", "add", "mul", "sub", "suc", "has", "bit_and", "bit_or", "bit_xor", "eqb", "leb", "ltb", "cond", "not", "elim", "zero"}
    # 2. dashes of lemmas, fields and constructors
    for w in sorted(own):
        if "-" not in w or w.startswith(("-", "+")) or w.endswith("-") or not re.match(r"[a-z]", w):
            continue
        parts = [snake(x) for x in w.split("-")]
        new = parts[0]
        for a, b in zip(parts, parts[1:]):
            # a dash stays where a name stands on each side of it
            left = new.split("-")[-1]
            new += ("-" if left in names and b in names else "_") + b
        if new != w:
            table[w] = new
    # 3. names that fall together in one file: a lemma of its function's name gets `_lem`, any other keeps its dash
    where = {}
    for p, t in texts.items():
        if p.endswith(".antt"):
            for m in TOKEN.finditer(t):
                if not m[0].startswith(("--", '"', "«")) and t[m.start() - 1] != "." and (m[0] in table or not p.endswith("/Proof.antt")):
                    where.setdefault(m[0], set()).add(p)
    taken, clash = {}, []
    for w in all_tokens:
        if w not in table and w in where:
            taken.setdefault(w, set()).update(where[w])
    for w in sorted(table, key=lambda w: ("-" in w, w)):
        n, mine = table[w], where.get(w, set())
        if taken.get(n, set()) & mine:
            if "-" in w:
                n = table[w] = snake(w)
            elif n in own and n not in table and n not in FIELDS:
                clash.append((w, n))
                table[n] = n + "_lem"
            else:
                clash.append((w, n, "beside a field or a function of that name"))
        taken.setdefault(n, set()).update(mine)
    table = {a: b for a, b in table.items() if a != b}
    if say:
        for a, b in table.items():
            print(f"{a}\t{b}")
        for c in clash:
            print("clash", *c)
        return 0
    changed = 0
    for p, t in texts.items():
        keep = goals.get(p, set()) | of_libraries(t)
        rust = p.endswith(".rt")
        out, at = [], 0
        for m in TOKEN.finditer(t):
            w = m[0]
            if w.startswith(("--", "//", '"')) or w not in table or w in keep:
                if w.startswith(("--", "//")):
                    w2 = re.sub(r"[a-z][a-z0-9]*(?:[A-Z][a-z0-9]*)+", lambda k: table.get(k[0], k[0]), w)
                    if w2 != w:
                        out += [t[at:m.start()], w2]
                        at = m.end()
                continue
            if rust and not CAMEL.match(w) and "-" not in w or t[m.start() - 1] == "." and t[m.end():m.end() + 1] == ".":
                # a function of src/, or a module in a path
                continue
            out += [t[at:m.start()], table[w]]
            at = m.end()
        out.append(t[at:])
        new = "".join(out)
        if new != t:
            changed += 1
            with open(p, "w", encoding="utf-8") as f:
                f.write(new)
    print(f"{len(table)} names, {changed} files")
    return 0


if __name__ == "__main__":
    raise SystemExit(main(sys.argv[1:]))
