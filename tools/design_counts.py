#!/usr/bin/env python3
"""Counts the places of each point of docs/DESIGN-PASS.md in a tree's crates/*/src (point 8: in proofs/).

usage: tools/design_counts.py [--list POINT] [COMMIT]

Without a commit the working tree is counted. --list prints each place of a point as crate, file and name.
The counts go by form: a place that is counted isn't wrong, and docs/DESIGN-PASS.md says which stay and why.
"""

import re
import subprocess
import sys
from pathlib import Path

ROOT = Path(__file__).resolve().parent.parent
LISTS = {"counts", "mins", "maxs", "optional", "levels", "preferences", "rows", "set_levels", "masks"}
TYPES = {"u8", "u16", "u32", "u64", "usize"}


def texts(commit):
    """The files below crates/ that are counted, by path."""
    if commit is None:
        for file in sorted(ROOT.glob("crates/*/src/**/*.rt")) + sorted(ROOT.glob("crates/*/proofs/**/*.antt")):
            yield str(file.relative_to(ROOT)), file.read_text()
        return
    names = subprocess.run(["git", "-C", ROOT, "ls-tree", "-r", "--name-only", commit, "crates"], capture_output=True,
                           text=True, check=True).stdout.split()
    for name in names:
        if re.fullmatch(r"crates/\w+/(src/.*\.rt|proofs/.*\.antt)", name):
            yield name, subprocess.run(["git", "-C", ROOT, "show", f"{commit}:{name}"], capture_output=True, text=True,
                                       check=True).stdout


def closing(text, at):
    """The place after the bracket that closes the one just before `at`."""
    depth = 1
    while depth and at < len(text):
        depth += (text[at] in "([{") - (text[at] in ")]}")
        at += 1
    return at


def split(text):
    """A list's parts between the commas of its own depth."""
    parts, depth, part = [], 0, ""
    for letter in text:
        depth += (letter in "([{<") - (letter in ")]}>")
        if letter == "," and depth == 0:
            parts.append(part)
            part = ""
        else:
            part += letter
    return [part.strip() for part in parts + [part] if part.strip()]


def functions(text):
    """Each function: its name, its parameters, its body without contracts."""
    for found in re.finditer(r"\bfn (\w+)(?:<[^(]*>)?\(", text):
        end = closing(text, found.end())
        parameters = split(text[found.end():end - 1])
        at = end
        while at < len(text) and text[at] not in "{;":
            at += 1
        if at == len(text) or text[at] == ";":
            continue
        # Contracts come before the body, each in braces after a word.
        while re.search(r"(requires|ensures|ghost)\s*\w*\s*(:\s*)?$", text[end:at].split("}")[-1]):
            at = closing(text, at + 1)
            while at < len(text) and text[at] != "{":
                at += 1
        yield found.group(1), parameters, text[at:closing(text, at + 1)]


def shape(body):
    """A body with its names, numbers and types left out, so that twins are equal."""
    body = re.sub(r"//.*", "", body)
    seen = {}
    def name(found):
        word = found.group(0)
        if word in TYPES or re.fullmatch(r"[0-9][\w]*", word):
            return "#"
        if word in {"let", "mut", "if", "else", "for", "in", "while", "return", "match", "as", "true", "false", "loop"}:
            return word
        return seen.setdefault(word, f"v{len(seen)}")
    return re.sub(r"\s+", " ", re.sub(r"\w+", name, body))


def places(files):
    """The places of each point."""
    found = {point: [] for point in range(1, 9)}
    twins = {}
    for path, text in files:
        crate = path.split("/")[1]
        if "/proofs/" in path:
            if path.endswith("Answers.antt"):
                found[8] += [(crate, path, name) for name in re.findall(r"^pub ([\w-]+) : goal\.", text, re.M)]
            continue
        code = re.sub(r"//.*", "", text)
        for enum in re.finditer(r"\benum (\w+)[^{]*\{", code):
            variants = split(code[enum.end():closing(code, enum.end()) - 1])
            bare = [v for v in variants if not re.search(r"[({]", v)]
            refuses = any(re.match(r"Refused\b", v) for v in variants)
            if refuses or (len(variants) == 2 and len(bare) == 1):
                found[1].append((crate, path, enum.group(1)))
        for loop in re.finditer(r"^\s*(?:'\w+: )?(?:while|loop)\b.*", code, re.M):
            found[3].append((crate, path, loop.group(0).strip()))
        for arm in re.finditer(r"=> (?:true|false),", code):
            found[4].append((crate, path, arm.group(0)))
        for name, parameters, body in functions(code):
            names = {p.split(":")[0].strip() for p in parameters}
            if re.fullmatch(r"wide\w*|less(_u\d+)?|larger|smaller|number|of|one_if\w*", name):
                found[4].append((crate, path, name))
            if len(names & LISTS) >= 3:
                found[5].append((crate, path, name))
            slices = [p for p in parameters if re.search(r"&(?:'\w+ )?(?:mut )?\[", p)]
            if slices and any(re.match(r"(count|listed|size|known|kept|entries|n): usize$", p) for p in parameters):
                found[6].append((crate, path, name))
            if any(re.search(r": bool$", p) for p in parameters):
                found[7].append((crate, path, name))
            if len(body) > 120:
                twins.setdefault((shape(body)), []).append((crate, path, name))
    for same in twins.values():
        if len(same) > 1:
            found[2] += same
    return found


def main():
    words = sys.argv[1:]
    listed = int(words.pop(words.index("--list") + 1)) if "--list" in words else None
    words = [word for word in words if word != "--list"]
    found = places(texts(words[0] if words else None))
    if listed is not None:
        for crate, path, name in found[listed]:
            print(crate, path, name)
        return
    for point, rows in found.items():
        print(f"point {point}: {len(rows)} in {len({row[0] for row in rows})} crates")


main()
