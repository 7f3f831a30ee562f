#!/usr/bin/env python3
"""Brings the definitions and lemmas of crates/ to Rattle's spelling: everything that is neither a type nor a module in snake case, a dash only
where it joins two names, `_lem` after a lemma that would else have its function's name. Run once, at the top, after the kit's port.py.

usage: tools/respell.py [--list]      --list prints old and new names and changes nothing

Functions, fields and constants of src/, exported names, strings, inputs and outputs keep their names; so do the names that Rattle makes
(goals, steps), which a proof cites behind a point, and the library's.
"""

import glob
import os
import re
import sys
import collections

ID = r"[A-Za-z_][A-Za-z0-9_'?₀₁₂₃≡]*(?:-[A-Za-z0-9_'?₀₁₂₃]+)*"
TOKEN = re.compile(r"(?<![A-Za-z0-9_'?₀₁₂₃≡◌-])" + ID)
KINDS = re.compile(r"^\s*(?:(?:pub|abbrev|unfoldable|private|syntax)\s+)*(" + ID + r"(?: " + ID + r")*) : ")
NOT_A_NAME = {"let", "in", "use", "where", "module", "open", "elim", "data", "record"}


def files(pattern):
    return sorted(glob.glob("crates/" + pattern, recursive=True))


def read(path):
    with open(path, encoding="utf-8") as f:
        return f.read()


def of_function(path):
    """Whether a proof file answers a function's goals."""
    return os.path.basename(path) in ("Proof.antt", "Answers.antt", "Invariants.antt")


def declared():
    """The names that the repository's .antt files declare: name -> files; fields and constructors; the library's names; answers of goals."""
    names, members, library, answers = collections.defaultdict(set), set(), set(), set()
    for path in files("*/specs/**/*.antt") + files("*/proofs/**/*.antt"):
        text = read(path)
        for m in re.finditer(r"^(?:pub )?use ([^\n{]*?)\.\{([^}]*)\}", text, re.M):
            if not re.match(r"Rattle\.(?!std\b)", m.group(1)):
                library |= {x.strip().split(" as ")[0] for x in m.group(2).split(",")}
        for m in re.finditer(r"^\s*(?:pub )?(" + ID + r") : (?:tie\.|goal\.|\{M : Type 1\})", text, re.M):
            answers.add(m.group(1))
        inside = None
        for line in text.split("\n"):
            if line.lstrip().startswith("--"):
                continue
            head = re.match(r"^(\s*)(?:pub )?(data|record) (" + ID + ")", line)
            if head:
                inside = len(head.group(1))
                continue
            if inside is not None and line.strip() and len(line) - len(line.lstrip()) <= inside:
                inside = None
            m = KINDS.match(line)
            if m and not re.match(r"^\s*(let|use|pub use|module|elim)\b", line):
                for n in m.group(1).split():
                    if n not in NOT_A_NAME:
                        names[n].add(path)
                        if inside is not None:
                            members.add(n)
    return names, members, library, answers


def snake(word):
    word = re.sub(r"([a-z0-9'])([A-Z])", lambda m: m.group(1) + "_" + m.group(2).lower(), word)
    return re.sub(r"([A-Z]+)([A-Z][a-z])", lambda m: m.group(1).lower() + "_" + m.group(2).lower(), word)


# definitions whose new name a lemma had: the lemma gives way; and a field of src/ that a definition is named for, which stands behind a point
CHOSEN = {
    "goneWith": "gone_with",
    "gone_with": "gone_with_lem",
    "readBack": "read_back",
    "read_back": "read_back_lem",
    "usesGateway": "uses_gateway",
}


def mapping():
    names, members, library, answers = declared()
    plain = {snake(n) for n in names if "-" not in n} | {n for n in library if "-" not in n}
    out = {}
    for n in sorted(names):
        if not re.match(r"[a-z_]", n) or n in library or not (re.search("[A-Z]", n) or "-" in n):
            continue
        if n in answers and all(of_function(p) for p in names[n]):
            continue
        parts = [snake(p) for p in n.split("-")]
        new, last = parts[0], parts[0]
        for p in parts[1:]:
            if last in plain and p in plain:
                new, last = new + "-" + p, p
            else:
                new, last = new + "_" + p, last + "_" + p
        out[n] = new
    # names that fall together: kept apart only where a file has both
    tokens = {}
    for p in files("*/specs/**/*.antt") + files("*/proofs/**/*.antt"):
        text = re.sub(r"^\s*--.*$", "", read(p), flags=re.M)
        text = re.sub(r"^(\s*(?:pub )?use )[^\n{]*", r"\1", text, flags=re.M)
        tokens[p] = {m.group(0) for m in TOKEN.finditer(text) if text[m.start() - 1 : m.start()] != "."}
    where = collections.defaultdict(set)
    for p, found in tokens.items():
        for t in found:
            where[t].add(p)
    by_new = collections.defaultdict(list)
    for n, t in out.items():
        by_new[t].append(n)
    for t, olds in sorted(by_new.items()):
        olds.sort(key=lambda n: ("-" in n, n))
        held = set(where[t]) if t not in out else set()
        for n in olds:
            new = t
            if held & where[n]:
                new = t + "_lem"
                print(f"together: {n} -> {new}, since {t} stands in {sorted(held & where[n])[0]}", file=sys.stderr)
            out[n] = new
            held = held | where[n]
    out.update(CHOSEN)
    return {a: b for a, b in out.items() if a != b}, members


def respelled(text, path, names, members):
    function = of_function(path) and "/proofs/" in path

    def new(m):
        word = m.group(0)
        before = text[m.start() - 1] if m.start() else "\n"
        if word not in names:
            return word
        if before == "." and function and word not in members:
            return word
        if before == "." and re.search(r"\b(tie|goal)\.$", text[: m.start()]):
            return word
        return names[word]

    if path.endswith(".rt"):
        # strings keep their text
        parts = re.split(r'("(?:[^"\\\n]|\\.)*")', text)
        done = ""
        for p in parts:
            if p.startswith('"'):
                done += p
            else:
                done += TOKEN.sub(lambda m: names.get(m.group(0), m.group(0)), p)
        return done
    return TOKEN.sub(new, text)


def main():
    names, members = mapping()
    if "--list" in sys.argv:
        for a, b in sorted(names.items()):
            print(a, b)
        return
    changed = 0
    for path in files("*/src/**/*.rt") + files("*/specs/**/*.antt") + files("*/proofs/**/*.antt") + files("*/must-fail/*.edit"):
        old = read(path)
        new = respelled(old, path, names, members)
        if new != old:
            with open(path, "w", encoding="utf-8") as f:
                f.write(new)
            changed += 1
    print(f"respell: {len(names)} names, {changed} files")


main()
