#!/usr/bin/env python3
"""Respells this repository's own definitions and lemmas in snake case.

usage: python3 tools/respell.py [--list]      at the top of the repository, once, after port.py

A name is the repository's own if a file of specs/ or proofs/ declares it (the text before ' :' at the start of a line). `row-at` and
`rowAt` become `row_at`; where both stand, the definition (camel case) takes that name and the lemma `row_at_law`. Names in .antt files,
in ghost lines, clauses and comments of .rt files, in must-fail edits and, in backquotes, in README.md and docs/*.md are rewritten; words
of Rust, strings, inputs and outputs are not. With --list it prints the names and writes nothing.
"""
import collections
import os
import re
import sys

WORD = re.compile(r"(?<![^\s(){}\[\].,;:`«»@'\"])[^\s(){}\[\].,;:`«»@\"]+")
DECLARED = re.compile(r"\s*(?:(?:pub|abbrev|unfoldable)\s+)*((?:[^\s(){}.,;:=]+ )*?[^\s(){}.,;:=]+)(?: \{[^}]*\})?\s+:(?:\s|$)")
PROOFS = ("Proof.antt", "Invariants.antt", "Answers.antt")


USE = re.compile(r"(?m)^[ \t]*(?:ghost )?(?:pub )?use ([^\s{;]+?)\.?(?:\{([^}]*)\})?;?[ \t]*$")


def kit_names(text, own):
    """What a file imports from a library that is not one of the repository's crates: its names stay."""
    found = set()
    for m in USE.finditer(text):
        path = m.group(1).split(".")
        if path[0] == "Rattle" and path[1] in own:
            continue
        found.update(w.split(" as ")[0].strip() for w in (m.group(2) or path[-1]).split(","))
    return found


def snake(name):
    name = re.sub(r"(?<=[a-z0-9'])[A-Z]", lambda m: "_" + m.group(0).lower(), name.replace("\u2032", "'"))
    return re.sub(r"(?<=[A-Za-z0-9'])-(?=[A-Za-z0-9])", "_", name)


def files(root, *endings):
    for folder, dirs, names in os.walk(root):
        dirs[:] = sorted(d for d in dirs if d not in ("out", ".git", "target"))
        for name in sorted(names):
            if name.endswith(endings):
                yield os.path.join(folder, name)


def read(path):
    with open(path, encoding="utf-8") as f:
        return f.read()


def declared(root):
    """Each declared name, with the files that declare it."""
    found = collections.defaultdict(set)
    for path in files(root, ".antt"):
        if os.path.basename(path) in PROOFS:
            continue
        for line in read(path).split("\n"):
            m = DECLARED.match(line)
            if m and not line.lstrip().startswith("--"):
                words = m.group(1).split()
                if words[0] in ("let", "use", "open", "module", "λ", "→", "record", "data"):
                    continue
                for word in words:
                    found[word].add(path)
    return found


def mapping(root):
    names = declared(root)
    plain = {n for n in names if re.fullmatch(r"[a-z][A-Za-z0-9'\u2032]*(-[A-Za-z0-9'\u2032]+)*", n)}
    to = {}
    for n in sorted(plain):
        if snake(n) != n:
            to[n] = snake(n)
    taken = collections.defaultdict(set)
    for n in names:
        taken[to.get(n, n)].add(n)
    for new, olds in taken.items():
        if len(olds) > 1:
            for n in olds:
                if "-" in n:
                    to[n] = new + "_law"
    return to


def respell(text, to, names=()):
    """With names, also a word that port.py has respelled in .antt files."""

    def word(m):
        old = m.group(0)
        new = to.get(old, old)
        return snake(old) if new == old and names and old not in names and snake(old) in names else new

    return WORD.sub(word, text)


def clauses(text, to, names):
    """Of a .rt file: ghost lines, what stands in the braces of clauses, and names in backquotes of comments."""
    out, at = [], 0
    head = re.compile(r"(?m)^[ \t]*ghost use [^;]*;|^[ \t]*(?:requires|ensures)\*?[^{\n]*\{|^[ \t]*ghost [^\n]*\{|//[^\n]*")
    while True:
        m = head.search(text, at)
        if not m:
            break
        out.append(text[at:m.start()])
        piece = m.group(0)
        end = m.end()
        if piece.startswith("//"):
            piece = ticks(piece, to, names)
        elif piece.endswith("{"):
            deep = 1
            while deep:
                deep += (text[end] == "{") - (text[end] == "}")
                end += 1
            piece = piece + respell(text[m.end() : end], to)
        else:
            piece = respell(piece, to)
        out.append(piece)
        at = end
    return "".join(out) + text[at:]


def ticks(text, to, names):
    return re.sub(r"`[^`\n]*`", lambda m: respell(m.group(0), to, names), text)


def main(argv):
    root = "crates"
    to = mapping(root)
    names = set(declared(root))
    own = set(os.listdir(root))
    if argv == ["--list"]:
        print("\n".join(f"{a} {b}" for a, b in sorted(to.items())))
        return 0
    for path in files(root, ".antt", ".rt", ".edit"):
        old = read(path)
        kit = kit_names(old, own)
        mine = {a: b for a, b in to.items() if a not in kit}
        if path.endswith(".rt"):
            new = clauses(old, mine, names)
        else:
            new = respell(old, mine, names if path.endswith(".edit") else ())
        if new != old:
            with open(path, "w", encoding="utf-8") as f:
                f.write(new)
    pages = ["README.md"] + [os.path.join("docs", n) for n in os.listdir("docs") if n.endswith(".md")]
    for path in pages:
        old = read(path)
        new = ticks(old, to, names)
        if new != old:
            with open(path, "w", encoding="utf-8") as f:
                f.write(new)
    print(f"{len(to)} names")
    return 0


if __name__ == "__main__":
    sys.exit(main(sys.argv[1:]))
