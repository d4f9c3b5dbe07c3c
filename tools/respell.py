#!/usr/bin/env python3
"""Brings the names of this repository's definitions and lemmas to one spelling: words in snake case, types in camel case.

usage: python3 tools/respell.py [--list]      at the top of the repository

Every hyphenated name that specs/ or the lemmas of proofs/ write, and that they do not take from the library, becomes
`a_b` for `a-b` and `AnB` for `An-b` and `An_b`, there, in the answers and invariants of functions, and in the clauses of src/. Names that the
check makes for goals and steps are left: they keep their hyphens. Comments, strings, edits, inputs and outputs are left; in docs/
only names between backquotes are turned. With --list it writes nothing, prints the renamings, and names those that would fall together with another name.
"""

import os
import re
import sys

NAME = re.compile(r"(?<![\w'\u2019\u00b7\u25cc-])[A-Za-z\u03b1-\u03c9][\w'\u2080-\u2089]*(?:-[\w'\u2080-\u2089]+)+(?![\w'-])")
LIBRARY = re.compile(r"^\s*(?:pub )?(?:ghost )?use (?:Rattle\.std|native|mathlib|Prim|lib|denote)\b")
# a type that a script of the kit left half turned, where it is declared
HALF = re.compile(r"^\s*(?:abbrev |unfoldable )?(?:pub )?(?:record |data )?([A-Z][A-Za-z0-9]*(?:_[A-Za-z0-9]+)+)(?= .*:)")
WORD = re.compile(r"(?<![\w'-])[A-Z][A-Za-z0-9]*(?:_[A-Za-z0-9]+)+(?![\w'-])")


def files(root, suffix):
    for folder, dirs, names in os.walk(os.path.join(root, "crates")):
        dirs[:] = sorted(d for d in dirs if d != "out")
        for name in sorted(names):
            if name.endswith(suffix):
                yield os.path.join(folder, name)


def of_function(path):
    """Whether a file answers the goals of a function: it stands in a folder below proofs/."""
    parts = path.split(os.sep)
    return "proofs" in parts and parts.index("proofs") < len(parts) - 2


def parts_of(line, comment):
    """A line as (text, whether names in it may be turned): neither comments nor strings are."""
    out = []
    pieces = re.split(r'("(?:[^"\\]|\\.)*")', line)
    for k, piece in enumerate(pieces):
        if k % 2:
            out.append((piece, False))
            continue
        at = comment.search(piece)
        if at:
            out.append((piece[: at.start()], True))
            out.append((piece[at.start() :] + "".join(pieces[k + 1 :]), False))
            return out
        out.append((piece, True))
    return out


ANTT_COMMENT = re.compile(r"(?:^|(?<=\s))--(?=\s|$)")
RUST_COMMENT = re.compile(r"//")


def respelled(name):
    words = re.split("[-_]", name) if name[0].isupper() else name.split("-")
    if words[0][0].isupper():
        return words[0] + "".join(w[:1].upper() + w[1:] for w in words[1:])
    return "_".join(words)


def library_names(text):
    found = set()
    for line in text.splitlines():
        if LIBRARY.match(line):
            found |= set(NAME.findall(line))
    return found


def turned(text, comment, names, kept):
    def one(m):
        return respelled(m.group()) if m.group() in names and m.group() not in kept else m.group()

    out = []
    for line in text.split("\n"):
        if LIBRARY.match(line):
            out.append(line)
            continue
        out.append("".join(WORD.sub(one, NAME.sub(one, part)) if turn else part for part, turn in parts_of(line, comment)))
    return "\n".join(out)


def read(path):
    with open(path, encoding="utf-8") as f:
        return f.read()


def own_names(root):
    names = set()
    for path in files(root, ".antt"):
        if of_function(path):
            continue
        text = read(path)
        kept = library_names(text)
        for line in text.split("\n"):
            if LIBRARY.match(line):
                continue
            for part, turn in parts_of(line, ANTT_COMMENT):
                if turn:
                    names |= (set(NAME.findall(part)) | set(HALF.findall(part))) - kept
    return names


def local_names(text):
    """Names that an answer binds itself."""
    bound = set(re.findall(r"\blet (\S+)(?= :| =)", text)) | set(re.findall(r"(?m)^\s+(\S+) :", text)) | set(re.findall(r"(?m)^abbrev (?:pub )?(\S+) :", text))
    return {b for b in bound if NAME.fullmatch(b)}


def main(argv):
    root = "."
    names = own_names(root)
    listing = "--list" in argv
    if listing:
        plain = set()
        for path in list(files(root, ".antt")) + list(files(root, ".rt")):
            plain |= set(re.findall(r"(?<![\w-])[A-Za-z][\w']*(?![\w-])", read(path)))
        seen = {}
        for name in sorted(names):
            new = respelled(name)
            mark = ""
            if new in plain:
                mark += "  <- a name already"
            if new in seen:
                mark += f"  <- also {seen[new]}"
            seen[new] = name
            print(f"{name} -> {new}{mark}")
        return 0
    changed = 0
    for path in files(root, ".antt"):
        text = read(path)
        kept = library_names(text)
        here = set(names)
        if of_function(path):
            goals = set(re.findall(r"goal\.([^\s(){},;]+)", text))
            here |= {n for n in local_names(text) if n not in goals}
        new = turned(text, ANTT_COMMENT, here, kept)
        if new != text:
            with open(path, "w", encoding="utf-8") as f:
                f.write(new)
            changed += 1
    for path in files(root, ".rt"):
        text = read(path)
        new = turned(text, RUST_COMMENT, names, library_names(text))
        if new != text:
            with open(path, "w", encoding="utf-8") as f:
                f.write(new)
            changed += 1

    def one(m):
        return respelled(m.group()) if m.group() in names else m.group()

    for path in sorted(os.path.join("docs", f) for f in os.listdir("docs") if f.endswith(".md")) + ["README.md"]:
        text = read(path)
        new = re.sub(r"`[^`\n]+`", lambda m: WORD.sub(one, NAME.sub(one, m.group())), text)
        if new != text:
            with open(path, "w", encoding="utf-8") as f:
                f.write(new)
            changed += 1
    print(f"{changed} files changed, {len(names)} names")
    return 0


if __name__ == "__main__":
    raise SystemExit(main(sys.argv[1:]))
