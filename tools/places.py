#!/usr/bin/env python3
"""Lists, point by point, the places in crates/*/src (and proofs) that docs/DESIGN-PASS.md counts.

Usage: python3 tools/places.py [FOLDER] [--lines]
It goes by text: a line is a place to look at, and the page says what each was. `--lines` prints the lines too.
"""
import collections
import difflib
import glob
import re
import sys

ROOT = next((a for a in sys.argv[1:] if not a.startswith("--")), ".")
SHOW = "--lines" in sys.argv

SINGLE = {
    "1a own enums": r"^\s*(pub(\([a-z]+\))? )?enum ",
    "1b a truth value that is passed or kept beside others": r"^\s*(pub )?[a-z_]+: bool,|\(ended: bool",
    "1c bare numbers for kinds": r"^\s*[0-9]+ => |FUTOSHIKI|(entry_word\(|Some\()[0-9 *]*(KIND|[0-9]+,)",
    "1d a number that says 'none'": r"return (Literal\(0\)|0|\(0, 0\));|Err\(_\) => Literal\(0\)|(else \{|None =>) Literal\(0\)|^\s+(Literal\(0\)|0)$",
    "1e results handed on by hand": r"Ok\(\(\)\) => Ok\(\(\)\)|Err\(_\) => (return )?(Err|None)|Err\(fault\) => Err\(fault\)|let (Ok|Err)\(.*\) = .* else|(None|Err\(_\)) => unreachable",
    "3 loops over a range, or by while": r"\bfor [a-z_]+ in [^{]*\.\.|\bwhile\b|\bloop\b",
    "4a comparisons and conversions by hand": r"fn (same|says|byte|word|entry_word|sign_word|board_word|claimed_value|claimed_in)\b|/ 0x1(00|_0000|00_0000)|\* 0x1(00|_0000|00_0000)",
    "4b a refusal printed by hand": r"refused \{number\}",
    "5a contracts with a fact on a side": r"(requires|ensures).*(side ≤ 9|1 ≤ side|2 ≤ side)",
    "5b contracts with a fact on a draft": r"(requires|ensures).*(BetweenClauses|RoomFor)",
    "5c contracts with a fact on a register or a drawing": r"(requires|ensures).*(SameTable|ghost_name|WellDrawn)",
    "5d contracts with a fact on an entry of the directory": r"(requires|ensures).*(length self\.(now|old)\.directory|result\.(pages|size|head))",
    "6a a length beside a buffer": r"^\s*(pub(\([a-z]+\))? )?(count|used|size|given_count|claim_count|sign_count): (usize|u32|u16),",
    "6b searched by hand": r"while low < high",
    "6c numbers of places that stand for links": r"next: u16|head: u16|first: u16,",
    "7 a step that is chosen at run time": r"\bdyn |impl Fn|: fn\(|F: Fn",
}


def source_lines():
    for path in sorted(glob.glob(ROOT + "/crates/*/src/**/*.rt", recursive=True)):
        for number, line in enumerate(open(path), 1):
            if not line.lstrip().startswith("//"):
                yield path[len(ROOT) + 1 :], number, line.rstrip("\n")


def functions():
    """Each function with the shape of its code: names and numbers made alike, clauses left out."""
    words = {"let", "mut", "for", "in", "if", "else", "match", "return", "while", "fn", "Ok", "Err", "Some", "None", "self", "as"}
    for path in sorted(glob.glob(ROOT + "/crates/*/src/**/*.rt", recursive=True)):
        lines = open(path).read().split("\n")
        i = 0
        while i < len(lines):
            m = re.match(r"^(\s*)(pub(\([a-z]+\))? )?fn ([a-z_0-9]+)", lines[i])
            if m:
                j = i
                while j < len(lines) and lines[j] != m.group(1) + "}":
                    if lines[j].startswith(m.group(1) + "    ensures") and lines[j].endswith(";"):
                        break
                    j += 1
                code = "\n".join(l for l in lines[i : j + 1] if not re.match(r"^\s*(requires|ensures|//)", l))
                tokens = re.findall(r"[A-Za-z_]\w*|\d\w*|[^\s\w]", code[code.find("{") :])
                shape = ["n" if re.match(r"[A-Za-z_]", t) and t not in words else "0" if t[0].isdigit() else t for t in tokens]
                yield "%s:%d %s" % (path[len(ROOT) + 1 :], i + 1, m.group(4)), shape
                i = j
            i += 1


def twins():
    all_of = [f for f in functions() if len(f[1]) >= 14]
    for a, (name, shape) in enumerate(all_of):
        for other, shape2 in all_of[a + 1 :]:
            if min(len(shape), len(shape2)) >= 0.88 * max(len(shape), len(shape2)):
                ratio = difflib.SequenceMatcher(None, shape, shape2, autojunk=False).ratio()
                if ratio >= 0.88:
                    yield "%.2f %s ~ %s" % (ratio, name, other)


def proofs():
    files = sorted(glob.glob(ROOT + "/crates/*/proofs/**/*.antt", recursive=True) + glob.glob(ROOT + "/crates/*/specs/*.antt"))
    only = [f[len(ROOT) + 1 :] for f in files if f.endswith("Answers.antt") and all(
        re.match(r"^\s*$|^(use|--|pub \S+ :)|^\S+ .*= search rules$", l) for l in open(f).read().split("\n"))]
    names = collections.defaultdict(set)
    for f in files:
        for m in re.finditer(r"^(?:abbrev |unfoldable )?(?:pub )?([a-z][A-Za-z0-9_]*) : ", open(f).read(), re.M):
            if not f.endswith(("Answers.antt", "Invariants.antt")):
                names[m.group(1)].add(f[len(ROOT) + 1 :])
    twice = ["%s: %s" % (n, ", ".join(sorted(f))) for n, f in sorted(names.items()) if len(f) > 1]
    lines = sum(len(open(f).read().split("\n")) - 1 for f in files if "/proofs/" in f)
    return lines, only, twice


def main():
    for point, pattern in SINGLE.items():
        found = ["%s:%d: %s" % (p, n, l.strip()) for p, n, l in source_lines() if re.search(pattern, l)]
        show(point, found)
    show("2 pairs of functions of like shape", list(twins()))
    lines, only, twice = proofs()
    print("8a lines in proofs/: %d" % lines)
    show("8b answers that only say `search rules`", only)
    show("8c names of lemmas and definitions that stand in more than one file", twice)


def show(point, found):
    print("%s: %d" % (point, len(found)))
    if SHOW:
        print("".join("    %s\n" % f for f in found), end="")


main()
