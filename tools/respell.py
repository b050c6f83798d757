#!/usr/bin/env python3
"""Respells the repository's own definitions and lemmas: words in snake case, facts and types in upper camel case.

usage: python3 tools/respell.py          at the top of the repository, once, after the kit's port.py
       python3 tools/respell.py --dry    prints what would change and which names fall together

A name is the repository's own where specs/ or a lemma file of proofs/ defines it, or where an answer file does and it is
no goal's name. `Same-but` becomes `SameBut`, `weight-of` becomes `weight_of`. Names that Rattle makes (`loop-k-init`), names of
libraries, functions of src/, comments and strings stay.
"""
import collections
import glob
import os
import re
import sys

HEAD = re.compile(r"^(\s*)((?:(?:pub|abbrev|unfoldable|opaque|data|record|private)\s+)*)([^\s:(){}.,;|]+)((?:\s+[({][^=]*[)}])?)\s+:(?:\s|$)(.*)")
PARAMETRIZED = re.compile(r"^\s*(?:pub\s+)?(?:data|record)\s+([^\s:(){}.,;|]+)")
CONSTRUCTOR = re.compile(r"^\s+(?:pub\s+)?(?:\|\s*)?([^\s:(){}.,;|]+(?:\s+[^\s:(){}.,;|]+)*)\s+:\s")
TOKEN = re.compile(r"[^\s(){}\[\].,;:|`\"⌜⌝λ]+")
IMPORT = re.compile(r"^\s*(?:ghost\s+)?(?:pub\s+)?use\s+([^\s{;]+?)\.?(?:\{([^}]*)\})?\s*;?\s*$")


def files():
    found = []
    for end in ("antt", "rt"):
        found += glob.glob(f"crates/*/**/*.{end}", recursive=True)
    return sorted(p for p in found if "/out/" not in p)


def is_answer(path):
    return os.path.basename(path) in ("Answers.antt", "Invariants.antt", "Proof.antt")


LOCAL = re.compile(r"\blet ([a-z]+(?:-[a-z]+)+) *[:=]")


def own_names():
    """The names with a dash that the repository defines, and those that answer goals."""
    own, goals = set(), set()
    for path in files():
        if not path.endswith(".antt"):
            continue
        for line in open(path, encoding="utf-8"):
            m = PARAMETRIZED.match(line)
            if m:
                own.add(m.group(1))
            own.update(LOCAL.findall(line))
            m = HEAD.match(line)
            if not m:
                m = CONSTRUCTOR.match(line) if not is_answer(path) else None
                if m:
                    own.update(m.group(1).split())
                continue
            name, kind = m.group(3), m.group(5).strip()
            if is_answer(path) and re.match(r"(goal|needs|rules)\.", kind):
                goals.add(name)
            else:
                own.add(name)
    return {n for n in own if "-" in n and re.search(r"\w-\w", n) and not n.startswith("-")}, goals


# Names that would be a library's, if their dash went.
OTHERWISE = {"bit-and": "bit_and_lem", "bit-or": "bit_or_lem", "bit-xor": "bit_xor_lem"}


def respelled(name):
    if name in OTHERWISE:
        return OTHERWISE[name]
    if name[0].isupper():
        return "".join(part[:1].upper() + part[1:] for part in name.split("-"))
    return name.replace("-", "_")


def pieces(path, text):
    """The text in pieces, each with whether names may be respelled in it: not in comments, nor in strings of src/."""
    comment = r"--(?=\s|$).*" if path.endswith(".antt") else r"//.*|\"(?:\\.|[^\"\\])*\""
    last = 0
    for m in re.finditer(comment, text):
        yield text[last : m.start()], True
        yield m.group(0), False
        last = m.end()
    yield text[last:], True


def libraries(text, own):
    """The names that a file imports from a library, which stay."""
    kept = set()
    for line in text.split("\n"):
        m = IMPORT.match(line)
        if not m or re.match(r"Rattle\.(sets|laminar|transversal|graphic|linear|matroid|exchange|weighted|certificate|choose|check|trials)\.", m.group(1)):
            continue
        for word in (m.group(2) or "").split(","):
            word = word.strip()
            if word in own:
                kept.add(word)
    return kept


def main():
    dry = "--dry" in sys.argv
    own, goals = own_names()
    spelled = {n: respelled(n) for n in own}
    by_new = collections.defaultdict(set)
    for old, new in spelled.items():
        by_new[new].add(old)
    for new, olds in sorted(by_new.items()):
        if len(olds) > 1:
            print("fall together:", new, sorted(olds))
    both = sorted(own & goals)
    if both:
        print("defined, and the name of a goal too:", both)
    changed = 0
    for path in files():
        text = open(path, encoding="utf-8").read()
        kept = libraries(text, own)
        if kept:
            print("of a library:", path, sorted(kept))
        parts, seen, used = [], set(), set()
        for part, code in pieces(path, text):
            if not code:
                parts.append(part)
                continue
            seen.update(TOKEN.findall(part))

            def turn(m):
                word = m.group(0)
                if word not in spelled or word in kept:
                    return word
                before = part[: m.start()]
                if is_answer(path) and word in goals and re.search(r"goal\.$|(^|\n)(abbrev |pub )*$", before):
                    return word
                used.add(word)
                return spelled[word]

            parts.append(TOKEN.sub(turn, part))
        for word in sorted(used):
            if spelled[word] in seen:
                print("stands there already:", path, word, "->", spelled[word])
        new = "".join(parts)
        if new != text:
            changed += 1
            if not dry:
                open(path, "w", encoding="utf-8").write(new)
    print(f"{len(own)} names, {changed} files")


main()
