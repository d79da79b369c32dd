#!/usr/bin/env python3
"""Brings the names of definitions and lemmas to one spelling: words in snake case.

usage: tools/respell.py      at the top of the repository, once, right after the port of the files

A name that a file of specs/ or proofs/ declares, and that begins with a small letter, loses its capitals and its dashes: `inClass` becomes
`in_class` and `one-judge` becomes `one_judge`. Types and modules keep their capitals, and names that the check makes keep theirs. A lemma
that would then have the name of a definition gets `_lem`. Names in src/, in texts and in comments stay, but for
names in clauses and names that a comment quotes. Prints what is to be looked at.
"""

import collections
import os
import re
import sys

DECLARED = re.compile(r"^(\s*)((?:pattern |unfoldable |abbrev |pub |axiom )*)([a-z][\w'′]*(?:-[\w'′*]+)*(?: [a-z][\w'′]*)*)(?: \{[^}]*\})? :(?: (.*)|)$")
TOKEN = re.compile(r"(?<![\w'′\-◌*])([a-z][\w'′]*(?:-[\w'′*]+)*)(?![\w'′\-◌*])")
USE = re.compile(r"^(?:ghost )?(?:pub )?use ([\w.'′·-]+)\.\{([^}]*)\}", re.S | re.M)
WALK = re.compile(r"/proofs/.+/(Proof|Answers|Invariants)\.antt$")


def snake(name):
    name = name.replace("′", "'")
    name = re.sub(r"(?<=[a-z0-9'])([A-Z])", lambda m: "_" + m.group(1).lower(), name)
    return re.sub(r"[A-Z]", lambda m: m.group(0).lower(), name).replace("-", "_")


def files():
    for folder, dirs, names in os.walk("crates"):
        dirs[:] = sorted(d for d in dirs if d != "out")
        for name in sorted(names):
            if name.endswith((".rt", ".antt")):
                yield os.path.join(folder, name)


def declared(texts):
    """The names that the repository declares itself: of definitions (in specs/), and of lemmas."""
    words, lemmas = collections.Counter(), collections.Counter()
    for path, text in texts.items():
        if not path.endswith(".antt"):
            continue
        for line in text.split("\n"):
            m = DECLARED.match(line)
            if not m or (WALK.search(path) and (re.search(r"\b(tie|goal|needs?)\.", m.group(4) or "") or m.group(3).endswith(("-spec", "_spec")))):
                continue
            if m.group(1) and not m.group(2) and "/specs/" not in path and "-" in m.group(3):
                continue
            for name in m.group(3).split():
                (words if "/specs/" in path else lemmas)[name] += 1
    return words, lemmas


def foreign(text):
    """What a file imports from a library."""
    found = set()
    for m in USE.finditer(text):
        if not re.match(r"Rattle\.(" + "|".join(CRATES) + r")\.", m.group(1) + "."):
            found |= {n.strip().split(" as ")[0] for n in m.group(2).replace("\n", " ").split(",")}
    return found


# Lemmas whose dashes the port took, and which would now have the name of a definition that the same file uses.
PORTED = {
    ("in_order", "faults/proofs/Weighs"),
    ("carried_on", "play/proofs/Enters"),
    ("second_from", "judge/proofs/Ids"),
    ("found_in", "judge/proofs/Judges"),
    ("found_in", "judge/proofs/read_but/Proof"),
    ("all_laid", "records/proofs/Fields"),
    ("all_laid", "records/proofs/put_to_end/Proof"),
    ("opens_by", "table/proofs/Opens"),
    ("opens_by", "table/proofs/Rows"),
    ("same_tag", "replaced/proofs/Tests"),
    ("as_lent", "runs/proofs/Wide"),
    ("two_digits", "check97/proofs/Spelled"),
}
CRATES = sorted(os.listdir("crates"))


def main():
    texts = {p: open(p, encoding="utf-8").read() for p in files()}
    words, lemmas = declared(texts)
    new = {}
    for name in words:
        if snake(name) != name:
            new[name] = snake(name)
    for name in lemmas:
        if name in words:
            continue
        short = snake(name)
        if short in {snake(w) for w in words} or ("-" in name and short in {snake(w) for w in lemmas if "-" not in w}):
            short += "_lem"
        if short != name:
            new[name] = short
    back = collections.defaultdict(set)
    for old, it in new.items():
        back[it].add(old)
    for it, olds in sorted(back.items()):
        if len(olds) > 1 or (it in words or it in lemmas) and it not in new:
            print("look: fall together:", it, sorted(olds), "is one already" if it in words or it in lemmas else "")
    for path, text in texts.items():
        skip = foreign(text)
        rt = path.endswith(".rt")
        before = set(TOKEN.findall(text))
        used = set()
        place = path.removeprefix("crates/").removesuffix(".antt")

        def one(m):
            old = m.group(1)
            if (old, place) in PORTED:
                return old + "_lem"
            if old in skip or (rt and "-" in old):
                return old
            if old not in new:
                return snake(old) if re.fullmatch(r"[a-z]+[a-z0-9]*[A-Z][A-Za-z0-9']*", old) else old
            used.add(old)
            return new[old]

        out = []
        for line in text.split("\n"):
            code, comment = line, ""
            mark = "//" if rt else "--"
            at = re.match(r"\s*" + mark + " ", line)
            if at:
                code, comment = "", line
            parts = re.split(r'("(?:[^"\\]|\\.)*")', code)
            code = "".join(p if i % 2 else TOKEN.sub(one, p) for i, p in enumerate(parts))
            comment = re.sub(r"`([^`]*)`", lambda m: "`" + TOKEN.sub(one, m.group(1)) + "`" if re.fullmatch(r"[\w'′-]+", m.group(1)) else m.group(0), comment)
            comment = re.sub(r"\b[a-z]+[a-z0-9]*[A-Z]\w*", lambda m: new.get(m.group(0), m.group(0)), comment)
            code = re.sub(r"◌([a-z]+[A-Z]\w*)◌", lambda m: "◌" + snake(m.group(1)) + "◌", code)
            out.append(code + comment)
        made = "\n".join(out)
        for old in sorted(used):
            if new[old] in before and new[old] != old:
                print(f"look: {path}: {old} becomes {new[old]}, which stands there already")
        if made != text:
            with open(path, "w", encoding="utf-8") as f:
                f.write(made)
    with open(os.environ.get("RESPELLED", os.devnull), "w", encoding="utf-8") as f:
        for old in sorted(new):
            f.write(f"{old} {new[old]}\n")
    print(len(new), "names")


if __name__ == "__main__":
    sys.exit(main())
