#!/usr/bin/env python3
"""Brings the must-fail edits to today's spelling: each with the same wrong meaning, at the same line.

usage: tools/turn_edits.py            at the top of the repository: writes crates/*/must-fail/*.edit anew from the last commit of the older Rattle
       tools/turn_edits.py --check    writes nothing: holds the edits as they stand against that commit

The first line of docs/PORT.md names that commit. A pair `old:`, `new:` of it is spelled as today by one function of both texts, so that
they differ today as they did. What `old:` then is must be a line of today's file, standing there once, in the same definition or
function as before, and each name in `new:` must be written somewhere in that file. `wrong: NAME` and `refused: WHERE`, which only .ci/refused
reads, become comments, `# wrong: NAME` and `# refused: WHERE`, and a line `# named: OLD NEW` where the wrong line changes what names a step (NAMED); a proof of a function, `proofs/F/Proof.antt`, becomes `fn F`, since which
files such a proof has is chance, and a goal in it is named by hand (GOALS). Prints what is to be looked at, and the count.
"""

import difflib
import glob
import os
import re
import subprocess
import sys

sys.path.insert(0, os.path.dirname(os.path.abspath(__file__)))
from respell import snake

# Of two wrong lines in one function: the goals that refuse them, by the edit's crate and the wrong line's name. (The older Rattle had other names.)
GOALS = {
    ("book", "last_entry_forgotten"): "returns",
    ("book", "refused_entry_adds"): "returns-then-opened-ge-MOST",
    ("engine", "sum_told_for_the_cents"): "returns",
    ("engine", "first_start_left_out"): "loop-i-init",
    ("judge", "fourteen_at_the_total"): "returns-then-is_other",
    ("judge", "fourteen_for_fifteen"): "returns-then-is_other-2",
    ("plain", "amounts_as_read"): "returns-then-is_quoted",
    ("plain", "byte_behind_touched"): "bounds-to-3",
    ("plain", "names_as_read"): "returns-then-is_words",
    ("table", "tx_id_collapsed"): "returns-in-V02",
    ("table", "debtor_account_as_creditor"): "returns-in-V08",
    ("twice", "index_not_cleared_after"): "returns",
    ("twice", "left_number_taken_for_an_item"): "sought-found-requires",
}
# What names the steps below a condition, before and in the edited function.
NAMED = {
    ("accounts", "bic_letter_o"): "c-eq79 c-eq48",
    ("accounts", "check_digits_01"): "n-lt2 n-lt1",
    ("accounts", "check_digits_99"): "n-gt98 n-gt99",
    ("accounts", "iban_of_35"): "s-gt34 s-gt35",
    ("judge", "longest_message_refused"): "m-gt-MOST_BYTES m-ge-MOST_BYTES",
    ("keys", "b2b_without_service"): "service-eq2 service-eq3",
    ("notes", "item_10001_passes"): "self-lt-MOST_ITEMS self-le-MOST_ITEMS",
    ("notes", "services_mixed"): "first-mine first",
    ("notes", "type_beside_the_header"): "first-said first-eq0-2",
    ("play", "left_over_not_told"): "run-ends ends-run",
    ("recording", "padded_with_zeros"): "f-e-eq32 f-e-eq48",
    ("records", "header_sequence_left_out"): "own-eq0 own-ne0",
    ("records", "sequence_of_the_last_item"): "own-eq0 own-ge0",
    ("tags", "currency_of_any_letters"): "i-lt3 i-lt2",
    ("words", "cr_not_counted"): "c-eq13 c-eq12",
    ("words", "reference_of_36"): "s-gt35 s-gt36",
}
# Texts that are not spelled by rule.
BY_HAND = {}
# Lemmas that were not spelled by rule, by the crate and the spelling that the rule gives.
LEMMAS = {
    ("bulks", "records_of"): "records_of_lem",
    ("faults", "behind_last"): "behind-last",
    ("faults", "declared_comes"): "declared-comes",
}
# Names that stand in a new text alone, and what they are.
IN_SCOPE = {
    ("documents", "suc"): "by its whole path",
    ("documents", "Prim"): "by its whole path",
    ("documents", "Native"): "by its whole path",
    ("documents", "Nat"): "by its whole path",
    ("engine", "sum"): "a field of Notes",
    ("items", "q"): "bound in the text itself",
    ("keys", "Withdraw"): "a variant of Ask",
    ("plain", "ROOT"): "a constant of the crate profile",
    ("reader", "total"): "a field of Notes",
}


def spelled(text, path):
    """The text as it is spelled today."""
    if path.endswith(".rt"):
        clause = re.search(r"^(\s*(?:ensures|requires) \{ )(?:λ r\. )?⌜ (.*) ⌝ \}$", text)
        if not clause:
            return text
        inner = re.sub(r"(?<![\w'])r(?![\w'])", "result", clause[2])
        inner = re.sub(r"\(now \((\w+) \.entry\)\)", r"\1.now", inner)
        return clause[1] + names(inner) + " }"
    parts = re.split(r'("(?:[^"\\]|\\.)*")', text)
    return "".join(it if at % 2 else names(it) for at, it in enumerate(parts))


def names(text):
    text = re.sub(r"\((\w+) \.(\w+)\)", r"\1.\2", text)
    text = re.sub(r"(?<![\w'])(\w+) \.(\w+)", r"\1.\2", text)
    return re.sub(r"(?<![\w'.])(\w*[a-z]\w*(?:-\w+)*)", lambda m: m[1] if m[1][0].isupper() else snake(m[1]), text)


def then(commit, path):
    return subprocess.run(["git", "show", f"{commit}:{path}"], check=True, capture_output=True, text=True).stdout


def item_of(lines, number, path):
    """What a line stands in: a function or a definition."""
    head = r"\s*(?:pub )?(?:const )?fn (\w+)" if path.endswith(".rt") else r"(?:(?:abbrev|pub|unfoldable|private) )*(?:(?:data|record|theorem) )?([\w'-]+)(?: .*)? :(?: |$)"
    for it in range(number, -1, -1):
        found = re.match(head, lines[it])
        if found and (path.endswith(".rt") or not lines[it].startswith(" ")):
            return snake(found[1]) if not found[1][0].isupper() else found[1]
    return ""


def pairs(text):
    """The pairs of an edit: (name, file, old, new)."""
    name = file = old = None
    for line in text.split("\n"):
        line = line.removeprefix("# ")
        if line.startswith("wrong: "):
            name = line[len("wrong: ") :]
        elif line.startswith("file: "):
            file = line[len("file: ") :]
        elif line.startswith("old: "):
            old = line[len("old: ") :]
        elif line.startswith("new:"):
            yield name, file, old, line[len("new: ") :]
            name = None


def where(text, crate, name):
    """What a line `refused:` says, today."""
    found = re.fullmatch(r"proofs/(.+)/Proof\.antt(?: (\S+))?", text)
    if not found:
        file, *names_in_it = text.split(" ")
        return " ".join([file, *(LEMMAS.get((crate, snake(it)), it if file == "fn" else snake(it)) for it in names_in_it)])
    goal = GOALS.get((crate, name), found[2] and f"?{found[2]}")
    return f"fn {found[1].replace('/', '::')}" + (f" {goal}" if goal else "")


def turned(commit, path, said):
    """The edit as it is written today."""
    crate, out, name = path.split("/")[1], [], None
    folder = os.path.dirname(os.path.dirname(path))
    file = old = None
    for line in then(commit, path).split("\n"):
        if line.startswith("wrong: "):
            name = line[len("wrong: ") :]
            out.append(f"# {line}")
        elif line.startswith("refused: "):
            out.append(f"# refused: {where(line[len('refused: ') :], crate, name)}")
            if (crate, name) in NAMED:
                out.append(f"# named: {NAMED[crate, name]}")
        elif line.startswith("file: "):
            file = line[len("file: ") :]
            out.append(line)
        elif line.startswith("old: "):
            old = line[len("old: ") :]
            out.append(f"old: {BY_HAND.get((crate, name, 'old')) or spelled(old, file)}")
        elif line.startswith("new:"):
            new = BY_HAND.get((crate, name)) or spelled(line[len("new: ") :], file)
            out.append(f"new: {new}".rstrip() if not new else f"new: {new}")
            looked(commit, f"{crate} {name or os.path.basename(path)}", f"{folder}/{file}", old, out[-2][len("old: ") :], new, said)
        else:
            out.append(line)
    return "\n".join(out)


def looked(commit, label, path, was, old, new, said):
    before, after = then(commit, path).split("\n"), open(path, encoding="utf-8").read()
    lines = after.split("\n")
    if after.count(old) != 1 or old not in lines:
        close = difflib.get_close_matches(old, lines, 2, 0.6)
        said.append(f"{label}: {path} has {after.count(old)} times: {old}" + "".join(f"\n    there is: {it}" for it in close))
        return
    if old == new:
        said.append(f"{label}: changes nothing")
    places = [it for it, line in enumerate(before) if was == line] or [it for it, line in enumerate(before) if was in line]
    if len(places) != 1:
        said.append(f"{label}: stood {len(places)} times in {path}")
        return
    one, other = item_of(before, places[0], path), item_of(lines, lines.index(old), path)
    if one != other:
        said.append(f"{label}: stood in {one} and stands in {other}")
    strip = lambda it: re.sub(r'"(?:[^"\\]|\\.)*"|b\'.\'', "", it)
    word = r"(?<![\w'\\])([A-Za-z_][\w']*)"
    rest = set(re.findall(word, strip(after)))
    lost = [it for it in re.findall(word, strip(new)) if it not in rest and (label.split(" ")[0], it) not in IN_SCOPE]
    if lost and not re.search(r"\\[x0]", new):
        said.append(f"{label}: {' '.join(lost)} is nowhere in {path}")


def main():
    with open("docs/PORT.md", encoding="utf-8") as it:
        commit = it.readline().strip()
    listed = subprocess.run(["git", "ls-tree", "-r", "--name-only", commit, "crates"], check=True, capture_output=True, text=True).stdout.split("\n")
    edits = sorted(it for it in listed if re.fullmatch(r"crates/\w+/must-fail/[\w.-]+\.edit", it))
    said, wrong, named = [], 0, 0
    only_check = "--check" in sys.argv
    for path in edits:
        made = turned(commit, path, said)
        if only_check:
            now = open(path, encoding="utf-8").read() if os.path.isfile(path) else ""
            if list(pairs(now)) != list(pairs(made)):
                said.append(f"{path}: its pairs are not those that the older edit gives")
            made = now
        else:
            with open(path, "w", encoding="utf-8") as it:
                it.write(made)
        wrong, named = wrong + len(list(pairs(made))), named + sum(it[0] is not None for it in pairs(made))
    stray = set(glob.glob("crates/*/must-fail/*")) - set(edits)
    for it in said:
        print(it)
    print(f"{len(edits)} edits with {wrong} wrong lines, {named} of them with a name" + (f"; beside these, of today: {' '.join(sorted(stray))}" if stray else ""))
    return 1 if said else 0


if __name__ == "__main__":
    sys.exit(main())
