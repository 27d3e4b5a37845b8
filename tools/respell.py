#!/usr/bin/env python3
"""Spells the repository's own definitions, lemmas and fields as today's Rattle does: snake case, and no dash.

usage: tools/respell.py ROOT             once, right after port.py: crates/*/src, specs and proofs, and the must-fail edits
       tools/respell.py --table ROOT     prints the table that the first form would use

The table is made from what specs/ and proofs/ declare: `camelCase` and `kebab-case` become `snake_case`; a name with a capital first is a
type or a fact, and stays. Where a lemma would then have a definition's name, it ends in `_lem`, as the house rules of Rattle have it.
A word is turned wherever it is spelled so, but in a string, behind `c.` and `tie.` in a function's proof, where Rattle made it, and where
the file has it from a library.
"""

import collections
import glob
import os
import re
import sys

NAME = r'[^\s(){}.;,@"«»:]+'
DECLARED = re.compile(r"( *)((?:abbrev |pub |unfoldable )*)(" + NAME + r")((?: \{[^{}\n]*\})*) :(?: (.*)|)$")
# lemmas that port.py spelled like a definition that this table spells so too
MET = {"left_over", "quiet_of", "same_set", "sum_over", "too_long", "top_below", "first_runs"}
# what a file has from a library
TAKEN = re.compile(r"use (?!Rattle\.(?!std\b))[^\s{;]+\.\{([^}]*)\}")


def snake(name):
    if "◌" in name:
        return "◌".join(snake(x) if x else x for x in name.split("◌"))
    if not ("A" <= name[:1] <= "Z"):
        name = re.sub(r"(?<=[a-z0-9])([A-Z])", lambda m: "_" + m[1].lower(), name)
    return name.replace("-", "_")


def antt(root):
    return sorted(p for part in ("specs", "proofs") for p in glob.glob(f"{root}/crates/*/{part}/**/*.antt", recursive=True))


def table(root):
    declared = collections.defaultdict(set)
    for path in antt(root):
        with open(path, encoding="utf-8") as f:
            for line in f:
                m = DECLARED.match(line.rstrip("\n"))
                if not m or m[3] in ("use", "--"):
                    continue
                if path.endswith("/Proof.antt") and (m[5] or "").startswith("tie."):
                    continue
                declared[m[3]].add(path)
    rows = {n: snake(n) for n in declared if snake(n) != n}
    made = collections.defaultdict(list)
    for old, new in rows.items():
        made[new].append(old)
    for old, new in list(rows.items()):
        others = [o for o in made[new] if o != old]
        if "-" in old and (others or new in declared and new not in MET):
            rows[old] = new + "_lem"
        elif others and not any("-" in o for o in others):
            raise SystemExit(f"two definitions would be {new}: {old} and {others}")
    for name in MET:
        if name in declared and name in made:
            rows[name] = name + "_lem"
    for old in [o for o in rows if "◌" in o]:
        for part in filter(None, old.split("◌")):
            if snake(part) != part:
                rows[part] = snake(part)
    return rows


def turn_word(word, rows, path):
    """One word of the text: names joined by dots, of which the first and those that are no label of Rattle's turn."""
    parts = word.split(".")
    behind = path.endswith("/Proof.antt") and parts[0] in ("c", "tie", "goal") or "proofs" in parts[:3]
    out = []
    for i, part in enumerate(parts):
        lone = part
        if part in MET and part in rows:
            # a function's folder is spelled so as well
            lone = rows[part] if len(parts) == 1 else part
        elif part in rows and not (i and behind and not ("proofs" in parts[:3] and i == len(parts) - 1)):
            lone = rows[part]
        out.append(lone)
    return ".".join(out)


TOKEN = re.compile(r'"(?:[^"\\\n]|\\.)*"|[^\s(){};,@"«»`]+')


def turn(text, rows, path, met=True):
    taken = {n for m in TAKEN.finditer(text) for n in re.split(r",\s*|\s+as\s+", m[1].strip())}
    use = {k: v for k, v in rows.items() if k not in taken and (met or k not in MET)}

    def one(m):
        if m[0][0] == '"':
            return m[0]
        word = m[0]
        head = re.match(r"[!&|\\¬λ\[]*", word)[0]
        tail = re.search(r"[\]:.!?]*$", word[len(head) :])[0]
        core = word[len(head) : len(word) - len(tail)] if tail else word[len(head) :]
        return head + turn_word(core, use, path) + tail

    return TOKEN.sub(one, text)


def main():
    words = sys.argv[1:]
    only = words[:1] == ["--table"]
    root = os.path.abspath(words[-1])
    rows = table(root)
    if only:
        for old in sorted(rows):
            print(f"{old}\t{rows[old]}")
        return
    changed = 0
    for path in antt(root) + sorted(glob.glob(f"{root}/crates/*/src/**/*.rt", recursive=True)) + sorted(glob.glob(f"{root}/crates/*/must-fail/*.edit")):
        with open(path, encoding="utf-8") as f:
            text = f.read()
        new = turn(text, rows, path, path.endswith(".antt"))
        if new != text:
            changed += 1
            with open(path, "w", encoding="utf-8") as f:
                f.write(new)
    print(f"respell: {len(rows)} names, {changed} files")


main()
