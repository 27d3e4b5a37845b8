#!/usr/bin/env python3
"""Counts the places in crates/*/src that docs/DESIGN-PASS.md speaks of, point by point, and prints each with its file and line.

usage: tools/forms.py [ROOT]          the checkout at ROOT (default: this one)
       tools/forms.py --sums [ROOT]   the counts alone

A place is found by its text, not by its meaning: what is counted is what a reader would look at, and the page says of each what became of it.
"""

import collections
import glob
import os
import re
import sys

CLAUSE = re.compile(r"^\s+(requires|ensures)\*? (?:[a-z_0-9]+ )?\{ (.*) \}$")
HEAD = re.compile(r"^\s*(?:pub )?(?:extern \"C\" )?fn ([a-z_0-9]+)")


def code(line):
    """The line without its comment."""
    return re.sub(r"(^|\s)//.*", "", line)


def sources(root):
    for path in sorted(glob.glob(os.path.join(root, "crates/*/src/**/*.rt"), recursive=True)):
        with open(path, encoding="utf-8") as f:
            yield os.path.relpath(path, root), f.read().split("\n")


def functions(root):
    """Each function: where it stands, its name, its parameters as 'name: type', its clauses."""
    for path, lines in sources(root):
        i = 0
        while i < len(lines):
            m = HEAD.match(code(lines[i]))
            if not m:
                i += 1
                continue
            at, text = i, ""
            while i < len(lines) and not re.search(r"\)(\s*->.*)?\s*\{?$", code(lines[i]).rstrip()):
                text += code(lines[i]).strip() + " "
                i += 1
            text += code(lines[i]).strip() if i < len(lines) else ""
            inside = re.search(r"fn [a-z_0-9]+(?:<.*?>)?\((.*)\)", text)
            params = [p.strip() for p in re.split(r",\s*(?![^<\[(]*[>\])])", inside.group(1)) if p.strip()] if inside else []
            clauses = []
            i += 1
            while i < len(lines) and not re.match(r"^\s*\{|^\s*fn |^\s*pub fn ", lines[i]):
                c = CLAUSE.match(lines[i])
                if c:
                    clauses.append((c.group(1), c.group(2)))
                i += 1
            yield path, at + 1, m.group(1), params, clauses


def facts(clause):
    """The facts that a clause joins by ×, where it is no function type; the table's and the number's names do not tell facts apart."""
    if "→" in clause:
        return [clause]
    return [re.sub(r"^\((.*)\)$", r"\1", p.strip()) for p in re.split(r" × (?![^()]*\))", clause)]


def by_text(root, pattern):
    return [(p, n + 1, l.strip()) for p, ls in sources(root) for n, l in enumerate(ls) if re.search(pattern, code(l)) and "ghost use" not in l]


def groups(root):
    """Each point's groups: a name, and the places in it."""
    yield "1 own enums", by_text(root, r"^(pub )?enum ")
    yield "1 constants for refusals", by_text(root, r"^pub const BAD_[A-Z]+: Answer")
    yield "1 answers by such a constant", by_text(root, r"\brefused::BAD_")
    yield "1 a flag with values beside it in a struct", by_text(root, r"^    (pub )?(bad|failed|stopped): bool,")
    yield "1 functions that take or give a line as a number", by_text(root, r"fn \w+\(.*\b(line|kind): u16\b|fn \w+\(.*\) -> u16")
    yield "1 functions that tell a failure by true or false, or by a number", by_text(root, r"fn (write_line|put_read|write_front)\(.* -> bool|fn (first_of|nearest_end|list_record)\(.* -> (usize|u32)")
    yield "2 functions of one crate's source whose bodies are alike but for names and numbers", list(twins(root))
    yield "3 while and loop", by_text(root, r"\bwhile \b|\bloop \{")
    yield "3 for over numbers", by_text(root, r"\bfor \w+ in [^&]*\.\.")
    yield "4 casts", by_text(root, r" as (u8|u16|u32|u64|usize|i32|i64)\b")
    yield "4 functions that convert, compare or copy", by_text(root, r"fn (wide|long|flag|least|less|same|copy_of|is_done|is_none_yet|is_asked|refusal_code|outcome_of|outcome_byte|kind_of|object_of|wait_of)\(")
    yield "4 arms of a match that tell a kind by true and false", by_text(root, r"=> (true|false),")
    yield "5 facts that three functions or more ask for", [("", n, t) for n, t in asked(root)]
    yield "5 parameters that three functions or more take together", [("", n, t) for n, t in together(root)]
    yield "6 a buffer with a place or a length beside it", list(buffers(root))
    yield "6 parallel arrays", list(parallel(root))
    yield "7 a match that chooses which step to run", by_text(root, r"^\s*match (way|request|asked) \{")
    yield "7 a step that does more or less by a flag", by_text(root, r"fn \w+\(.*\b(named|bad|said|ended|stopped): bool\b")


def twins(root):
    seen = collections.defaultdict(list)
    for path, lines in sources(root):
        text = "\n".join(code(l) for l in lines)
        for m in re.finditer(r"fn ([a-z_0-9]+)[^{]*?(?:\n +(?:requires|ensures|ghost)[^\n]*)*\n( *)\{\n(.*?)\n\2\}", text, re.S):
            shape = re.sub(r"\b(\w+)::(\w+)", "X", re.sub(r"\b\d+\b", "0", m.group(3)))
            shape = re.sub(r"\b[a-z_]\w*\b", "x", re.sub(r"\b[A-Z]\w*\b", "X", shape))
            shape = re.sub(r"\s+", " ", shape)
            if len(shape) >= 12:
                seen[shape].append((path, text[: m.start()].count("\n") + 1, "fn " + m.group(1)))
    for group in seen.values():
        if len(group) > 1:
            yield from group


def asked(root):
    where = collections.Counter()
    for _, _, _, _, clauses in functions(root):
        for fact in {f for kind, clause in clauses if kind == "requires" for f in facts(clause)}:
            where[fact] += 1
    return [(n, "functions ask: " + fact) for fact, n in where.most_common() if n >= 3]


def together(root):
    pairs = collections.Counter()
    for _, _, _, params, _ in functions(root):
        pairs.update((a, b) for i, a in enumerate(params) for b in params[i + 1 :])
    return [(n, "functions take: " + ", ".join(pair)) for pair, n in pairs.most_common() if n >= 3]


def buffers(root):
    for path, line, name, params, _ in functions(root):
        names = {p.split(":")[0].strip() for p in params}
        slices = {p.split(":")[0].strip() for p in params if re.search(r": &(mut )?\[u8\]", p)}
        if slices and (names & {"at", "to", "held", "from"} or ("n" in names and slices & {"block", "bytes"})):
            yield path, line, "fn " + name + "(" + ", ".join(params) + ")"


def parallel(root):
    for path, line, name, params, _ in functions(root):
        names = {p.split(":")[0].strip() for p in params}
        if {"lines", "places"} <= names or {"numbers", "places"} <= names:
            yield path, line, "fn " + name + "(" + ", ".join(params) + ")"


def main():
    args = [a for a in sys.argv[1:] if a != "--sums"]
    root = args[0] if args else os.path.join(os.path.dirname(os.path.abspath(__file__)), "..")
    for name, places in groups(root):
        print("%4d  %s" % (len(places), name))
        if "--sums" not in sys.argv:
            for path, line, text in places:
                print("          %s  %s" % ("%s:%d" % (path, line) if path else "%4d" % line, text))


if __name__ == "__main__":
    main()
