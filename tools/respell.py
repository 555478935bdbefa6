#!/usr/bin/env python3
"""Brings the repository's own definitions, lemmas and record fields to snake case; types, modules and facts keep their capitals.

usage, once, at the top of the repository: python3 tools/respell.py [--write]

It reads which names specs/ and the lemma files of proofs/ declare, and turns them there, in clauses and ghost imports of src/, in the proof files of functions, and between
backticks in comments, in the pages and in what an edit says of itself. A name that a file imports from a library stays as it is. Names that would fall together get the name that APART gives. Without --write it only prints what it
would turn and which names still fall together.
"""
import collections
import glob
import os
import re
import sys

WRITE = "--write" in sys.argv
CRATES = {d for d in os.listdir("crates") if os.path.isdir(f"crates/{d}/src")}
NAME = re.compile(r"(?<![\w'′-])[A-Za-z_][\w'′-]*")
IMPORT = re.compile(r"^\s*(?:pub )?(?:ghost )?(?:pub )?use ([\w.'′-]+)\.\{([^}]*)\}", re.M)
HEAD = re.compile(r"^( *)((?:(?:abbrev|unfoldable|pub|infix|record|data|ruleset|opaque) )*)([^\s(){}:]+)((?: \{[^\s]*\})?)(.*)$")

# a lemma whose name in snake case is that of a definition, or of another lemma in reach
APART = {
    "action-says": "action_says_bytes",
    "answer-says": "answer_says_each",
    "header-length": "header_bytes_length",
    "insert-at": "insert_in_place",
    "is-filler": "filler_by_test",
    "line-ends": "line_is_one",
    "not-below": "below_fails",
    "route-of": "route_of_routed",
    "same-found": "same_found_equal",
    "same-list": "same_list_equal",
    "set-has": "set_of_has",
    "text-printed": "printed_text",
    "way-from": "way_from_side",
}


def read(path):
    with open(path, encoding="utf-8") as f:
        return f.read()


def snake(name):
    name = re.sub(r"(?<=[a-z0-9])([A-Z])", lambda m: "_" + m.group(1).lower(), name)
    return name.replace("-", "_")


def turned(name):
    """The new spelling of one of our names."""
    if name[:1].isupper():
        return name
    return APART.get(name, snake(name))


def after_binders(rest):
    """What follows the groups of binders after a name: ' : ..' where it is declared."""
    rest = rest.lstrip(" ")
    while rest[:1] in ("(", "{"):
        depth = 0
        for k, c in enumerate(rest):
            depth += c in "({"
            depth -= c in ")}"
            if depth == 0:
                break
        else:
            return ""
        rest = rest[k + 1 :].lstrip(" ")
    return rest


def declared(text):
    """The names that a file declares, and among them the fields and cases of its records and types."""
    names, fields = set(), set()
    inside = None
    for line in text.split("\n"):
        if not line.strip() or line.lstrip().startswith("--"):
            continue
        depth = len(line) - len(line.lstrip(" "))
        if inside is not None and depth <= inside:
            inside = None
        m = HEAD.match(line)
        if not m or m[3] in ("use", "module", "where", "let", "in", "case", "elim", "rw"):
            continue
        if re.search(r"\b(record|data)\b", m[2]) and depth >= 0 and line.rstrip().endswith("where"):
            inside = depth
            names.add(m[3])
            continue
        if re.search(r"\bruleset\b", m[2]):
            names.add(m[3])
            continue
        # several names before one type: 'pub a b : T'
        several = re.match(r"^ *(?:(?:abbrev|unfoldable|pub) )*((?:[^\s(){}:.,;=]+ )+): ", line)
        if several:
            words = several[1].split()
            if all(NAME.fullmatch(w) or "◌" in w for w in words):
                names.update(words)
                if inside is not None:
                    fields.update(words)
                continue
        if re.match(r":( |$)", after_binders(m[5] if not m[4] else m[4] + m[5])):
            names.add(m[3])
            if inside is not None:
                fields.add(m[3])
    return names, fields


def theory():
    for pattern in ("crates/*/specs/**/*.antt", "crates/*/proofs/*.antt"):
        yield from sorted(glob.glob(pattern, recursive=True))


def all_files():
    for pattern in ("crates/*/specs/**/*.antt", "crates/*/proofs/**/*.antt", "crates/*/src/**/*.rt"):
        yield from sorted(p for p in glob.glob(pattern, recursive=True) if "/out/" not in p)


def pages():
    yield from sorted(glob.glob("*.md") + [p for p in glob.glob("docs/*.md") if p != "docs/LANDINGS.md"] + glob.glob("crates/*/must-fail/*.edit"))


# the first two are bound by patterns, the third by a module's head
OURS, FIELDS, HOME = {"counted-in", "byStopper", "right-version"}, set(), collections.defaultdict(set)
for p in theory():
    names, fields = declared(read(p))
    for n in names:
        HOME[n].add(p)
    OURS |= names
    FIELDS |= fields
    # names that a lemma binds for itself
    for n in re.findall(r"\blet ([A-Za-z][\w'′-]*) ", read(p)):
        if re.search(r"[a-z]-[a-z]|[a-z][A-Z]", n):
            OURS.add(n)
            HOME[n].add(p)
# an operator is turned between its rings too
OURS |= {part for n in OURS if "◌" in n for part in n.split("◌") if part}


def is_ours(module):
    parts = module.split(".")
    return len(parts) > 1 and parts[0] == "Rattle" and parts[1] in CRATES


def ticks(text, keep):
    """Names between backticks, but what a file keeps."""

    def word(m):
        w = m[0]
        lower = w[:1].lower() + w[1:]
        if w not in OURS and "-" in w and lower in OURS:
            w = lower  # a word of the prose that took the capital of a type
        return turned(w) if w in OURS and w not in keep else w

    def one(m):
        inner = re.sub(r"(?<![\w'])_([A-Za-z]+)_(?![\w'])", r"◌\1◌", m[1])
        return "`" + NAME.sub(word, inner) + "`"

    return re.sub(r"`([^`\n]*)`", one, text)


def respell(path, text):
    rust = path.endswith(".rt")
    steps = re.search(r"/proofs/.+/[A-Z]\w*\.antt$", path) is not None
    ours, theirs = set(), set()
    for m in IMPORT.finditer(text):
        names = {n.strip().split(" as ")[0] for n in m[2].split(",") if n.strip()}
        names |= {part for n in names if "◌" in n for part in n.split("◌") if part}
        (ours if is_ours(m[1]) else theirs).update(names)
    if rust or steps:
        mine = ours & OURS
    else:
        mine = (OURS - theirs) | (ours & OURS)
    out = []
    for line in text.split("\n"):
        m = IMPORT.match(line)
        if m:
            if is_ours(m[1]):
                a, b = m.span(2)
                line = line[:a] + NAME.sub(lambda w: turned(w[0]) if w[0] in OURS else w[0], line[a:b]) + line[b:]
            out.append(line)
            continue
        if re.match(r"\s*(pub )?(ghost )?use ", line):
            out.append(line)
            continue
        cut = re.search(r"//" if rust else r"(^|\s)--(\s|$)", line)
        code, said = (line[: cut.start()], line[cut.start() :]) if cut else (line, "")
        pieces = re.split(r'("(?:\\.|[^"\\])*")', code) if rust else [code]

        def word(w):
            n = w[0]
            before = w.string[: w.start()]
            if before.endswith("."):
                return turned(n) if n in FIELDS else n
            if n in mine or ((rust or steps) and n in FIELDS and n not in theirs and re.search(r"[A-Z-]", n)):
                return turned(n)
            return n

        pieces = [q if q.startswith('"') else NAME.sub(word, q) for q in pieces]
        out.append("".join(pieces) + ticks(said, theirs - OURS))
    return "\n".join(out)


def together():
    """New names that two old ones share."""
    groups = collections.defaultdict(set)
    for n in OURS:
        groups[turned(n)].add(n)
    return {k: v for k, v in groups.items() if len(v) > 1}


def main():
    same = together()
    for k, v in sorted(same.items()):
        print("together:", k, "=", ", ".join(f"{n} ({' '.join(sorted(HOME[n]))})" for n in sorted(v)))
    n = 0
    for p in all_files():
        t = read(p)
        u = respell(p, t)
        if u != t:
            n += 1
            if WRITE:
                with open(p, "w", encoding="utf-8") as f:
                    f.write(u)
    for p in pages():
        t = read(p)
        if p.endswith(".edit"):
            u = "\n".join(l if l.startswith(("file: ", "old: ", "new:")) else ticks(l, set()) for l in t.split("\n"))
        else:
            u = ticks(t, set())
        if u != t:
            n += 1
            if WRITE:
                with open(p, "w", encoding="utf-8") as f:
                    f.write(u)
    print(sum(turned(x) != x for x in OURS), "names,", n, "files", "written" if WRITE else "would be written")


if __name__ == "__main__":
    main()
