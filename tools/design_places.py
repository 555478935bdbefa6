#!/usr/bin/env python3
"""Finds the places of older forms that docs/DESIGN-PASS.md counts, point by point.

usage, at the top of the repository: python3 tools/design_places.py [COMMIT or FOLDER] [--counts] [--point N]

Without an argument it reads the working tree. It prints for each point the kinds of places, how many there are, and each as file:line (function) with
what it is. --counts prints the numbers alone. It reads text and no types: a place is found by its form, and where a form alone does not tell (a 0 for
none, a place that two rules could claim), APART below names what was found and is something else, with the reason.
"""
import collections
import glob
import io
import os
import re
import signal
import subprocess
import sys
import tarfile

# (kind of place, function or type): found by its form, and something else
APART = {
    ("0 for none", "frontier::landing"): "a label",
    ("0 for none", "frontier::part"): "the empty set, which the sum needs",
    ("0 for none", "frontier::lost_by"): "what is added to a walk that goes on",
    ("0 for none", "words::reaches"): "a digit that is not there adds nothing",
    ("0 for none", "action_bytes::class_of"): "class 0 is what a part without its byte has, by the rules",
    ("0 for none", "scheme::state_for"): "state 0 is what a straight link has, by the rules",
    ("0 for none", "book::withdrawn"): "number 0 is what the rules refuse with 3",
    ("0 for none", "streams::number"): "the least number that an error can have there; counted in point 4",
    ("a value built field by field out of another", "frontier::with_stopped"): "its one field is another one",
    ("0 for none", "packer::answered"): "0 is the table's number of a call that was accepted",
    ("0 for none", "packer::link_told"): "0 is the table's number of a call that was accepted",
    ("0 for none", "packer::ended"): "0 is the table's number of a call that was accepted",
    ("0 for none", "many_routes::routes"): "0 is the table's number of a call that was accepted",
}

CLAUSE = re.compile(r"\b(requires|ensures)\b")


def blank(t, strings=True):
    """The text without comments, and without what stands in strings and characters, of the same length."""
    def gone(m):
        s = m[0]
        if s.startswith("//"):
            return " " * len(s)
        k = 2 if s[0] == "b" else 1
        return s if not strings else s[:k] + re.sub(r"[^\n]", " ", s[k:-1]) + s[-1]
    return re.sub(r'//[^\n]*|b?"(?:\\.|[^"\\])*"|b?\'(?:\\.|[^\'\\\n])\'', gone, t)


def closing(t, i):
    a = t[i]
    b = {"{": "}", "(": ")", "[": "]"}[a]
    deep = 0
    for k in range(i, len(t)):
        deep += (t[k] == a) - (t[k] == b)
        if not deep:
            return k + 1
    return len(t)


def one(s):
    return re.sub(r"\s+", " ", s).strip()


def split(s, sep=","):
    """The parts of a text at its own depth."""
    out, deep, last = [], 0, 0
    for i, c in enumerate(s):
        if c in "([{<":
            deep += 1
        elif c in ")]}" or (c == ">" and s[i - 1 : i] not in ("-", "=")):
            deep -= 1
        elif c == sep and not deep:
            out.append(one(s[last:i]))
            last = i + 1
    return [x for x in out + [one(s[last:])] if x]


class Item:
    """A function, or a type."""


class File:
    def __init__(self, path, raw):
        self.path, self.raw, self.t = path, raw, blank(raw)
        self.crate = path.split("/")[1]
        self.functions, self.types, spans = [], [], [m.span() for m in re.finditer(r"^ghost use [^;]*;|^\s*ghost \w+ [:=][^;{]*[;{]", self.t, re.M)]
        impl = [(m.start(), closing(self.t, self.t.index("{", m.end())), one(self.t[m.end() : self.t.index("{", m.end())])) for m in re.finditer(r"^(?:unsafe )?impl\b", self.t, re.M)]
        for m in re.finditer(r"\bfn\s+(\w+)", self.t):
            f = Item()
            f.file, f.name, f.at = self, m[1], m.start()
            f.line = self.t.count("\n", 0, m.start()) + 1
            f.impl = next((n for a, b, n in impl if a <= m.start() < b), "")
            i, deep = m.end(), 0
            while self.t[i] != "(" or deep:
                deep += (self.t[i] == "<") - (self.t[i] == ">" and self.t[i - 1] not in "-=")
                i += 1
            f.generics = self.t[m.end() : i].strip()
            j = closing(self.t, i)
            f.params = [p for p in split(self.t[i + 1 : j - 1])]
            f.clauses = []
            k = j
            while self.t[k] not in "{;":
                c = CLAUSE.match(self.t, k)
                if c:
                    o = self.t.index("{", c.end())
                    e = closing(self.t, o)
                    f.clauses.append((c[1], one(self.raw[o + 1 : e - 1])))
                    spans.append((c.start(), e))
                    k = e
                    continue
                k = closing(self.t, k) if self.t[k] in "([" else k + 1
            first = CLAUSE.search(self.t, j, k)
            f.result = one(self.t[j : first.start() if first else k]).removeprefix("->").strip()
            f.start, f.end = k, closing(self.t, k) if self.t[k] == "{" else k + 1
            f.body = self.t[k + 1 : f.end - 1]
            line = self.t.rfind("\n", 0, m.start()) + 1
            f.public = bool(re.search(r"\bpub\b", self.t[line : m.start()]))
            f.extern = "extern" in self.t[line : m.start()]
            self.functions.append(f)
        for m in re.finditer(r"^(pub )?(enum|struct)\s+(\w+)([^{;]*)\{", self.t, re.M):
            f = Item()
            f.file, f.kind, f.name, f.line = self, m[2], m[3], self.t.count("\n", 0, m.start()) + 1
            f.parts = split(self.t[m.end() : closing(self.t, m.end() - 1) - 1])
            f.parts = [one(re.sub(r"^pub ", "", p)) for p in f.parts if not p.startswith("ghost")]
            d = re.findall(r"#\[derive\(([^)]*)\)\]", self.raw[self.raw.rfind("\n\n", 0, m.start()) : m.start()])
            f.derives = [x for g in d for x in split(g)]
            self.types.append(f)

        code = list(self.t)
        for a, b in spans:
            code[a:b] = [c if c == "\n" else " " for c in code[a:b]]
        self.code = "".join(code)

    def inside(self, at):
        f = next((f for f in self.functions if f.at <= at < f.end), None)
        return f.name if f else "-"

    def line(self, at):
        return self.t.count("\n", 0, at) + 1


def tree(arg):
    """The files of crates/ of a folder or a commit: path and text."""
    if arg and not os.path.isdir(arg):
        data = subprocess.run(["git", "archive", arg, "crates"], capture_output=True, check=True).stdout
        with tarfile.open(fileobj=io.BytesIO(data)) as t:
            return {m.name: t.extractfile(m).read().decode() for m in t.getmembers() if m.isfile() and m.name.endswith((".rt", ".antt"))}
    top = arg or "."
    return {os.path.relpath(p, top): open(p, encoding="utf-8").read() for e in ("rt", "antt") for p in glob.glob(f"{top}/crates/*/**/*.{e}", recursive=True) if "/out/" not in p}


TREE = {}
FILES = []
FUNCTIONS = []
TYPES = []
OUT = collections.OrderedDict()
INFO = set()


def place(f, what="", line=None):
    return (f.file.path, line or f.line, f.name, what)


def at(file, pos, what=""):
    return (file.path, file.line(pos), file.inside(pos), what)


def tell(point, kind, places, note="", info=False):
    """Holds the places of a kind. With info they are told beside others and not counted among the point's places."""
    kept = []
    for p in places:
        crate = p[0].split("/")[1]
        if (kind, f"{crate}::{p[2]}") not in APART:
            kept.append(p)
    OUT[point, kind] = (sorted(kept), note)
    if info:
        INFO.add((point, kind))


def grep(pattern, where=None, what=""):
    r = re.compile(pattern)
    return [at(f, m.start(), what or one(m[0])[:60]) for f in FILES if not where or where(f) for m in r.finditer(f.code) if not one(f.code[f.code.rfind("\n", 0, m.start()) + 1 : m.start()]).startswith(("use ", "pub use"))]


def bodies(pattern, what, where=None):
    """Functions whose body has the pattern."""
    r = re.compile(pattern)
    return [place(f, what) for f in FUNCTIONS if r.search(f.body) and (not where or where(f))]


def whole(pattern, what, where=None):
    """Functions whose body is the pattern."""
    r = re.compile(pattern)
    return [place(f, what) for f in FUNCTIONS if r.fullmatch(one(f.body)) and (not where or where(f))]


# today's forms, for comparison

def point_0():
    tell(0, "functions that answer a Result", [place(f, f.result) for f in FUNCTIONS if re.search(r"\bResult<", f.result)])
    tell(0, "functions that answer an Option", [place(f, f.result) for f in FUNCTIONS if re.search(r"\bOption<", f.result)])
    tell(0, "the operator ?", grep(r"[\w)\]]\?(?=[;.,)\s])"))
    tell(0, "&& and ||", grep(r"&&|\|\|"))
    tell(0, "for loops", grep(r"\bfor\s+[^;{]*?\s+in\b"))
    tell(0, "iterators", grep(r"\.(?:iter|iter_mut|into_iter|chunks_exact|chunks|windows)\("))
    tell(0, "closures", grep(r"[(,=]\s*(?:move\s+)?\|(?:[^|\n]*\|)"))
    tell(0, "generic functions", [place(f, f.generics) for f in FUNCTIONS if re.sub(r"'\w+|[<>,\s]", "", f.generics)])
    tell(0, "traits", grep(r"(?m)^(?:pub )?trait\s+\w+"))
    tell(0, "impl of a trait", grep(r"(?m)^impl\b[^{;]*? for [^{;]*"))
    tell(0, "methods", [place(f, f.impl) for f in FUNCTIONS if f.impl and " for " not in f.impl])
    tell(0, "derives beyond Clone and Copy", [place(t, ", ".join(t.derives)) for t in TYPES if set(t.derives) - {"Clone", "Copy"}])
    tell(0, "dyn and function pointers", grep(r"\bdyn\b|:\s*(?:extern \"C\" )?fn\("))


# 1

def point_1():
    shaped = []
    for t in TYPES:
        if t.kind == "enum":
            refuses = any("(Refusal)" in p for p in t.parts)
            if refuses or len(t.parts) == 2:
                shaped.append(t)
    names = {t.name for t in shaped}
    enums = [t for t in TYPES if t.kind == "enum"]
    tell(1, "own enums, all", [place(t, f"{len(t.parts)} cases") for t in enums], info=True)
    tell(1, "own enums of the shape of Option or Result", [place(t, " | ".join(re.sub(r"\s*\{.*", " {..}", p) for p in t.parts)) for t in shaped])
    tell(1, "arms that take a refusal out of an own enum", [at(f, m.start(), one(m[0])) for f in FILES for m in re.finditer(r"\b[A-Z]\w*::Refused\(\w+\)\s*=>", f.code)], info=True)
    tell(1, "refusals given by an own enum or a helper", [at(f, m.start(), one(m[0])) for f in FILES for m in re.finditer(r"\breturn\s+(?:[A-Z]\w*::Refused\(|refused\()", f.code)], info=True)
    tell(1, "an answer and a value side by side", [place(t, ", ".join(t.parts)) for t in TYPES if t.kind == "struct" and len(t.parts) > 1 and any(re.search(r":\s*(\w+)", p) and re.search(r":\s*(\w+)", p)[1] in names for p in t.parts)]
         + [place(f, "leaves the cause in a parameter") for f in FUNCTIONS if any(re.search(r"&mut Option<", p) for p in f.params)])
    # 0 where there is none
    zero = []
    for f in FUNCTIONS:
        b = f.body.rstrip()
        if re.search(r"(?:^|[;}{]\s*)0$", b) or re.search(r"return 0;", b) or re.search(r"=> 0,", b):
            if f.result in ("u16", "u32", "u64", "usize"):
                zero.append(place(f, "answers 0 where there is none"))
        if re.search(r"\b(lowest|found|number|above|by)\s*(?:==|!=)\s*0\b", b) and not re.search(r"\.(number)\s*(==|!=) 0", b):
            zero.append(place(f, "takes 0 for none"))
        if re.search(r"let mut lowest\s*=\s*0", b):
            zero.append(place(f, "0 for none found yet"))
        if re.search(r"\w+: u(16|32) = 65536", b) or re.search(r"(straight|plus|minus): 0,", b):
            zero.append(place(f, "65536 above all numbers" if "65536" in b else "0 for none found yet"))
        if re.search(r"\blower\(|\bLowest \{", b) or re.search(r"\bLowest\b", f.result + " ".join(f.params)):
            zero.append(place(f, "hands such a number on"))
    for t in TYPES:
        if t.kind == "struct" and {"straight: u16", "plus: u16", "minus: u16"} <= set(t.parts):
            zero.append(place(t, "three numbers, 0 for a clear link"))
    tell(1, "0 for none", merge(zero))
    tell(1, "N or more for no walk", bodies(r"fabric::size\(n\) as u32|u32::from\(fabric\.size\(\)\)|(?:front|self)\.high|lost_by\(", "a walk's number, N or more for none", lambda f: f.file.crate == "frontier") + [place(t, "two such numbers") for t in TYPES if {"high: u32", "low: u32"} <= set(t.parts)])
    tell(1, "a book of size 0 for no book", bodies(r"Book \{\s*n: 0,|Book::open\(0\)", "beside a refusal"))
    tests = [(f, collections.Counter(a for a, b in re.findall(r"if ([\w.]+) == (\d+) \{\s*return", f.body))) for f in FUNCTIONS]
    tell(1, "a kind's number told by tests of equality, one after the other", [place(f, f"{a}, {n} tests") for f, c in tests for a, n in c.items() if n > 1])
    def which(parts, kinds=("code", "class", "choice", "kind", "action", "form", "version", "state")):
        return sorted({m[1] for p in parts for m in [re.match(r"(\w+)\s*:\s*(?:u8|u16)$", p)] if m and m[1] in kinds})
    tell(1, "numbers for kinds: functions", [place(f, " ".join(which(f.params))) for f in FUNCTIONS if which(f.params)])
    tell(1, "numbers for kinds: fields of types", [place(t, " ".join(which([q for p in t.parts for q in (split(p[p.index("{") + 1 : p.rindex("}")]) if "{" in p else [p])]))) for t in TYPES if which([q for p in t.parts for q in (split(p[p.index("{") + 1 : p.rindex("}")]) if "{" in p else [p])])])
    tell(1, "a set of links as the bits of a byte: functions", [place(f) for f in FUNCTIONS if which(f.params, ("set", "ways"))])
    packs = re.compile(r"\b(packed|Tells|number_of|Asks|OverSheet|OverLent|RoutesPairs|FieldsWritten|ReadsFields)\b")
    tell(1, "a table number and a value in one u64: exported to C", [place(f) for f in FUNCTIONS if f.result == "u64" and f.extern])
    tell(1, "a table number and a value in one u64: not exported", [place(f) for f in FUNCTIONS if f.result == "u64" and not f.extern and any(k == "ensures" and packs.search(c) for k, c in f.clauses)])
    tell(1, "a refusal as false, to C", [place(f) for f in FUNCTIONS if f.result == "bool" and f.extern])


def merge(places):
    by = collections.OrderedDict()
    for p in places:
        by.setdefault(p[:3], []).append(p[3])
    return [(*k, ", ".join(dict.fromkeys(v))) for k, v in by.items()]


# 2

def shape(f):
    """A function's signature and body with names, numbers and texts taken away."""
    seen = {}
    text = "(" + ", ".join(f.params) + ") " + f.result + " " + f.file.raw[f.start : f.end]
    text = blank(text)
    def turn(m):
        w = m[0]
        if w in ("if", "else", "while", "for", "in", "let", "mut", "return", "match", "loop", "break", "as", "true", "false", "self", "fn", "Some", "None", "Ok", "Err"):
            return w
        return "n%d" % seen.setdefault(w, len(seen))
    text = re.sub(r"[A-Za-z_]\w*", turn, text)
    text = re.sub(r"\b\d+\b", "0", text)
    text = re.sub(r'b" *"|b\' *\'', "S", text)
    return one(text)


def point_2():
    for name in ("both", "either"):
        tell(2, f"uses of {name}", [at(f, m.start()) for f in FILES for m in re.finditer(rf"\b(?<!fn ){name}\(", f.code)] )
    tell(2, "both and either themselves", [place(f) for f in FUNCTIONS if f.name in ("both", "either")])
    groups = collections.defaultdict(list)
    for f in FUNCTIONS:
        s = shape(f)
        if len(s) > 40 or "as" in s:
            groups[s].append(f)
    twins = []
    def is_example(f):
        return f.file.crate.endswith("_runs")
    for s, fs in groups.items():
        if len(fs) > 1 and not all(is_example(f) and {g.name for g in fs} != {f.name} for f in fs):
            label = " = ".join(f"{f.file.crate}::{f.name}" for f in fs)[:160]
            for f in fs:
                twins.append(place(f, label))
    tell(2, "functions that differ only in names, types, sizes or constants", twins, f"{len({p[3] for p in twins})} groups")
    tell(2, "a bit of a number by shifting", bodies(r">>\s*[^;]*%\s*2\b", "(x >> i) % 2"))
    tell(2, "whether a set of links has one", [place(f) for f in FUNCTIONS if f.result == "bool" and {p.split(":")[0].strip() for p in f.params} == {"set", "code"}])
    tell(2, "a value where a test holds, another where not", whole(r"if (\w+) \{ (\w+) \} else \{ (\w+) \}", "if a { p } else { q }") + whole(r"if (\w+) \{ return [^;{}]+; \} \w+", "if a { return p; } q") + whole(r"if \w+ <=? \w+ \{ return \w+; \} \w+", "if p <= q { return p; } q"))
    tell(2, "widening functions", whole(r"\w+ as (u16|u64|usize)", "x as T", lambda f: len(f.params) == 1))
    tell(2, "an answer told as a number: one match with an arm for a refusal", [place(f) for f in FUNCTIONS if f.result == "u64" and re.fullmatch(r"match .*", one(f.body)) and re.search(r"=>\s*refused\(why\)", f.body) and f.file.crate in ("packer", "field_reader")])
    tell(2, "refused, which only wraps", [place(f, f.file.crate) for f in FUNCTIONS if f.name == "refused"])
    halves = []
    for f in FUNCTIONS:
        if any(k == "requires" and re.search(r"\bSound\b", c) for k, c in f.clauses) and f.public:
            ens = [c for k, c in f.clauses if k == "ensures"]
            for g in f.file.functions:
                if g is not f and g.public and ens and [c for k, c in g.clauses if k == "ensures"] == ens and not any(k == "requires" for k, c in g.clauses):
                    halves.append(place(g, f"{g.name} and, over a sound book, {f.name}"))
    tell(2, "an entry and its half over a sound book", halves)
    tell(2, "a sheet's book made, and the refusal taken first", [place(f) for f in FUNCTIONS if re.search(r"\b(?:sound_)?book_of\(", f.body) and re.search(r"\bmatch\b", f.body)])
    tell(2, "reading until nothing comes", [at(f, m.start()) for f in FILES for m in re.finditer(r"\breader\.read\(", f.code)])


# 3

def loops():
    for f in FILES:
        for m in re.finditer(r"\b(while|loop)\b", f.code):
            o = f.code.index("{", m.end())
            e = closing(f.code, o)
            yield f, m, one(f.code[m.start() : o]), f.code[o:e]


def point_3():
    all_, index, early, others = [], [], [], []
    for f, m, head, body in loops():
        h = re.match(r"while (?:0 < (\w+)|(\w+) < [^{]*|\w+ < (\w+))$", head)
        counted = [v for v in re.findall(r"\b(\w+) [+-]= 1;", body)]
        what = head
        if re.search(r"\breturn\b|\bbreak\b", body):
            what += ", ends early"
        all_.append(at(f, m.start(), what))
        (index if counted and m[1] == "while" else others).append(at(f, m.start(), what))
        if "ends early" in what and counted:
            early.append(at(f, m.start(), what))
    tell(3, "loops by while or loop", all_)
    tell(3, "of these by a while that counts an index by one", index, info=True)
    tell(3, "of these that end early, a search or a test of all", early, info=True)
    tell(3, "of these that are no while with an index", others, info=True)


# 4

def point_4():
    tell(4, "equality by hand", [place(f, "field by field against a constant") for f in FUNCTIONS if f.result == "bool" and f.name in ("is_first_target", "is_filler")] + [place(f, "three bytes one by one") for f in FUNCTIONS if len(re.findall(r"\[\d\] != b", f.body)) > 2])
    tell(4, "order by hand: the lesser of two", [place(f, one(f.body)) for f in FUNCTIONS if re.search(r"if (\w+) <=? (\w+) \{\s*return \1;\s*\}\s*\2\s*$", f.body)])
    tell(4, "bytes of a number by hand: lines", merge([at(f, m.start(), one(f.code[f.code.rfind("\n", 0, m.start()) + 1 : f.code.find("\n", m.start())])) for f in FILES for m in re.finditer(r"[/%*] 256\b|\b256 \*|[/%*] 65536\b|\b65536 \*|[/%] 16777216\b|\b4294967296 \*|\bBYTE \*", f.code)]))
    tell(4, "of these / 256 and % 256: lines", merge([at(f, m.start()) for f in FILES for m in re.finditer(r"[/%] 256\b", f.code)]), info=True)
    tell(4, "a case as a number, or a number as words, by a match", [place(f, f"{len(re.findall('=>', f.body))} arms") for f in FUNCTIONS if len(re.findall(r"=>\s*(?:\d+|value\(\d+\)|say\(rt, b\"[^\"]*\")", f.body)) > 2])
    tell(4, "a conversion that may not fit, by a test", whole(r"if (\w+) < 0 \{ return 0; \} \1 as \w+", "0 where it is negative") + whole(r"if \w+ < \w+ \{ return 0; \} 1", "a test as a number"))
    tell(4, "the table's number asked for by name", [at(f, m.start()) for f in FILES for m in re.finditer(r"\btable::number\(", f.code)])
    tell(4, "a value built field by field out of another", merge([place(f, ", ".join(m[0] for m in re.finditer(r"\b(\w+): \w+\.\1\b", f.body))) for f in FUNCTIONS if re.search(r"\b(\w+): \w+\.\1\b", f.body)]))
    prints = r"=>\s*(?:\{\s*)?(?:word|refused|refusal_told|stopped|say|say_refused|show::refused|tag_told|none_told|listed|wrote|streams::complain|print|refused_sheet)\("
    tell(4, "what an answer says, printed by a match", [place(f) for f in FUNCTIONS if f.result in ("", "usize", "Book") and len(re.findall(prints, f.body)) > 0 and not re.search(r"\berrno\b", f.body) and not re.search(r"raw_os_error", f.body)])
    tell(4, "a number's digits written by hand", bodies(r"% 10\b", "decimal") + bodies(r"48 \+ \(\(", "bits"))
    tell(4, "types with a derive of equality, order or printing", [place(t, ", ".join(t.derives)) for t in TYPES if set(t.derives) & {"PartialEq", "Eq", "PartialOrd", "Ord", "Debug", "Hash"}], info=True)
    tell(4, "types that derive Clone and Copy alone", [place(t) for t in TYPES if set(t.derives) == {"Clone", "Copy"}], info=True)
    tell(4, "types without a derive", [place(t) for t in TYPES if not t.derives], info=True)
    tell(4, "casts by as: lines", merge([at(f, m.start()) for f in FILES for m in re.finditer(r" as (?:u8|u16|u32|u64|usize)\b", f.code)]), info=True)


# 5

FACTS = [
    ("Sound of a book", r"\bSound (book|self|sheet)?[\w.]*"),
    ("n ≤ 12", r"\b(?:book\.)?n ≤ 12"),
    ("a label below size n", r"\b\w+ < size (?:\w+\.)*n\b"),
    ("a stage: i < n, stage < n", r"\b(?:i|stage) < (?:\w+\.)*n\b"),
    ("i ≤ 12, stage ≤ 12, column ≤ n", r"\b(?:i|stage) ≤ (?:12|(?:\w+\.)*n)\b|\bcolumn ≤ (?:\w+\.)*n\b|\bstage < 12\b|\bi < 12\b"),
    ("code < 3", r"\bcode < 3"),
    ("a bit or a state below 2", r"\b(?:b|t|state|result) < 2(?! \^)\b"),
    ("count ≤ 48", r"\bcount (?:≤|<) 48"),
    ("room from a place on: at + k ≤ length out", r"\bat \+ [\w .+*]+ ≤ length (?:out|memory)[.\w]*"),
    ("a place no further than its room: result ≤ at + k", r"result ≤ at \+"),
    ("room of a memory: k ≤ length memory", r"[\w* ]+ ≤ length (?:memory|lines|sheet|part|answers)[.\w]*"),
    ("Ways of straights and forks", r"\bWays\b"),
    ("length part ≤ 11 or 10 ≤ length part", r"length part\.now ≤ 11|10 ≤ length part\.now"),
    ("header_length ≤ length sheet", r"header_length ≤ length sheet"),
    ("a walk's number below 2^25", r"33554432"),
]


def point_5():
    for name, pattern in FACTS:
        r = re.compile(pattern)
        req = [place(f, "requires") for f in FUNCTIONS if any(k == "requires" and r.search(c) for k, c in f.clauses)]
        ens = [place(f, "ensures") for f in FUNCTIONS if any(k == "ensures" and r.search(c) for k, c in f.clauses)]
        both = merge(req + ens)
        tell(5, f"{name}", both, f"{len(req)} requires, {len(ens)} ensures", info=len(both) < 3)
    # conjuncts that no line above has
    count = collections.defaultdict(list)
    for f in FUNCTIONS:
        for k, c in f.clauses:
            if k == "requires":
                for p in split(c, "×"):
                    p = p.strip("() ")
                    if not any(re.search(r, p) for _, r in FACTS):
                        count[p].append(place(f, p))
    tell(5, "another fact in three or more requires", [p for v in count.values() if len(v) > 2 for p in v])
    groups = [
        ("(out, at)", lambda n: {"out", "at"} <= n),
        ("(notices, count)", lambda n: {"notices", "count"} <= n),
        ("(straights, forks)", lambda n: {"straights", "forks"} <= n),
        ("(straight, fork) of one column", lambda n: {"straight", "fork"} <= n),
        ("(n, label): n with source, switch, destination or j", lambda n: "n" in n and n & {"source", "destination", "switch", "j"}),
        ("(source, destination)", lambda n: {"source", "destination"} <= n),
        ("(stage, switch, code), a link", lambda n: {"stage", "switch", "code"} <= n),
        ("(stage, switch) of a link or target", lambda n: {"stage", "switch"} <= n),
        ("(sheet, n, count)", lambda n: {"sheet", "n", "count"} <= n),
        ("(stage, number) of what stopped a walk or a route", lambda n: n & {"stage"} and n & {"number", "by"} and not n & {"switch", "value"}),
    ]
    for name, test in groups:
        tell(5, f"parameters {name}", [place(f) for f in FUNCTIONS if test({p.split(":")[0].replace("mut ", "").strip() for p in f.params})])


# 6

def point_6():
    tell(6, "a field that is an array, with its length beside it", [place(t, "; ".join(p for p in t.parts if "[" in p or "count" in p)) for t in TYPES if t.kind == "struct" and any("[" in p for p in t.parts) and any(re.match(r"(count|len|length)\b", p) for p in t.parts)])
    tell(6, "parallel arrays in one type", [place(t, "; ".join(t.parts)) for t in TYPES if t.kind == "struct" and sum("[" in p for p in t.parts) > 1])
    tell(6, "an array and its count as parameters", [place(f) for f in FUNCTIONS if {"notices", "count"} <= {p.split(":")[0].strip() for p in f.params}])
    tell(6, "two parallel arrays as parameters", [place(f, ", ".join(p for p in f.params if "[" in p)) for f in FUNCTIONS if sum(bool(re.search(r"&\[u16; 13\]", p)) for p in f.params) > 1])
    tell(6, "an array by value as a parameter", [place(f, ", ".join(p for p in f.params if re.search(r": \[", p))) for f in FUNCTIONS if any(re.search(r":\s*\[", p) for p in f.params)])
    tell(6, "a memory and a place in it as parameters", [place(f) for f in FUNCTIONS if "at" in {p.split(":")[0].strip() for p in f.params} and any("&mut [u8]" in p for p in f.params)])
    searches = []
    for f, m, head, body in loops():
        if re.search(r"\.number\b", body) and re.search(r"\breturn\b", body) or re.search(r"x\.number\b.*lower|each_held", body, re.S):
            searches.append(at(f, m.start(), head))
    tell(6, "notices by rising number gone through by hand", searches)
    tell(6, "a set of several small numbers in one integer", [place(t, "; ".join(t.parts)) for t in TYPES if t.kind == "struct" and any(re.match(r"sets: u64", p) for p in t.parts)] + bodies(r"sets % 16|sets / 16|<< \(4 \* i\)", "four bits a stage"))
    tell(6, "memory of a program with how much of it is in use", bodies(r"let mut \w+ = \[0u8; (?:\w+::)?\w*(?:ROOM|98304|WRITTEN)\]", "a fixed array", lambda f: f.file.path.endswith("main.rt")))


# 7

def point_7():
    tell(7, "a number or flag that chooses which step to run", [place(f, ", ".join(p for p in f.params if re.match(r"(form|at_once|step|which)\b", p))) for f in FUNCTIONS if any(re.match(r"(form|at_once|step|which)\b", p) for p in f.params)])


# 8

def point_8():
    per = collections.defaultdict(collections.Counter)
    for p, t in TREE.items():
        if p.endswith(".antt") and "/must-fail/" not in p:
            c, kind = p.split("/")[1], p.split("/")[2]
            base = p.rsplit("/", 1)[1]
            if kind == "proofs":
                per[c]["files"] += 1
                per[c]["lines"] += t.count("\n")
                if base in ("Answers.antt", "Invariants.antt") and p.count("/") > 3:
                    per[c][base] += 1
                    per[c][base + " lines"] += t.count("\n")
            elif kind == "specs":
                per[c]["specs lines"] += t.count("\n")
    OUT[8, "table"] = (per, "")
    windows = collections.defaultdict(list)
    for p, t in TREE.items():
        if p.endswith(".antt") and "/proofs/" in p:
            lines = [(i + 1, one(l)) for i, l in enumerate(t.split("\n")) if l.strip() and not l.lstrip().startswith(("use ", "--", "mod ", "pub use", "ghost"))]
            for i in range(len(lines) - 5):
                windows["\n".join(l for _, l in lines[i : i + 6])].append((p, lines[i][0]))
    pairs = {}
    for key, v in windows.items():
        for i, a in enumerate(v):
            for b in v[i + 1 :]:
                pairs.setdefault((a[0], b[0]), (a[1], b[1], 0))
                x = pairs[a[0], b[0]]
                pairs[a[0], b[0]] = (x[0], x[1], x[2] + 1)
    alike = collections.defaultdict(set)
    for p, t in TREE.items():
        if p.endswith(".antt") and "/proofs/" in p:
            lines = [one(l) for l in t.split("\n") if l.strip() and not l.lstrip().startswith(("use ", "--", "mod ", "pub use", "ghost"))]
            for i in range(len(lines) - 5):
                seen = {}
                w = "\n".join(lines[i : i + 6])
                if len(w) > 120:
                    alike[re.sub(r"[A-Za-z_][\w'′-]*", lambda m: "n%d" % seen.setdefault(m[0], len(seen)), re.sub(r"\d+", "0", w))].add(p)
    two = {(a, b) for v in alike.values() for a in v for b in v if a < b}
    tell(8, "pairs of proof files that share six lines but for names and numbers", [(a, 0, b.split("/", 1)[1], "") for a, b in two])
    tell(8, "pairs of proof files that share six lines or more, word for word", [(a, x[0], b.split("/", 1)[1], f"from line {x[1]}, {x[2] + 5} lines") for (a, b), x in pairs.items()])


def main(argv):
    global FILES, FUNCTIONS, TYPES
    args = [a for a in argv if not a.startswith("--")]
    only = None
    if "--point" in argv:
        only = int(argv[argv.index("--point") + 1])
        args = [a for a in args if a != argv[argv.index("--point") + 1]]
    TREE.update(tree(args[0] if args else None))
    FILES = [File(p, t) for p, t in sorted(TREE.items()) if p.endswith(".rt") and "/src/" in p]
    FUNCTIONS = [f for x in FILES for f in x.functions]
    TYPES = [t for x in FILES for t in x.types]
    print(f"{len(FILES)} files of src/, {sum(f.raw.count(chr(10)) for f in FILES)} lines, {len(FUNCTIONS)} functions ({sum(f.public for f in FUNCTIONS)} pub), {len(TYPES)} types")
    for i in range(0, 9):
        if only in (None, i):
            globals()[f"point_{i}"]()
    last = None
    for (point, kind), (places, note) in OUT.items():
        if point != last:
            kinds = [k for p, k in OUT if p == point and (p, k) not in INFO and k != "table"]
            print(f"\npoint {point}: {len({q[:3] for k in kinds for q in OUT[point, k][0]})} places (functions, types or lines), {len(kinds)} kinds" if point else "\ntoday's forms")
            last = point
        if kind == "table":
            total = collections.Counter()
            for c in places.values():
                total.update(c)
            for c, n in sorted(places.items()) + [("all", total)]:
                if "--counts" not in argv or c == "all":
                    print(f"  {c}: {n['files']} proof files, {n['lines']} lines; {n['Answers.antt']} Answers.antt with {n['Answers.antt lines']} lines, {n['Invariants.antt']} Invariants.antt with {n['Invariants.antt lines']} lines; {n['specs lines']} lines of specs")
            continue
        print(f"  {kind}: {len(places)}" + (f" ({note})" if note else "") + (" [beside]" if (point, kind) in INFO else ""))
        if "--counts" not in argv:
            for p, line, f, what in places:
                print(f"    {p}:{line} ({f})" + (f" {what}" if what else ""))
    return 0


if __name__ == "__main__":
    signal.signal(signal.SIGPIPE, signal.SIG_DFL)
    sys.exit(main(sys.argv[1:]))
