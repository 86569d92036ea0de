#!/usr/bin/env python3
"""Lists places where an older form may stand.

usage: python3 tools/places.py [--top FOLDER] [--only NUMBER] [--count] [CRATE..]

It reads crates/*/src/*.rt, and for 8 crates/*/proofs, and prints each place as file:line, function, and what stands there, under
  1  flags, codes and answers by hand: an enum without derives; a flag among the parameters, or true, false or two numbers
     given to a call; a pair of numbers, or of a flag and a value, as a result; Option and Result taken apart by hand
  2  twins: two functions whose texts are alike once names and numbers are left out, two that have the same text,
     and constants of one value
  3  loops that count: for over a range (and whether the number only indexes), while but not while let, loop, += 1, -= 1;
     and a for over items whose body only tests, fills or adds
  4  equality, order, copying, conversion and printing by hand: types without Debug and PartialEq, impls of Clone, PartialEq,
     PartialOrd, Ord and Debug, as, format! and write! of more than one value outside fmt
  5  a fact in the contracts or fields of three or more items, and two parameters that go together through three or more functions
  6  a table with a length beside it, tables of one length side by side in a struct, the front of a table cut out by its length
  7  a switch: a parameter or self that only says which way to go (bool, or an enum whose variants hold nothing)
  8  answers, lemmas, and lines of proofs that stand in three or more files

A place is one that may be of an older form: what is printed is to be looked at, and not every line of it is to be changed.
--count prints the numbers alone, per crate. trials, which has only tests, is counted apart. What is under #[cfg(test)] is left out elsewhere.
"""

import difflib
import glob
import itertools
import os
import re
import sys
from collections import defaultdict

LITERAL = re.compile(r"//[^\n]*|b?\"(?:\\.|[^\"\\])*\"|b?'(?:\\.[^']*|[^'\\])'")
FUNCTION = re.compile(r"\bfn\s+(\w+)")
TOKEN = re.compile(r"\w+|[^\s\w]")
WORDS = set("fn let mut if else match for in return while loop break true false as self Self Some None Ok Err ref move".split())


def blank(text):
    """The text with comments, strings and characters blotted out, of the same length."""
    def blot(m):
        s = m.group(0)
        if s.startswith("//"):
            return " " * len(s)
        return "".join("\n" if c == "\n" else "_" for c in s)
    return LITERAL.sub(blot, text)


def close(text, i):
    """The place after the bracket that closes the one at i."""
    pairs = {"(": ")", "{": "}", "[": "]"}
    depth = 0
    for j in range(i, len(text)):
        if text[j] in "({[":
            depth += 1
        elif text[j] in ")}]":
            depth -= 1
            if depth == 0:
                return j + 1
    return len(text)


class Function:
    def __init__(self, source, name, at, params, result, clauses, body, body_at):
        self.source, self.name, self.at = source, name, at
        self.params, self.result, self.clauses, self.body, self.body_at = params, result, clauses, body, body_at

    def line(self, offset=None):
        return self.source.line(self.at if offset is None else offset)


class Source:
    def __init__(self, path):
        self.path = path
        self.crate = path.split("/")[1]
        with open(path, encoding="utf-8") as f:
            self.raw = f.read()
        self.text = blank(self.raw)
        cut = self.text.find("#[cfg(test)]")
        if cut >= 0 and self.crate != "trials":
            self.text = self.text[:cut]
        self.functions = list(self.read())

    def line(self, offset):
        return self.text.count("\n", 0, offset) + 1

    def read(self):
        text = self.text
        for m in FUNCTION.finditer(text):
            i = text.find("(", m.end())
            head = m.end()
            if text[head:head + 1] == "<":
                depth = 0
                for j in range(head, len(text)):
                    depth += {"<": 1, ">": -1}.get(text[j], 0)
                    if depth == 0:
                        break
                i = text.find("(", j)
            j = close(text, i)
            params = text[i + 1:j - 1]
            clauses, k, result = [], j, None
            word = re.compile(r"\b(requires|ensures)\b\s*\*?\s*(\w+)?\s*(?=\{)|[{;\[]")
            body, body_at = "", len(text)
            while k < len(text):
                c = word.search(text, k)
                if not c:
                    break
                if c.group(0) == "[":
                    k = close(text, c.start())
                    continue
                if result is None:
                    result = text[j:c.start()].strip()
                if c.group(0) == ";":
                    break
                if c.group(0) == "{":
                    end = close(text, c.start())
                    body, body_at = text[c.start():end], c.start()
                    break
                end = close(text, c.end())
                clauses.append((c.group(1), text[c.end() + 1:end - 1].strip(), c.start()))
                k = end
            yield Function(self, m.group(1), m.start(), params, (result or "").replace("->", "").strip(), clauses, body, body_at)

    def function_at(self, offset):
        inside = [f for f in self.functions if f.at <= offset <= f.body_at + len(f.body)]
        return inside[-1].name if inside else "-"

    def types(self):
        for m in re.finditer(r"((?:#\[derive\([^)]*\)\]\s*)*)(?:pub(?:\(crate\))?\s+)?(struct|enum)\s+(\w+)[^;{(]*([;{(])", self.text):
            start = m.end() - 1
            body = "" if m.group(4) == ";" else self.text[start:close(self.text, start)]
            derives = set(re.findall(r"\w+", " ".join(re.findall(r"derive\(([^)]*)\)", m.group(1)))))
            yield m.group(2), m.group(3), derives, body, m.start(2)


def split(text, by=","):
    parts, depth, last = [], 0, 0
    for i, c in enumerate(text):
        if c in "({[<":
            depth += 1
        elif c in ")}]>" and text[i - 1:i] != "-":
            depth -= 1
        elif c == by and depth == 0:
            parts.append(text[last:i].strip())
            last = i + 1
    return [p for p in parts + [text[last:].strip()] if p]


def spread(text):
    return " ".join(text.split())


def params_of(f):
    found = []
    for p in split(f.params):
        name, _, kind = p.partition(":")
        if kind:
            found.append((spread(name).replace("mut ", ""), spread(kind)))
    return found


def unit_enums(sources):
    found = set()
    for s in sources:
        for kind, name, _, body, _ in s.types():
            if kind == "enum" and not re.search(r"[({]", body[1:-1]):
                found.add(name)
    return found


def first(sources):
    for s in sources:
        for kind, name, derives, _, at in s.types():
            lacking = [d for d in ("Debug", "PartialEq") if d not in derives]
            if kind == "enum" and lacking:
                yield s, at, f"enum {name} without {' and '.join(lacking)}"
        for f in s.functions:
            for name, kind in params_of(f):
                if kind == "bool":
                    yield s, f.at, f"flag {name}"
            r = spread(f.result)
            if re.fullmatch(r"\((?:u\d+|usize|bool)(?:, [\w ]+)+\)", r):
                yield s, f.at, f"result {r}"
            body = f.body
            for m in re.finditer(r"\w+\([^()]*\b(true|false)\b[^()]*\)", body):
                if not re.match(r"(Ok|Some|Err|contains)\(", m.group(0)):
                    yield s, f.body_at + m.start(), f"flag given: {spread(m.group(0))}"
            for m in re.finditer(r"\b\w+\([^()]*\b\d+\s*,\s*\d+\s*\)", body):
                yield s, f.body_at + m.start(), f"numbers given: {spread(m.group(0))}"
            hand = [
                (r"Ok\((\w+)\)\s*=>\s*\1\s*,\s*Err\(\w+\)\s*=>\s*return", "Err returned by hand"),
                (r"Ok\(\w+\)\s*=>\s*return", "Ok returned by hand"),
                (r"Some\(\w+\)\s*=>\s*Some\(", "Some made of Some"),
                (r"Some\(\w+\)\s*=>\s*Ok\(", "Ok made of Some"),
                (r"Ok\(\w+\)\s*=>\s*Some\(", "Some made of Ok"),
                (r"Ok\((\w+)\)\s*=>\s*Ok\(", "Ok made of Ok"),
                (r"let\s+(?:\w+::)?(?:Some|Ok|\w+::\w+)\b[^;=]*=[^;]*?else\s*\{\s*return\b", "let else that returns"),
                (r"\{\s*Some\([^{}]*\)\s*\}\s*else\s*\{\s*None\s*\}", "Some or None by a test"),
                (r"if [^{};]*\{\s*return None;\s*\}", "None returned by a test"),
                (r"if [^{};]*\{\s*return Err\(", "Err returned by a test"),
                (r"=>\s*return Err\(|_ =>\s*Err\(", "Err in a match"),
                (r"if \w+ < [\w.]+ \{[^{}]*\[\w+\][^{}]*\}\s*else\s*\{", "a test of the place, then the place"),
                (r"(?:\w+(?:::\w+)+(?: \{ \.\. \})? => \d+,?\s*){3,}", "numbers for the variants"),
            ]
            for pattern, what in hand:
                for m in re.finditer(pattern, body):
                    yield s, f.body_at + m.start(), what


def shape(text):
    out = []
    for t in TOKEN.findall(text):
        if t in WORDS or not re.match(r"\w", t):
            out.append(t)
        else:
            out.append("N" if t[0].isdigit() else "x")
    return out


def second(sources):
    constants = defaultdict(list)
    for s in sources:
        for m in re.finditer(r"\bconst (\w+): (?:usize|u\d+|Ticks) = ([\d_]+);", s.text):
            constants[m.group(2).replace("_", "")].append((s, m.start(), m.group(1)))
    for value, places in constants.items():
        for s, at, name in places if len(places) > 1 else []:
            yield s, at, f"const {name}, one of {len(places)} of the value {value}"
    all_of = [(f, TOKEN.findall(f.body), shape(f.params + f.result + f.body)) for s in sources for f in s.functions if len(TOKEN.findall(f.body)) >= 7 and f.name != "fmt"]
    for (f, own, a), (g, other, b) in itertools.combinations(all_of, 2):
        if min(len(a), len(b)) * 1.25 < max(len(a), len(b)):
            continue
        same = own == other and f.source is not g.source
        m = difflib.SequenceMatcher(None, a, b, autojunk=False)
        if same or (m.real_quick_ratio() > 0.85 and m.quick_ratio() > 0.85 and m.ratio() > 0.87 and len(a) >= 24):
            yield f.source, f.at, f"{f.name} and {g.name} ({g.source.path}:{g.line()}), {'same text' if same else f'{m.ratio():.2f}'}"


def third(sources):
    for s in sources:
        for f in s.functions:
            body = f.body
            for m in re.finditer(r"\bfor\s+(\w+|\([^)]*\))\s+in\s+([^{]*)\{", body):
                at = m.end() - 1
                inner = body[at:close(body, at)]
                name, over = m.group(1), spread(m.group(2))
                if ".." in over and not re.search(r"\[[^\]]*\.\.", over):
                    rest = re.sub(r"\[[^\[\]]*\b" + re.escape(name) + r"\b[^\[\]]*\]", "[]", inner)
                    only = "_" == name or not re.search(r"\b" + re.escape(name) + r"\b", rest)
                    yield s, f.body_at + m.start(), f"for {name} in {over}" + (", which only indexes" if only else "")
                else:
                    todo = []
                    if re.search(r"return|break", inner):
                        todo.append("ends early")
                    if re.search(r"\]\s*=[^=]", inner):
                        todo.append("fills")
                    if re.search(r"[+*]=|= \w+ \* ", inner):
                        todo.append("adds")
                    yield s, f.body_at + m.start(), f"for {spread(name)} in {over}" + (f": {', '.join(todo)}" if todo else "")
            for pattern, what in ((r"\bwhile\s+(?!let\b)[^{]*", "while"), (r"\bloop\s*\{", "loop"), (r"[\w.\[\]]+\s*[+-]=\s*1\b", "step"), (r"\w+ = [\w.]+ [+-] 1;", "step"), (r"\b(\w+) = \1\.saturating_add\(1\)", "step")):
                for m in re.finditer(pattern, body):
                    yield s, f.body_at + m.start(), f"{what}: {spread(m.group(0))}"


def fourth(sources):
    for s in sources:
        for kind, name, derives, _, at in s.types():
            lacking = [d for d in ("Debug", "PartialEq") if d not in derives]
            if lacking:
                yield s, at, f"{kind} {name} without {' and '.join(lacking)}"
        for m in re.finditer(r"\bimpl\b(?:<[^{]*?>)?\s+(?:\w+::)*(Clone|Copy|PartialEq|Eq|PartialOrd|Ord|Debug)\b[^{]*\sfor\s+(\w+)", s.text):
            yield s, m.start(), f"impl {m.group(1)} for {m.group(2)}"
        for m in re.finditer(r"\bas\s+(u\d+|usize|i\d+|char)\b", s.text):
            if s.function_at(m.start()) != "-":
                yield s, m.start(), f"as {m.group(1)}"
        for m in re.finditer(r"\b(?:format|write)(?:ln)?!\((?!in \w+; _*\))", s.text):
            if s.function_at(m.start()) != "fmt":
                yield s, m.start(), m.group(0).strip("(")
        for m in re.finditer(r"\.cmp\(&|\.is_lt\(\)|\.is_gt\(\)", s.text):
            yield s, m.start(), m.group(0).strip(".(&)")


def conjuncts(clause):
    clause = clause.strip()
    while clause.startswith("(") and close(clause, 0) == len(clause):
        clause = clause[1:-1].strip()
    parts, depth, last = [], 0, 0
    for i, c in enumerate(clause):
        depth += {"(": 1, "{": 1, ")": -1, "}": -1}.get(c, 0)
        if c == "×" and depth == 0:
            parts.append(clause[last:i])
            last = i + 1
    parts.append(clause[last:])
    if len(parts) == 1:
        return [spread(clause)]
    return [c for p in parts for c in conjuncts(p)]


def fifth(sources):
    facts, groups = defaultdict(list), defaultdict(list)
    for s in sources:
        for f in s.functions:
            for word, clause, at in f.clauses:
                for fact in conjuncts(clause) if word == "requires" or "result" not in clause else [made(clause)]:
                    facts[plain(fact)].append((s, at, f.name))
            for group in itertools.combinations(sorted(params_of(f)), 2):
                groups[group].append((s, f.at, f.name))
        for kind, name, _, body, start in s.types():
            for m in re.finditer(r"ghost\s+(\w+):\s*(?=\{)", body):
                clause = body[m.end() + 1:close(body, m.end()) - 1]
                for fact in conjuncts(clause):
                    facts[plain(fact)].append((s, start + 1, name))
    for fact, where in sorted(facts.items()):
        if not fact:
            continue
        if len({(s.path, n) for s, _, n in where}) >= 3:
            for s, at, name in where:
                yield s, at, f"fact {fact}"
    for group, where in sorted(groups.items()):
        if len(where) >= 3:
            for s, at, name in where:
                yield s, at, "parameters " + ", ".join(f"{n}: {k}" for n, k in group)


def made(clause):
    """What an ensures of a result begins with, where it says of what is made what its type could say."""
    m = re.match(r"IfOk result \(λ \w+\. string_bytes \w+|(?:\(\w+ : ℕ\) → )+(?:\w+ < [\w. ]+ → )?slice_index(?:_or)? result", clause)
    return m.group(0) if m else ""


def plain(fact):
    fact = re.sub(r"\b\w+(?:\.(?!now|old|new|entry)\w+)*\.(?:now\.|old\.|new\.)?(?!now|old|new|entry)(\w+)\b", r"_.\1", fact)
    fact = re.sub(r"\b(self|result)\.(now|old|new|entry)\b", "self", fact)
    fact = re.sub(r"\b(\w+)\.(now|old|new|entry)\b", r"\1", fact)
    return re.sub(r"(?<![\w.])[a-z](?![\w.])", "_", spread(fact))


def sixth(sources):
    for s in sources:
        for kind, name, _, body, at in s.types():
            if kind != "struct":
                continue
            fields = [(m.group(1), spread(m.group(2))) for p in split(body[1:-1]) for m in [re.match(r"(?:pub(?:\(crate\))?\s+)?(\w+)\s*:\s*(.*)", p, re.S)] if m and not p.startswith("ghost")]
            tables = [(n, t) for n, t in fields if t.startswith("[") or t in ("After", "Edges")]
            lengths = [n for n, t in fields if t == "usize"]
            if tables and lengths:
                yield s, at, f"struct {name}: table {tables[0][0]} with {', '.join(lengths)}"
            by = defaultdict(list)
            for n, t in tables:
                by[t.rsplit(";", 1)[-1].strip(" ]")].append(n)
            for size, names in by.items():
                if len(names) > 1:
                    yield s, at, f"struct {name}: tables of {size} side by side: {', '.join(names)}"
        for f in s.functions:
            arrays = [n for n, t in params_of(f) if re.fullmatch(r"&?(mut )?\[.*\]|&After|&Edges", t)]
            if len(arrays) > 1:
                yield s, f.at, f"tables side by side: {', '.join(arrays)}"
            if "[" in f.result.split(";")[0] and ";" in f.result and re.search(r"take|≤", " ".join(c for _, c, _ in f.clauses)):
                yield s, f.at, f"a table of which a front counts: {spread(f.result)}"
            for m in re.finditer(r"\w+(?:\.\w+)*\[0?\.\.(?!\])[^\]]+\]", f.body):
                yield s, f.body_at + m.start(), f"front {spread(m.group(0))}"


def seventh(sources):
    units = unit_enums(sources)
    for s in sources:
        impls = [(m.start(), close(s.text, m.end() - 1), m.group(1)) for m in re.finditer(r"\bimpl\b[^{]*?(\w+)(?:<[^{]*?>)?\s*\{", s.text)]
        for f in s.functions:
            owner = next((n for a, b, n in impls if a <= f.at < b), None)
            for name, kind in params_of(f):
                if kind == "bool" or kind.strip("&") in units:
                    yield s, f.at, f"{name}: {kind}"
            if owner in units and re.search(r"\bself\b", f.params):
                yield s, f.at, f"self: {owner}"


def eighth(top, crates):
    lines, lemmas = defaultdict(set), defaultdict(set)
    for path in sorted(glob.glob("crates/*/proofs/**/*.antt", recursive=True)):
        if crates and path.split("/")[1] not in crates:
            continue
        with open(path, encoding="utf-8") as f:
            for i, line in enumerate(f, 1):
                m = re.match(r"pub ([\w-]+) : goal\.", line)
                own = re.match(r"(?:pub |abbrev |unfoldable )*([\w'-]+) : ", line)
                if m:
                    yield path, i, "answer " + m.group(1)
                elif own and not path.endswith("Lib.antt") and "goal." not in line:
                    yield path, i, "lemma " + own.group(1)
                    lemmas[own.group(1)].add(path)
                bare = spread(line)
                if len(bare) > 60 and not bare.startswith(("use ", "--")):
                    lines[bare].add(path)
    for bare, paths in sorted(lines.items()):
        if len(paths) >= 3:
            for path in sorted(paths):
                yield path, 0, "line in three files: " + bare
    for name, paths in sorted(lemmas.items()):
        if len(paths) >= 2:
            for path in sorted(paths):
                yield path, 0, "lemma by one name in several files: " + name


def is_test(path):
    """Whether the file is a module under #[cfg(test)], of a crate that has more than tests."""
    folder, name = os.path.split(path)
    with open(os.path.join(folder, "main.rt" if os.path.exists(os.path.join(folder, "main.rt")) else "lib.rt"), encoding="utf-8") as f:
        return "/trials/" not in path and f"#[cfg(test)]\nmod {name[:-3]};" in f.read()


def main():
    args = sys.argv[1:]
    count = "--count" in args
    top, only = ".", None
    if "--top" in args:
        top = args[args.index("--top") + 1]
    if "--only" in args:
        only = int(args[args.index("--only") + 1])
    taken = {a for flag in ("--top", "--only") if flag in args for a in (flag, args[args.index(flag) + 1])}
    crates = [a for a in args if a not in taken and a != "--count"]
    os.chdir(top)
    sources = [Source(p) for p in sorted(glob.glob("crates/*/src/*.rt")) if (not crates or p.split("/")[1] in crates) and not is_test(p)]
    product = [s for s in sources if s.crate != "trials"]
    trials = [s for s in sources if s.crate == "trials"]
    for number, find in enumerate((first, second, third, fourth, fifth, sixth, seventh, None), 1):
        if only and only != number:
            continue
        if find is None:
            places = [(p, i, "-", what) for p, i, what in eighth(top, crates)]
            apart = []
        else:
            places = [(s.path, s.line(at), s.function_at(at), what) for s, at, what in find(product)]
            apart = [(s.path, s.line(at), s.function_at(at), what) for s, at, what in find(trials)]
        for title, found in ((f"{number}", places), (f"{number}, trials", apart)):
            if not found and "trials" in title:
                continue
            print(f"== {title}: {len(found)}")
            if count:
                by = defaultdict(int)
                for p, *_ in found:
                    by[p.split("/")[1]] += 1
                print("   " + ", ".join(f"{c} {n}" for c, n in sorted(by.items())))
                continue
            for p, line, name, what in sorted(found) if number not in (5, 8) else found:
                print(f"{p}:{line}: {name}: {what}")


main()
