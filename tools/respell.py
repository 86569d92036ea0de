#!/usr/bin/env python3
"""Brings the names of definitions and lemmas to the library's spelling, in crates/ and in the docs.

usage: python3 tools/respell.py [--list]      at the top, once, right after the toolchain's own port script

A name with a dash, or a fact's with an underscore, that a file of specs/ or proofs/ declares is respelled everywhere:
  a fact or a type, which begins with a capital, in camel case   (All-fit becomes AllFit);
  every other name in snake case                                 (tag-list becomes tag_list);
  a test, which ends in a question mark, with the word is        (fork? becomes is_fork).
Names that the toolchain makes stay: goals, which a proof file declares at a type 'goal.x', and what is imported from the library.
Functions of src/, strings, inputs and outputs stay, and so does prose: in a comment only a name in an index line or in backquotes turns.
It stops, and writes nothing, where two names would fall together. --list prints the table and writes nothing.
"""

import glob
import re
import sys

WORD = r"[^\s(){}.;,@\"«»\x60]+"
SIGNATURE = re.compile(rf"^\s*(?:(?:pub|abbrev|unfoldable|data|record) )*({WORD}(?: {WORD})*) :(?: (.*))?$")
HEADED = re.compile(rf"^\s*(?:(?:pub|abbrev|unfoldable|data|record) )+({WORD})(?: |$)")
IMPORT = re.compile(r"use Rattle\.(\w+)\.[\w.+'-]*?\{([^}]*)\}", re.S)
CLAUSE = re.compile(r"(?:requires|ensures)\s*\*?\s*(?:\w+\s*)?\{|ghost\s+(?:\w+\s*[:=]\s*)?\{")
GHOST_USE = re.compile(r"ghost use [^;]*;")
INDEX = re.compile(r"^( *--   )(\S.*?)(  .*)?$")
SPAN = re.compile(r"\x60[^\x60\n]+\x60")


def text(path):
    with open(path, encoding="utf-8") as f:
        return f.read()


def files(*kinds):
    return sorted(p for kind in kinds for p in glob.glob(f"crates/*/{kind}", recursive=True) if "/out/" not in p)


def antt():
    return files("specs/**/*.antt", "proofs/**/*.antt")


def declared():
    """The names that the repository's own antt files declare, but for goals, and every word of those files."""
    names, words = set(), set()
    for path in antt():
        for line in text(path).splitlines():
            if not line.lstrip().startswith("--"):
                words.update(re.findall(rf"(?<![.\w-]){WORD}(?!\.)", re.sub(r"use [\w.+'-]*", "", line)))
            found = SIGNATURE.match(line) or HEADED.match(line)
            if found and not (found.lastindex == 2 and (found[2] or "").startswith("goal.")):
                names.update(found[1].split())
    return names, words


def imported():
    """What is imported from the library, by name."""
    names = set()
    for path in antt() + files("src/**/*.rt"):
        for crate, items in IMPORT.findall(text(path)):
            if crate == "std":
                names.update(re.findall(WORD, items))
    return names


def respelled(name):
    if name.endswith("?"):
        return "is_" + name[:-1].replace("-", "_")
    if name[0].isupper():
        return "".join(part[:1].upper() + part[1:] for part in re.split("[-_]", name))
    return name.replace("-", "_")


def table():
    names, words = declared()
    library = imported()
    made = {n: respelled(n) for n in names - library if re.fullmatch(r"[A-Za-z][\w-]*\??'*", n) and respelled(n) != n}
    for old, new in made.items():
        others = [n for n, m in made.items() if m == new and n != old]
        if others or new in words or new in library:
            sys.exit(f"respell: {old} would fall together with {others or new}")
    return made


def turner(made):
    """Turns each whole word of a text that is in the table, also one with primes behind it."""

    def one(m):
        bare = m[0].rstrip("'")
        return made.get(m[0]) or made.get(bare, bare) + m[0][len(bare) :]

    return lambda t: re.sub(WORD, one, t)


def prose_turner(made):
    """The same for comments and docs, where the names that the port script turned still stand in the old spelling."""
    names = declared()[0] | set(made.values())

    def one(m):
        return made.get(m[0]) or (respelled(m[0]) if re.fullmatch(r"[A-Za-z][\w-]*\??", m[0]) and respelled(m[0]) in names else m[0])

    return lambda t: re.sub(WORD, one, t)


def comment(line, turn):
    line = SPAN.sub(lambda m: turn(m[0]), line)
    index = INDEX.match(line)
    return index[1] + turn(index[2]) + (index[3] or "") if index else line


def turn_antt(t, turn, prose):
    out = []
    for line in t.split("\n"):
        out.append(comment(line, prose) if line.lstrip().startswith("--") else turn(line))
    return "\n".join(out)


def closing(t, start):
    deep = 0
    for k in range(start, len(t)):
        deep += (t[k] == "{") - (t[k] == "}")
        if not deep:
            return k + 1
    return len(t)


def turn_rt(t, turn, prose):
    """Clauses, ghost blocks and ghost imports; of comments the code spans."""
    t = GHOST_USE.sub(lambda m: turn(m[0]), t)
    out, at = [], 0
    while found := CLAUSE.search(t, at):
        start = found.end() - 1
        end = closing(t, start)
        out += [t[at:start], turn(t[start:end])]
        at = end
    out.append(t[at:])
    return re.sub(r"//[^\n]*", lambda m: SPAN.sub(lambda s: prose(s[0]), m[0]), "".join(out))


def turn_md(t, turn, prose):
    return SPAN.sub(lambda m: prose(m[0]), t)


def main(argv):
    made = table()
    if argv == ["--list"]:
        print("\n".join(f"{a}\t{b}" for a, b in sorted(made.items())))
        return
    turn, prose = turner(made), prose_turner(made)
    changed = 0
    for paths, how in ((antt(), turn_antt), (files("src/**/*.rt"), turn_rt), (sorted(glob.glob("*.md") + glob.glob("docs/*.md")), turn_md)):
        for path in paths:
            was = text(path)
            now = how(was, turn, prose)
            if now != was:
                with open(path, "w", encoding="utf-8") as f:
                    f.write(now)
                changed += 1
    print(f"respell: {len(made)} names, {changed} files")


if __name__ == "__main__":
    main(sys.argv[1:])
