#!/usr/bin/env python3
"""Brings the repository's own definitions and lemmas to the spelling of today's Rattle: words in snake case, types and modules in camel case.

usage: respell.py [--check]      at the top of the repository, once, right after port.py

A name in small letters that an .antt file below crates/ declares, and that has a hump or a dash, gets underscores. Where two names fall
together, that of the definition (the one with a hump) stays plain, and that of the lemma gets _lem. A name that a file imports from a
library stays there. In .rt files only `ghost use` items, clauses and ghost fields turn, and humped names in comments. Pages turn in code
spans. Names of goals and steps behind a dot in a Proof.antt stay, since the check makes them."""
import collections
import os
import re
import sys

TOKEN = r"[^\s(){}.;,@\"«»`]+"
DECLARED = re.compile(r"^( *)(?:(?:abbrev|pub|unfoldable|\|) +)*(" + TOKEN + r"(?: " + TOKEN + r")*?)(?: \{[^{}\n]*\})* :(?=\s)", re.M)
BOUND = re.compile(r"\blet (" + TOKEN + r")(?= [:=])")
USE = re.compile(r"^use ([^\s{]+?)(?:\.\{([^}]*)\})?(?: as (\S+))?\s*$", re.M)
HUMP = re.compile(r"(?<=[a-z0-9])[A-Z]")
TEXT = re.compile(r'"(?:[^"\\\n]|\\.)*"|(?<![^\s(){}.;,@"«»])--[^\n]*|\{-.*?-\}', re.S)
WORD = re.compile(TOKEN)
KEYWORDS = set("abbrev pub unfoldable use mod where let in elim mutual data record open".split())


def snake(name):
    return re.sub(r"(?<=[^\W_])-(?=[^\W_])", "_", HUMP.sub(lambda m: "_" + m[0].lower(), name))


def files(*endings):
    for folder, dirs, names in os.walk("crates"):
        dirs[:] = sorted(d for d in dirs if d != "out")
        for n in sorted(names):
            if n.endswith(endings):
                yield os.path.join(folder, n)


def read(path):
    with open(path, encoding="utf-8") as f:
        return f.read()


def code_of(text):
    return TEXT.sub(" ", text)


def turns(name):
    return name[:1].islower() and snake(name) != name


def declared():
    tops, inner, lets = set(), set(), set()
    for p in files(".antt"):
        if p.endswith("/Proof.antt"):
            continue
        code = code_of(read(p))
        for m in DECLARED.finditer(code):
            words = [w for w in m[2].split() if w not in KEYWORDS]
            (inner if m[1] else tops).update(words)
        lets.update(BOUND.findall(code))
    return tops, inner, lets


def foreign(code, crates):
    """The names that a file takes from a library."""
    found = set()
    for m in USE.finditer(code):
        steps = m[1].split(".")
        if steps[0] == "Rattle" and len(steps) > 1 and steps[1] in crates:
            continue
        for item in (m[2] or "").split(","):
            found.update(item.split(" as ")[0].split())
    return found


def table(crates):
    tops, inner, lets = declared()
    every = tops | inner | lets
    groups = collections.defaultdict(set)
    for n in every:
        if n[:1].islower():
            groups[snake(n)].add(n)
    taken = set()
    for p in files(".antt"):
        taken |= foreign(code_of(read(p)), crates)
    new = {}
    for to, olds in groups.items():
        humped = [n for n in olds if HUMP.search(n) and "-" not in n]
        for n in olds:
            if humped and n not in humped or not humped and n != to and (to in olds or to in taken):
                new[n] = to + "_lem"
            elif n != to:
                new[n] = to
    return {a: b for a, b in new.items() if a != b}, tops, inner, lets


def turn_code(code, new, keep, proof):
    def one(m):
        w = m[0]
        if w not in new or w in keep:
            return w
        behind = m.start() > 0 and code[m.start() - 1] == "."
        if behind and proof and not HUMP.search(w):
            return w
        return new[w]

    return WORD.sub(one, code)


def turn_comment(text, new):
    def one(m):
        w = m[0].rstrip(":'")
        return new[w] + m[0][len(w):] if w in new and HUMP.search(w) else m[0]

    return WORD.sub(one, text)


def turn_antt(path, new, crates):
    text = read(path)
    keep = foreign(code_of(text), crates)
    proof = path.endswith("/Proof.antt")
    out, last = [], 0
    for m in TEXT.finditer(text):
        out.append(turn_code(text[last:m.start()], new, keep, proof))
        out.append(m[0] if m[0].startswith('"') else turn_comment(m[0], new))
        last = m.end()
    out.append(turn_code(text[last:], new, keep, proof))
    return text, "".join(out)


HEAD = re.compile(r"\b(?:requires|ensures)\*?(?: \w+)? \{|\bghost \w+: \{|\bghost use [^;]*;")


def turn_rt(path, new):
    """Ghost text turns, and humped names in comments."""
    text = read(path)
    out, at = [], 0
    part = re.compile(r"//[^\n]*|" + HEAD.pattern)
    while True:
        m = part.search(text, at)
        if not m:
            break
        out.append(text[at:m.start()])
        if m[0].startswith("//"):
            out.append(turn_comment(m[0], new))
            at = m.end()
            continue
        end = m.end()
        if not m[0].endswith(";"):
            depth = 1
            while depth:
                depth += {"{": 1, "}": -1}.get(text[end], 0)
                end += 1
        out.append(turn_code(text[m.start():end], new, set(), False))
        at = end
    out.append(text[at:])
    return text, "".join(out)


def turn_page(path, new):
    text = read(path)
    return text, re.sub(r"`[^`\n]+`", lambda m: WORD.sub(lambda w: new.get(w[0], w[0]), m[0]), text)


def main():
    check = "--check" in sys.argv
    crates = set(os.listdir("crates"))
    new, tops, inner, lets = table(crates)
    changed = 0
    seen = collections.Counter()
    for p in files(".antt", ".rt"):
        before, after = turn_antt(p, new, crates) if p.endswith(".antt") else turn_rt(p, new)
        words = set(WORD.findall(code_of(before)))
        met = sorted(new[w] for w in words if w in new and new[w] in words and new[w] not in new)
        if met and check and p.endswith(".antt"):
            print(f"look: {p}: {', '.join(met)}")
        if before != after:
            changed += 1
            if not check:
                with open(p, "w", encoding="utf-8") as f:
                    f.write(after)
    pages = ["README.md"] + [os.path.join(d, n) for d in ("docs", "tests") if os.path.isdir(d) for n in sorted(os.listdir(d)) if n.endswith(".md") and n != "PORT.md"]
    for p in pages:
        before, after = turn_page(p, new)
        if before != after and not check:
            with open(p, "w", encoding="utf-8") as f:
                f.write(after)
    lems = sorted(b for b in new.values() if b.endswith("_lem"))
    print(f"respell: {len(new)} names, {changed} files; {len(lems)} got _lem: {', '.join(lems)}")


main()
