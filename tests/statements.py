#!/usr/bin/env python3
"""Which statements changed since a revision, and which are the same up to names and paths.

    python3 tests/statements.py REVISION [WORD]

Compares the definitions in crates/*/specs (WORD: only files whose name holds it, as Promises) of that revision with those of the
work tree, comments, layout and brackets that part nothing left out. Two files say the same if one becomes the other by a renaming that
takes different names to different names, and if each imported name is what the name of its former import has become, in that one's file.
A revision may be of the older Rattle, which writes `Rattle·terms.specs`, and `f x .field` for `(f x).field`. Ends with 1 if a file
changed."""
import os
import re
import subprocess
import sys

ROOT = os.path.dirname(os.path.dirname(os.path.abspath(__file__)))
USE = re.compile(r"use (\S+?)\.\{([^}]*)\}$")
TOKEN = re.compile(r"\"(?:[^\"\\]|\\.)*\"|[^\s(){}\[\],;|]+|[(){}\[\],;|]")
NAME = re.compile(r"\.?[^\W\d_][\w′'·?!+-]*$")
FIELD = r"\.(?:[^\W\d_][\w′'?!+-]*|\d+)"
FIELDS = re.compile(rf"([^\W\d_][\w′'?!+-]*)((?:{FIELD})+)$")
OLDER = re.compile(r"Rattle·(\w+?)(?:·specs|·proofs)?\.(?=specs|proofs)")
TODAY = re.compile(r"Rattle\.(\w+)\.(?=specs|proofs)")
# What parts the arguments of an application, beside the operators.
WORDS = set("λ let in where record data mutual abbrev pub unfoldable unfolding Type".split())
CLOSE = {"(": ")", "{": "}", "[": "]"}


def git(*arguments):
    return subprocess.run(["git", *arguments], cwd=ROOT, check=True, capture_output=True, text=True).stdout


def former(revision):
    names = [p for p in git("ls-tree", "-r", "--name-only", revision, "crates").split("\n") if is_spec(p)]
    return {p: git("show", f"{revision}:{p}") for p in names}


def present():
    out = {}
    for crate in os.listdir(os.path.join(ROOT, "crates")):
        folder = os.path.join(ROOT, "crates", crate, "specs")
        for f in os.listdir(folder) if os.path.isdir(folder) else []:
            p = os.path.join("crates", crate, "specs", f)
            if is_spec(p):
                with open(os.path.join(ROOT, p)) as g:
                    out[p] = g.read()
    return out


def is_spec(path):
    return re.match(r"crates/\w+/specs/\w+\.antt$", path) and not path.endswith("/Lib.antt")


def module(path):
    """The module of a file: crate and file."""
    _, crate, _, file = path.split("/")
    return f"{crate}.specs.{file[:-5]}"


def ours(path, crates):
    """The module that an import names, if it is of the repository."""
    older = OLDER.match(path)
    today = TODAY.match(path)
    if older:
        return OLDER.sub(r"\1.", path)
    return TODAY.sub(r"\1.", path) if today and today[1] in crates else None


def words(line):
    """The tokens of a line, fields that stand right behind a name or a bracket with a mark: `p.units` is `p` and `.units` behind it."""
    for m in TOKEN.finditer(line):
        token, fields = m[0], FIELDS.match(m[0])
        is_behind = line[m.start() - 1 : m.start()] == ")"
        if fields:
            yield fields[1], False
            yield from ((field, True) for field in re.findall(FIELD, fields[2]))
        elif re.match(rf"(?:{FIELD})+$", token):
            yield from ((field, is_behind) for field in re.findall(FIELD, token))
        elif NAME.match(token[:-1]) and token.endswith("."):
            yield from ((token[:-1], False), (".", False))
        else:
            # The older Rattle names an operator `_∷_`, today's `◌∷◌`.
            yield re.sub(r"^_(?=\W)|(?<=\W)_$", "◌", token), False


def is_argument(token):
    return bool(NAME.match(token) and token not in WORDS or re.match(r"\d+$|\"", token))


def tree(tokens):
    """Nested lists: a bracket with what stands in it, and a field with what it is taken from. Brackets around one argument fall away."""
    stack = [("", [], 0)]
    for token, is_behind in tokens:
        opened, items, start = stack[-1]
        if token in CLOSE:
            stack.append((token, [], 0))
        elif token == CLOSE.get(opened):
            stack.pop()
            whole, outer, outer_start = stack.pop()
            if items and items[-1] in (";", ","):
                # A separator before a closing bracket is layout.
                items = items[:-1]
            is_one = opened == "(" and len(items) == 1 and (isinstance(items[0], list) or is_argument(items[0]))
            stack.append((whole, outer + [items[0] if is_one else [opened, *items, token]], outer_start))
        elif re.match(FIELD + "$", token) and (is_behind or len(items) > start):
            # Behind a name or a bracket it is that one's field; in the older Rattle, after a space, a field of the whole application.
            cut = len(items) - 1 if is_behind else start
            of = items[cut:]
            stack[-1] = opened, items[:cut] + [["field", of[0] if len(of) == 1 else ["(", *of, ")"], token]], start
        else:
            items = items + [token]
            stack[-1] = opened, items, start if is_argument(token) else len(items)
    if len(stack) != 1:
        sys.exit("statements: brackets that do not match")
    return stack[0][1]


def flat(items):
    for item in items:
        if isinstance(item, list):
            yield from flat(item[1:] if item[0] == "field" else item)
        else:
            yield item


def parsed(text, crates):
    """The tokens of a file without its imports, and where each imported name of ours comes from."""
    tokens, origin = [], {}
    for line in text.split("\n"):
        line = re.sub(r"(^|\s)--.*$", "", line).rstrip()
        m = USE.match(line)
        if m:
            path = ours(m.group(1), crates)
            for item in m.group(2).split(","):
                name, _, alias = item.strip().partition(" as ")
                if name and path:
                    origin[alias or name] = (path, name)
        elif line.startswith("pub use "):
            path, names = line[len("pub use ") :].split(".{")
            tokens += words(f"pub use {ours(path, crates)} {{{names}")
        elif not line.startswith("use "):
            tokens += words(line)
    tokens = list(flat(tree(tokens)))
    return tokens, {name: origin[name] for name in origin if name in tokens}


def renaming(old, new):
    """The names that differ, if the tokens are the same up to a renaming; otherwise None."""
    if len(old) != len(new):
        return None
    to, back = {}, {}
    for a, b in zip(old, new):
        if a != b and not (NAME.match(a) and NAME.match(b)):
            return None
        if to.setdefault(a, b) != b or back.setdefault(b, a) != a:
            return None
    return {a: b for a, b in to.items() if a != b}


def main():
    revision, word = sys.argv[1], (sys.argv + [""])[2]
    crates = set(os.listdir(os.path.join(ROOT, "crates")))
    old = {p: parsed(t, crates) for p, t in former(revision).items()}
    new = {p: parsed(t, crates) for p, t in present().items()}
    pairs = {}
    for p in old:
        same_name = [q for q in new if os.path.basename(q) == os.path.basename(p)]
        for q in ([p] if p in new else []) + same_name + list(new):
            if q not in pairs.values() and renaming(old[p][0], new[q][0]) is not None:
                pairs[p] = q
                break
    became = {module(p): module(q) for p, q in pairs.items()}
    turned = {module(p): renaming(old[p][0], new[q][0]) for p, q in pairs.items()}
    changed, table = [], {}
    for p in sorted(old):
        if word not in p:
            continue
        if p not in pairs:
            changed.append(p)
            continue
        q = pairs[p]
        names = turned[module(p)]
        table.update(names)
        for alias, (path, name) in old[p][1].items():
            there = new[q][1].get(names.get(alias, alias))
            if there is None or (path in became and there != (became[path], turned[path].get(name, name))):
                changed.append(f"{p}: {alias} comes from elsewhere ({path}; {there})")
        print(f"{p} -> {q}: the same" + (f" up to {len(names)} names" if names else ""))
    print("names:", ", ".join(f"{a} > {b}" for a, b in sorted(table.items())) or "none")
    for p in changed:
        print("CHANGED:", p)
    print(f"{sum(word in p for p in old) - len(changed)} the same, {len(changed)} changed")
    sys.exit(1 if changed else 0)


main()
