#!/usr/bin/env python3
"""Places of src/ that could be written in a plainer form of today's Rattle, by shape: design_counts.py [ROOT] [POINT].

1: enums of the shape of Option or Result; numbers for kinds, states and refusals (constants); a flag with a value beside it; numbers for none.
2: functions whose text is the same but for names, numbers and types. 3: loops that are no `for`. 4: comparisons, minima, differences and
conversions by hand. 5: facts that stand in the `requires` of three contracts or more, and parameters that travel together (four or more in
the same order in three functions or more). 6: structs that hold a count or position beside what it counts, and several alike fields.
7: chains of tests or arms that choose what is called next."""
import collections
import glob
import os
import re
import sys

ROOT = sys.argv[1] if len(sys.argv) > 1 else "."
ONLY = sys.argv[2:] or list("1234567")
ITEM = re.compile(r"^( *)(?:pub(?:\([a-z]+\))? )?(?:extern \"C\" )?(?:const )?fn (\w+)", re.M)


def sources():
    for path in sorted(glob.glob(os.path.join(ROOT, "crates", "*", "src", "**", "*.rt"), recursive=True)):
        yield os.path.relpath(path, os.path.join(ROOT, "crates")).replace("/src/", " "), open(path, encoding="utf-8").read()


def bare(text):
    """Without comments."""
    return re.sub(r"//[^\n]*", "", text)


def functions(text):
    """Name, signature with clauses, body and line of each function with a body."""
    text = re.sub(r"#\[cfg\(test\)\].*", "", text, flags=re.S)
    for m in ITEM.finditer(text):
        at, depth, end = m.end(), 0, None
        opens = re.compile(r"\n%s\{" % m[1]).search(text, at)
        one = re.compile(r"\{\s*\n").search(text, at)
        stop = re.compile(r"\n%s\}" % m[1]).search(text, at)
        if not stop:
            continue
        start = opens.start() if opens and opens.start() < stop.start() else (one.start() if one else at)
        yield m[2], text[m.start():start], text[start:stop.end()], text.count("\n", 0, m.start()) + 1


def items(text, kind):
    for m in re.finditer(r"^(?:pub )?%s (\w+)(?:<[^>]*>)? \{(.*?)^\}" % kind, bare(text), re.M | re.S):
        yield m[1], m[2]


def point1():
    for path, text in sources():
        for name, body in items(text, "enum"):
            unit = re.findall(r"^    (\w+),", body, re.M)
            full = re.findall(r"^    (\w+)[({]", body, re.M)
            if full and (unit or any(v in ("Refused", "Stop") for v in full)) and len(unit) + len(full) <= 5:
                yield f"{path}: enum {name}"
        groups = collections.Counter()
        for m in re.finditer(r"^(?:pub )?const ([A-Z_0-9]+): (u32|u64|usize) = (\d+);", text, re.M):
            if int(m[3]) <= 13:
                groups["small"] += 1
        if groups["small"] >= 2:
            yield f"{path}: {groups['small']} constants that number kinds, states or fields"
        for name, body in items(text, "struct"):
            if re.search(r": bool,", body):
                yield f"{path}: struct {name} with a flag"
        for m in re.finditer(r"^ *//[^\n]*(?:\b0 where|, 0 (?:if|for|where)|; 0 (?:if|where)|, or 0|65,536|\b1 if )[^\n]*", text, re.M):
            yield f"{path}:{text.count(chr(10), 0, m.start()) + 1}: a number for none or a flag: {m[0].strip()[:90]}"


def point2():
    shapes = collections.defaultdict(list)
    for path, text in sources():
        for name, _, body, line in functions(text):
            words = re.findall(r"\w+|[^\w\s]", bare(body))
            if len(words) < 12:
                continue
            names, shape = {}, []
            for w in words:
                if re.match(r"[A-Za-z_]\w*$|\d", w) and w not in ("let", "mut", "if", "else", "while", "for", "in", "return", "match", "as", "loop", "true", "false"):
                    shape.append("n" + str(names.setdefault(w, len(names))))
                else:
                    shape.append(w)
            shapes[" ".join(shape)].append(f"{path} {name}")
    for same in shapes.values():
        if len(same) > 1:
            yield "; ".join(same)


def point3():
    for path, text in sources():
        for name, _, body, line in functions(text):
            for m in re.finditer(r"^ *(?:'\w+: )?(while|loop)\b[^\n]*", bare(body), re.M):
                yield f"{path} {name}: {m[0].strip()}"


BY_HAND = re.compile(
    r"if (\w[\w.()]*) < (\w[\w.()]*) \{\s*return (?:0|\1|\2);?\s*\}\s*(?:\2 - \1|\1 - \2|\1|\2)\s*\}"
    r"|if (\w+) == 0 \{\s*return 0;?\s*\}\s*\3 - 1\s*\}"
    r"|b'[0-9]' (?:<=?|\+) |<=? b'\w'|\bb'[AZaz]' <=? |as u8\n\}"
    r"|\{\s*x as u(?:32|size)\s*\}|% 4294967296\) as u32"
)


def point4():
    for path, text in sources():
        for name, _, body, line in functions(text):
            if BY_HAND.search(bare(body)) or re.fullmatch(r"\s*\{\s*let mut (\w+) = \w+;\s*(?:\1\.\w+ = \w+;\s*)+\1\s*\}", bare(body)):
                yield f"{path} {name}"
            elif re.search(r"\b(\w+): (\w)\.\1,\s*(?:\w+: \w+[^,]*,\s*)*(\w+): \2\.\3,", bare(body)) and "put" not in name:
                yield f"{path} {name}: fields copied one by one"


def point5():
    facts, groups = collections.Counter(), collections.Counter()
    for path, text in sources():
        for name, sig, _, _ in functions(text):
            for clause in re.findall(r"requires(?: \w+)? \{(.*?)\}\s*(?=requires|ensures|$)", sig, re.S):
                for fact in re.split(r"\s×\s", " ".join(clause.split())):
                    facts[fact.strip("() ").strip()] += 1
            inside = re.search(r"\((.*?)\)(?: ->|\s*$|\s*requires|\s*ensures)", sig, re.S)
            params = [" ".join(p.split()) for p in (inside[1] if inside else "").split(",") if p.strip()]
            seen = set()
            for size in (4, 5, 6, 7):
                for i in range(len(params) - size + 1):
                    seen.add(", ".join(params[i:i + size]))
            groups.update(seen)
    for fact, n in facts.most_common():
        if n >= 3:
            yield f"{n} contracts: {fact}"
    kept = [(g, n) for g, n in groups.items() if n >= 3]
    for g, n in sorted(kept, key=lambda x: -x[1]):
        if not any(g != h and g in h and n <= k for h, k in kept):
            yield f"{n} functions: ({g})"


def point6():
    for path, text in sources():
        for name, body in items(text, "struct"):
            fields = re.findall(r"(\w+): ([\w<>\[\]; &]+),", body)
            if any(f in ("count", "at", "words", "length") for f, _ in fields) or re.search(r"\bfirst: u32,\s*(?:pub )?second: u32,\s*(?:pub )?third", body):
                yield f"{path}: struct {name} {{ {', '.join(f for f, _ in fields)} }}"
        for name, sig, body, _ in functions(text):
            if re.search(r"\[0u(?:8|16|32|64); \w+\]", bare(body)):
                yield f"{path} {name}: an array on the stack with a position beside it"


def point7():
    for path, text in sources():
        for name, _, body, _ in functions(text):
            arms = re.findall(r"=> \w[\w:]*\(", bare(body))
            tests = re.findall(r"if (\w[\w.]*) == [\w:]+ \{\s*return \w[\w:]*\(", bare(body))
            if len(arms) >= 3 or (len(tests) >= 2 and len(set(tests)) == 1):
                yield f"{path} {name}: {max(len(arms), len(tests))} ways"


for point in ONLY:
    places = list(globals()["point" + point]())
    print(f"point {point}: {len(places)}")
    for place in places:
        print("   ", place)
