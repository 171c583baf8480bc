#!/usr/bin/env python3
"""Which definitions a reader must believe: those that the statements about `run`, `check` and the exported functions are made of.

From these statements on, every definition that one names is followed, and the lines of each are counted, without blank lines, comments
and imports. Definitions of the kit's libraries are not followed. `believed.py NAME...` prints the lines of those definitions too."""
import os
import re
import sys

ROOT = os.path.join(os.path.dirname(os.path.abspath(__file__)), "..", "crates")
STATEMENTS = [
    ("engine_spec", "Promises", ["RunContract", "AnswersAsBefore", "AnswersWithoutNumbers", "CallersTold", "ToldAgain", "Retry", "ToldMore", "BuffersDoNotMatter"]),
    ("engine_spec", "OneProof", ["AnswersOnce", "FirstHanded"]),
    ("engine_spec", "ProofNumbers", ["NumbersTurnedBack", "OnlyNumbersTurnedBack"]),
    ("checker_spec", "Promises", ["CheckContract", "CallersJudged", "BuffersDoNotMatter", "OldProofsCheck"]),
    ("engine_spec", "Orders", ["OneOutcome", "AnswersInFormerOrder", "OtherOrderLinesTurnedBack"]),
    ("checker_spec", "Orders", ["JudgedInFormerOrder", "OtherOrderLinesTurnedBack"]),
    ("promises", "Accepted", ["RunChecks", "RunChecksWhole"]),
    ("engine_spec", "Handed", ["handed"]),
    ("checker_spec", "Handed", ["handed"]),
    ("rules", "RulesRun", ["RulesRun"]),
    ("rules", "RulesAsk", ["RulesAsk"]),
    ("rules", "RulesCheck", ["RulesCheck"]),
]
# What a theorem says to be exactly another definition here is not to be believed: T6 of the judgement as a function.
NOT_FOLLOWED = {"text_judging"}
WORD = r"[^\s(){}\[\],;.]+"


class Module:
    def __init__(self, crate, name, path):
        self.crate, self.name = crate, name
        self.imports = {}
        self.blocks = {}
        block, parted = [], False
        for line in open(path, encoding="utf8"):
            line = line.rstrip("\n")
            use = re.match(r"use Rattle\.([a-z_]+)\.specs\.([\w.]+)\.\{(.*)\}$", line)
            if use:
                for item in use.group(3).split(","):
                    old, _, new = item.strip().partition(" as ")
                    self.imports[new or old] = (use.group(1), use.group(2), old)
            elif not line.strip() or line.startswith("use "):
                parted = True
            elif not line.strip().startswith("--"):
                if parted and not line.startswith(" "):
                    self.close(block)
                    block = []
                parted = False
                block.append(line)
        self.close(block)

    def close(self, lines):
        names = set()
        for line in lines:
            declared = re.match(rf"\s*(?:unfoldable |abbrev )*pub (?:data |record )?({WORD})", line)
            if declared and (not line.startswith(" ") or lines[0].endswith("mutual")):
                names.add(declared.group(1))
            constructors = re.match(rf"  ((?:{WORD} )+): ", line)
            if constructors and " data " in lines[0]:
                names.update(constructors.group(1).split())
        for name in names:
            self.blocks[name] = lines


def modules():
    found = {}
    for crate in os.listdir(ROOT):
        folder = os.path.join(ROOT, crate, "specs")
        for base, _, files in os.walk(folder) if os.path.isdir(folder) else []:
            for file in files:
                if file.endswith(".antt"):
                    path = os.path.join(base, file)
                    name = os.path.relpath(path, folder)[:-5].replace(os.sep, ".")
                    found[crate, name] = Module(crate, name, path)
    return found


def closure(found):
    believed, due = {}, []
    for crate, module, names in STATEMENTS:
        for name in names:
            if name not in found[crate, module].blocks:
                sys.exit(f"believed.py: {crate} {module} has no statement {name}")
            due.append((crate, module, name))
    while due:
        crate, name, declared = due.pop()
        module = found.get((crate, name))
        if module is None or crate in NOT_FOLLOWED:
            continue
        lines = module.blocks.get(declared)
        if lines is None or (crate, name, tuple(lines)) in believed:
            continue
        believed[crate, name, tuple(lines)] = lines
        for word in set(re.findall(WORD, "\n".join(lines))):
            if word in module.imports:
                due.append(module.imports[word])
            elif word in module.blocks:
                due.append((crate, name, word))
    return believed


def main():
    believed = closure(modules())
    counts = {}
    for (crate, name, _), lines in believed.items():
        counts[crate, name] = counts.get((crate, name), 0) + len(lines)
        if crate in sys.argv[1:] or name in sys.argv[1:]:
            print("\n".join(lines), end="\n\n")
    for crate in sorted({crate for crate, _ in counts}):
        parts = sorted((name, lines) for (owner, name), lines in counts.items() if owner == crate)
        print(f"{crate} {sum(lines for _, lines in parts)}: " + ", ".join(f"{name} {lines}" for name, lines in parts))
    print(f"{sum(counts.values())} lines to believe")


main()
