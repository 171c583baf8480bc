#!/usr/bin/env python3
"""Computes the definitions `engine_run` and `check_text` on the stored cases and compares the whole result with the known one.

The definitions are what a reader must believe, so they are run on outside vectors too: each case becomes an equation that the prover must
accept by computation. They stand in a crate of their own, `stored_cases`, in a copy of the repository in which `rt ci` proves it, over the
crates that it has proved. Of a run, for one proof or for several: outcome, units, number of proofs and text, or refusal and line. Of a
check: valid, or the line that breaks, or refusal and line, for the text of each case, for that text without its last LF, without its last
line and with a line more (document 01 says which line breaks), for the stored texts with their verdicts, and for damaged texts, as the
independent implementation judges them (tests/reference)."""
import glob
import os
import random
import subprocess
import sys
import tempfile

from copies import ROOT, copy_to, rt_ci

CRATE = "stored_cases"
LIBRARIES = "sheet_format answer_texts text_judging engine_spec checker_spec"
HEADER = """-- The stored cases, computed.
use Prim.Native.Nat.{ℕ}
use mathlib.Core.Path.{◌≡◌, refl}
use mathlib.Core.List.{List, [], ◌∷◌, ◌++◌}
use Rattle.sheet_format.specs.Bytes.{ascii}
use Rattle.sheet_format.specs.Sheets.{refusal, turn_back_if}
use Rattle.answer_texts.specs.Judgements.{valid, invalid}
use Rattle.text_judging.proofs.Computing.{compute_judgement}
use Rattle.engine_spec.specs.EngineRun.{reported_proved, reported_no, reported_spent, turned_back, answered}
use Rattle.engine_spec.proofs.Computing.{compute_run}
use Rattle.checker_spec.specs.CheckText.{Checked, judged, check_refused, count_lf, check_sheet, check_text}

unfoldable compute_check : List ℕ → List ℕ → ℕ → ℕ → Checked
unfolding compute_run compute_judgement count_lf check_sheet turn_back_if check_text
compute_check bytes text t w = check_text bytes text t w
"""
OUTCOMES = {"proved": "reported_proved", "no": "reported_no", "spent": "reported_spent"}
# The largest budget of a run for several proofs that is computed: 63 proofs within 2,000 units take more steps than the prover has.
LARGEST_BUDGET = 1_000
# Work numbers for a text of 300 lines; a text of more lines is refused, and the stored ones have fewer.
WORK = 64 * 300


def byte_list(data):
    """The bytes as an antt list: runs of plain ASCII as strings, other bytes by their numbers."""
    marks = {9: "\\t", 10: "\\n", 34: '\\"', 92: "\\\\"}
    parts, plain = [], ""
    for c in data:
        if c in marks or 32 <= c < 127:
            plain += marks.get(c, chr(c))
        else:
            parts += [f'ascii "{plain}"', f"({c} ∷ [])"]
            plain = ""
    parts.append(f'ascii "{plain}"')
    return "(" + " ++ (".join(parts) + ")" * len(parts)


def ran(sheet, expected, budget=256, proofs=1, lent=(8192, 16384, 16384)):
    """The equation of a run with 256 units for one proof, as document 01's sheet runner has it, or with other numbers. Handed back are
    the outcome and units of the last R line and the number of proofs (W-202)."""
    if expected.startswith(b"X"):
        _, number, line = expected.decode().split("\t")
        right = f"turned_back (refusal {number} {line.strip()})"
    else:
        told = [line.split("\t")[1:] for line in expected.decode().split("\n") if line.startswith("R\t")]
        outcome, units = told[-1]
        found = sum(word == "proved" for word, _ in told)
        text = byte_list(expected)
        right = f"answered (record {{ outcome = {OUTCOMES[outcome]}; units = {units}; proofs = {found}; text = {text} }})"
    ask = f"(record {{ budget = {budget}; proofs = {proofs} }})"
    return f"compute_run {byte_list(sheet)} {ask} {' '.join(map(str, lent))} ≡ {right}", "compute_run"


def ran_at_its_units(sheet, expected):
    """Request W-206: the units told suffice, and one fewer are spent, also where the last act looks through a binding."""
    units = int(expected.split(b"\n")[0].split(b"\t")[2])
    yield ran(sheet, expected, units)
    yield ran(sheet, b"R\tspent\t%d\n" % (units - 1), units - 1)


def checked(sheet, text, verdict):
    """The equation of a check; the verdict is None for valid, a line, or a pair of refusal and line."""
    if isinstance(verdict, tuple):
        right = f"check_refused (refusal {verdict[0]} {verdict[1]})"
    else:
        right = "judged valid" if verdict is None else f"judged (invalid {verdict})"
    return f"compute_check {byte_list(sheet)} {byte_list(text)} 8192 {WORK} ≡ {right}", "compute_check"


def verdict_of(printed):
    """The verdict that a checker's line tells: None for valid, a line, or a pair of refusal and line."""
    word, *numbers = printed.strip().split("\t")
    if word == "valid":
        return None
    return int(numbers[0]) if word == "not valid" else (int(numbers[0]), int(numbers[1]))


def by_document(sheet, text):
    """Texts of a case with the verdicts that document 01 gives them."""
    if text.startswith(b"R\tproved"):
        lines = text.count(b"\n")
        yield text, None
        yield text[:-1], lines
        yield text[: text[:-1].rfind(b"\n") + 1], lines
        yield text + b"D\ttrue\n", lines + 1
    elif text.startswith(b"X") and not text.startswith(b"X\t12"):
        _, number, line = text.decode().split("\t")
        yield b"", (int(number), int(line))
    else:
        yield text, 1


def damaged(text, choose):
    """One byte changed, taken out or put in."""
    place = choose.randrange(len(text))
    byte = bytes([choose.choice(b"01279_!@(),\tDRBAZabz\n\x00\xff")])
    return choose.choice([text[:place] + byte + text[place + 1 :], text[:place] + text[place + 1 :], text[:place] + byte + text[place:]])


def reference(program, folder, sheet, text):
    """The verdict of the independent implementation."""
    names = [os.path.join(folder, name) for name in ("sheet", "text")]
    for name, data in zip(names, (sheet, text)):
        with open(name, "wb") as f:
            f.write(data)
    return verdict_of(subprocess.run([program, *names], capture_output=True, text=True).stdout)


def stored(path, ending):
    with open(path[: -len("sheet")] + ending, "rb") as f:
        return f.read()


def equations():
    choose = random.Random(14)
    cases = os.path.join(ROOT, "tests", "cases")
    subprocess.run(["cargo", "build", "--release", "--offline", "--quiet", "-p", "reference"], cwd=os.path.join(ROOT, "tests"), check=True)
    program = os.path.join(ROOT, "tests", "target", "release", "check")
    with tempfile.TemporaryDirectory() as folder:
        for path in sorted(glob.glob(os.path.join(cases, "*.sheet"))):
            sheet, expected = stored(path, "sheet"), stored(path, "256")
            yield ran(sheet, expected)
            if os.path.basename(path).startswith("w206_") and not expected.startswith(b"R\tspent"):
                yield from ran_at_its_units(sheet, expected)
            for text, verdict in by_document(sheet, expected):
                yield checked(sheet, text, verdict)
            if expected.startswith(b"R\tproved"):
                for _ in range(3):
                    text = damaged(expected, choose)
                    yield checked(sheet, text, reference(program, folder, sheet, text))
    for path in sorted(glob.glob(os.path.join(cases, "checks", "*.sheet"))):
        yield checked(stored(path, "sheet"), stored(path, "text"), verdict_of(stored(path, "verdict").decode()))
    yield from several()


def several():
    """The runs for several proofs (W-202): budget, number of proofs, and the lengths of table, work and answer buffer. The first proof and
    the last are valid, each by itself, and the text of more than one is not, at its second R line."""
    for path in sorted(glob.glob(os.path.join(ROOT, "tests", "cases", "ways", "*.sheet"))):
        sheet, want = stored(path, "sheet"), stored(path, "want")
        budget, proofs, *lent = map(int, stored(path, "args").split())
        if budget <= LARGEST_BUDGET:
            yield ran(sheet, want, budget, proofs, lent)
            parts = [b"R\t" + part for part in (b"\n" + want).split(b"\nR\t")[1:]]
            parts = [part if part.endswith(b"\n") else part + b"\n" for part in parts]
            found = [part for part in parts if part.startswith(b"R\tproved")]
            for proof in found[:1] + found[1:][-1:]:
                yield checked(sheet, proof, None)
            if len(parts) > 1 and want.count(b"\n") <= WORK // 64:
                yield checked(sheet, want, parts[0].count(b"\n") + 1)


def write_crate(folder, proofs):
    """The crate of the equations in the copy: a file of proofs, and no code."""
    crate = os.path.join(folder, "crates", CRATE)
    files = {"src/lib.rt": "// See proofs/.\n#![tactic(auto)]\n", "proofs/Lib.antt": "pub mod Stored\n", "proofs/Stored.antt": proofs}
    for name, text in files.items():
        path = os.path.join(crate, name)
        os.makedirs(os.path.dirname(path), exist_ok=True)
        with open(path, "w", encoding="utf8") as f:
            f.write(text)
    with open(os.path.join(folder, "crates.txt"), "a") as f:
        f.write(f"{CRATE}: {LIBRARIES}\n")
    subprocess.run(["rt", "fmt"], cwd=crate, check=True)


def main():
    parts, runs, checks = [HEADER], 0, 0
    for number, (equation, name) in enumerate(equations()):
        runs, checks = runs + (name == "compute_run"), checks + (name == "compute_check")
        parts.append(f"case{number} : {equation}\nunfolding {name}\ncase{number} = refl\n")
    with tempfile.TemporaryDirectory() as copy:
        copy_to(copy)
        write_crate(copy, "\n".join(parts))
        status, lines = rt_ci(copy, [], lambda line: None)
    proved = [line for line in lines if line == f"rt: {CRATE} proved" or line.startswith(f"rt: {CRATE} is kept: ")]
    if status or not proved:
        print("\n".join(line for line in lines if not line.startswith(("statements ", "library "))))
        sys.exit("a definition differs from a stored case, or the copy is not proved")
    print(proved[0])
    print(f"definitions: {runs} runs and {checks} checks computed, all as expected")


main()
