#!/usr/bin/env python3
"""Whether the calls by which the proved library is judged tell each wrong program from the right one: faults.py [EDIT...]

A wrong program is the independent implementation (tests/reference) with an edit of tests/faults applied to a copy. Edits are written
as the must-fail edits of the crates: what is wrong, the file, pairs of an old text, which must stand there once, and a new one. An
edit `engine_...` or `checker_...` is in that program alone; any other is in both, and each must be told apart. The calls and what
they should leave come from the implementation as it stands (tests/calls)."""
import concurrent.futures
import glob
import os
import shutil
import subprocess
import sys
import tempfile

TESTS = os.path.dirname(os.path.abspath(__file__))
BUILT = os.path.join(TESTS, "target", "release")
MAIN = "\nfn main() {\n    calls::apart::report(interface::run, interface::ask, interface::check)\n}\n"

# The most seeds by which a wrong program must be told apart.
SEEDS = 20_000
# An edit must make a program that answers; one that runs longer is taken to have no end.
SECONDS = 300

# Both sides of a pair are always looked through, and each binding is a unit on either side. Which side comes first shows neither in
# the units nor in the text, and if the units end between the two, the answer is spent in both cases. So the documents cannot tell
# this program from the right one.
NOT_TOLD_APART = {"engine_clauses_side_first"}

# The wrong programs of document 01 itself ("What a hurried programmer would do", "What the desk may rely on", c), two that show in the
# text alone, and those of W-201, W-204, W-206, W-207 and W-202: the stored cases or texts must tell them apart too.
LISTED = {
    "engine_spent_at_once",
    "engine_units_off_by_one",
    "engine_no_for_every_sheet",
    "engine_only_first_member",
    "engine_constants_beforehand",
    "engine_levels_not_lowered",
    "engine_assumption_kept",
    "engine_levels_not_restored",
    "engine_no_occurs_check",
    "engine_places_among_matching",
    "engine_numbering_per_level",
    "all_or_nothing_folded",
    "capital_not_first",
    "capitals_refused",
    "checker_line_letters_folded",
    "checker_names_exact",
    "checker_outcome_folded",
    "checker_spellings_apart",
    "checker_words_folded",
    "count_after_repeated",
    "digits_folded",
    "engine_names_in_small_letters",
    "first_letter_folded",
    "last_capital_not_folded",
    "line_letters_folded",
    "names_exact",
    "repeated_names_exact",
    "underscore_folded",
    "checker_number_65536",
    "checker_number_for_every",
    "checker_number_is_its_symbol",
    "checker_number_leading_zeros",
    "checker_number_of_level_1",
    "checker_number_of_the_sheet_alone",
    "checker_number_refused",
    "checker_number_with_arguments",
    "checker_number_with_empty_brackets",
    "checker_number_with_letters",
    "checker_numbers_in_one_byte",
    "engine_number_free_in_range_check",
    "engine_number_in_base_sixteen",
    "engine_number_matches_a_symbol_in_two_bytes",
    "engine_number_matches_its_symbol",
    "engine_number_matches_made_constant",
    "engine_number_of_level_1",
    "engine_number_pair_free",
    "engine_number_with_leading_zeros",
    "engine_number_with_sign",
    "engine_numbers_in_one_byte",
    "engine_numbers_never_match",
    "n_line_65536",
    "n_line_in_one_byte",
    "n_line_leading_zeros",
    "n_line_makes_no_node",
    "n_line_names_a_symbol",
    "n_line_no_term",
    "n_line_past_the_last_node",
    "n_line_refused",
    "n_line_with_two_numbers",
    "n_line_without_number",
    "number_of_size_0",
    "number_of_size_2",
    "engine_binding_in_place_of_node",
    "engine_binding_without_unit",
    "engine_bindings_free",
    "engine_bindings_free_at_same_variable",
    "engine_bindings_paid_in_pairs_alone",
    "engine_bindings_paid_in_range_checks_alone",
    "engine_bindings_paid_in_writing",
    "engine_bindings_paid_on_clauses_side_alone",
    "engine_bindings_paid_on_goals_side_alone",
    "engine_bound_as_it_stood",
    "engine_chain_for_one_unit",
    "engine_chains_shortened",
    "engine_long_chains_shortened",
    "engine_node_at_each_binding",
    "engine_replacement_paid",
    "engine_root_paid_twice",
    "engine_sides_exchanged",
    "engine_two_bindings_for_one_unit",
    "assumptions_before_the_sheet",
    "checker_members_reversed_by_default",
    "checker_members_reversed_by_o_latest",
    "checker_o_latest_ignored",
    "checker_places_among_assumptions",
    "checker_places_from_the_other_end",
    "engine_members_reversed_by_default",
    "engine_members_reversed_by_o_latest",
    "engine_o_latest_ignored",
    "engine_places_among_assumptions",
    "engine_places_from_the_other_end",
    "engine_places_of_the_other_order",
    "latest_first_after_the_sheet",
    "latest_first_by_default",
    "o_latest_after_the_sheet",
    "o_latest_oldest_first",
    "o_letter_small",
    "o_line_after_q_accepted",
    "o_line_after_q_under_6",
    "o_line_anywhere",
    "o_line_before_the_q_line",
    "o_line_folded",
    "o_line_in_line_2",
    "o_line_makes_a_node",
    "o_line_makes_a_symbol",
    "o_line_not_counted",
    "o_line_refused",
    "o_line_refused_under_11",
    "o_line_shorter_word",
    "o_line_twice",
    "o_line_with_another_word",
    "o_line_with_more",
    "o_line_without_lf",
    "o_line_without_word",
    "o_oldest_accepted",
    "orders_exchanged",
    "engine_13_after_5",
    "engine_13_after_the_sheet",
    "engine_13_before_2",
    "engine_13_before_3",
    "engine_13_changes_buffers",
    "engine_13_for_64",
    "engine_13_in_two_bytes",
    "engine_13_not_for_0",
    "engine_13_not_for_65",
    "engine_13_with_line_1",
    "engine_ask_writes_five_numbers",
    "engine_ways_alternatives_dropped",
    "engine_ways_constants_numbered_on",
    "engine_ways_earliest_taken_up",
    "engine_ways_first_outcome",
    "engine_ways_first_units",
    "engine_ways_first_written_at_12",
    "engine_ways_going_on_paid",
    "engine_ways_last_first",
    "engine_ways_last_line_past_the_answer",
    "engine_ways_latest_dropped",
    "engine_ways_members_dropped",
    "engine_ways_no_after_the_number",
    "engine_ways_no_line_missing",
    "engine_ways_no_told_as_spent",
    "engine_ways_number_asked_for",
    "engine_ways_one_fewer",
    "engine_ways_one_more",
    "engine_ways_r_lines_counted",
    "engine_ways_same_answers_left_out",
    "engine_ways_several_past_65535",
    "engine_ways_sides_dropped",
    "engine_ways_spent_line_missing",
    "engine_ways_spent_tells_last_proof",
    "engine_ways_spent_told_as_no",
    "engine_ways_units_of_each_alone",
    "engine_ways_variables_numbered_on",
    "engine_ways_walk_restarted",
}

# These find proofs where there are none, and the checker must turn them down. Without the occurs check a false proof holds an endless
# term, so that its text is refused under 12.
UNSOUND = {
    "engine_constants_beforehand",
    "engine_levels_not_lowered",
    "engine_assumption_kept",
    "engine_number_matches_its_symbol",
    "engine_number_matches_made_constant",
    "engine_numbers_in_one_byte",
}

# The files in which an edit can make the engine find such proofs.
SEARCH = {"src/formula.rs", "src/program.rs", "src/search.rs", "src/unification.rs"}


class Failure(Exception):
    pass


def run(command, what, **options):
    done = subprocess.run(command, capture_output=True, text=True, **options)
    if done.returncode != 0:
        raise Failure(f"{what}\n{done.stdout}{done.stderr}")
    return done.stdout


def read(path):
    """The file that an edit is for, and its pairs."""
    with open(path) as f:
        what, file, *lines = f.read().splitlines()
    pairs = list(zip(lines[::2], lines[1::2]))
    formed = what and file.startswith("file: ") and pairs and len(lines) % 2 == 0
    if not formed or not all(old.startswith("old: ") and new.startswith("new: ") for old, new in pairs):
        raise Failure("is not of the form of an edit")
    return file[len("file: ") :], [(old[len("old: ") :], new[len("new: ") :]) for old, new in pairs]


def applied(text, pairs):
    for old, new in pairs:
        if text.count(old) != 1:
            raise Failure(f"does not apply: `{old}` stands {text.count(old)} times")
        text = text.replace(old, new)
    return text


def build(file, pairs, copy):
    """The wrong program, in a copy of the implementation with a main function."""
    shutil.copytree(os.path.join(TESTS, "reference", "src"), os.path.join(copy, "src"))
    with open(os.path.join(copy, file), "r+") as f:
        text = applied(f.read(), pairs)
        f.seek(0)
        f.truncate()
        f.write(text)
    root = os.path.join(copy, "src", "lib.rs")
    with open(root, "a") as f:
        f.write(MAIN)
    program = os.path.join(copy, "program")
    libraries = ["--extern", f"calls={BUILT}/libcalls.rlib", "-L", f"dependency={BUILT}/deps"]
    # An edit may leave something unused. Most programs are told apart so soon that a fast one is not worth its compilation.
    options = ["--edition", "2021", "--crate-type", "bin", "--cap-lints", "allow", "-C", "codegen-units=1"]
    run(["rustc", *options, *libraries, "-o", program, root], "does not compile")
    return program


def tried(path):
    """What each way of telling the program apart comes to (calls::apart), empty if it does not."""
    name = name_of(path)
    file, pairs = read(path)
    ways = []
    if not name.startswith("checker_"):
        ways += ["runs", "cases"]
        if file in SEARCH:
            ways.append("proofs")
    if not name.startswith("engine_"):
        ways += ["checks", "texts"]
    seeds = SEEDS // 4 if name in NOT_TOLD_APART else SEEDS
    with tempfile.TemporaryDirectory() as copy:
        program = build(file, pairs, copy)
        try:
            printed = run([program, str(seeds), *ways], "breaks off", timeout=SECONDS)
        except subprocess.TimeoutExpired:
            raise Failure(f"does not end within {SECONDS} seconds")
    return dict(line.split("\t") for line in printed.splitlines())


def judge(path):
    """The line to print for an edit; a failure if the program is not told apart as it should be."""
    name = name_of(path)
    told = tried(path)
    if name in NOT_TOLD_APART:
        if any(told.values()):
            raise Failure(f"is told apart after all: {told}")
        return f"{name}: not told apart, as it should be"
    for way in ("runs", "checks"):
        if told.get(way) == "":
            raise Failure(f"is not told apart by the {way} of {SEEDS} seeds")
    if name in LISTED and not (told.get("cases") or told.get("texts")):
        raise Failure("is not told apart by the stored cases and texts")
    if name in UNSOUND and not told["proofs"]:
        raise Failure("finds no false proof")
    return f"{name}: " + ", ".join(f"{way} {value}" for way, value in told.items() if value)


def name_of(path):
    return os.path.basename(path)[: -len(".edit")]


def build_calls():
    manifest = os.path.join(TESTS, "Cargo.toml")
    target = os.path.join(TESTS, "target")
    cargo = ["cargo", "build", "--release", "--offline", "--quiet", "-p", "calls"]
    subprocess.run([*cargo, "--manifest-path", manifest, "--target-dir", target], check=True)


def main():
    build_calls()
    everything = sorted(glob.glob(os.path.join(TESTS, "faults", "*.edit")))
    missing = (NOT_TOLD_APART | LISTED | UNSOUND) - set(map(name_of, everything))
    failures = [f"{name} is not there" for name in sorted(missing)]
    edits = sys.argv[1:] or everything
    with concurrent.futures.ThreadPoolExecutor(os.cpu_count()) as pool:
        for path, judged in [(path, pool.submit(judge, path)) for path in edits]:
            try:
                print(judged.result(), flush=True)
            except Failure as failure:
                failures.append(f"{name_of(path)} {failure}")
    if failures:
        sys.exit("faults: " + "\nfaults: ".join(failures))
    apart = [path for path in edits if name_of(path) not in NOT_TOLD_APART]
    print(f"faults: {len(edits)} wrong programs, {len(apart)} told apart, {len(edits) - len(apart)} that the documents cannot tell apart")


main()
