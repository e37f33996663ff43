#!/usr/bin/env python3
"""Refuses each ask for memory of some tests in turn, and counts the asks of others.

    tests/faults/calls.py LIBRARY

The library is refuse.c, built to be loaded ahead of the C library. The programs of tests are those that
tools/unproved.py leaves, or `rt ci` if it proved them. Each test of TESTS makes a call,
asserts its answer, and prints what came: `Whole`, `NoMemory` where the call answered that and then,
on fresh inputs or made again, gave all, or `NoInputs` where there was no memory to make the call.
It is run once with nothing refused, which counts its asks, and then once for each of them. A
refusal is told as `NoMemory`, or was not needed (a vector asks ahead for room). Of a call to which
no refusal came nothing is known, which fails.

The tests in a row of ALIKE make the same calls, each of them one more than the test before it. With
nothing refused all make as many asks, since the last calls ask for no memory: not for any that they
could do without either.
"""

import os
import resource
import sys

from refusing import Refusing

CRATES = os.path.join(os.path.dirname(os.path.abspath(__file__)), "..", "..", "crates")
TESTS = {
    "cdb_form_tests": [
        "a_map_reader_tells_refused_memory",
        "an_amend_reader_tells_refused_memory",
    ],
    "cdb_make_tests": [
        "adds_tell_refused_memory",
        "many_adds_tell_refused_memory",
        "a_replacement_tells_no_refused_memory",
        "a_removal_and_a_look_tell_no_refused_memory",
        "a_finish_tells_refused_memory",
        "an_append_tells_refused_memory",
        "a_lazy_maker_tells_refused_memory",
    ],
    "cdb_read_tests": ["values_tell_refused_memory", "a_check_tells_refused_memory"],
    "cdb_command_tests": ["a_create_tells_refused_memory", "a_refused_line_tells_refused_memory"],
    "cdb_tool_tests": [
        "a_list_tells_refused_memory",
        "a_list_of_a_map_tells_refused_memory",
        "a_load_tells_refused_memory",
        "inputs_tell_refused_memory",
        "a_dump_tells_refused_memory",
        "a_difference_tells_refused_memory",
        "an_adding_run_tells_refused_memory",
        "a_warning_run_tells_refused_memory",
        "an_inserting_run_tells_refused_memory",
        "a_replacing_run_tells_refused_memory",
        "a_removal_from_a_base_tells_refused_memory",
        "an_amended_base_tells_refused_memory",
    ],
}
ALIKE = {
    "cdb_make_tests": [
        ["asks_before_a_replacement", "asks_with_a_replacement"],
        ["asks_before_a_replacement_of_four", "asks_with_a_replacement_of_four"],
        ["asks_before_a_removal", "asks_with_a_removal", "asks_with_a_removal_and_a_look"],
        ["asks_before_a_first_look", "asks_with_a_first_look"],
        ["asks_before_an_insertion_that_finds_its_key", "asks_with_an_insertion_that_finds_its_key"],
        ["asks_before_a_longer_replacement", "asks_with_a_longer_replacement"],
        ["asks_before_a_long_record", "asks_with_a_long_record"],
    ],
}
PASSED = b"test result: ok"
# What a test prints, and what that is called here.
CAME = {"NoMemory": "told", "Whole": "done without", "NoInputs": "before the call"}


def came_of(left):
    """What a test printed of its call, or what is wrong with the test's end."""
    status, output = left.returncode, left.stdout
    lines = output.split()
    if status or PASSED not in output:
        return f"{left!r:.300}"
    return lines[0].decode()


def words_of(test):
    """The words by which a program of tests makes this one alone."""
    return [f"tests::refusals::{test}"]


def refuse_each(program, test):
    """For each refusal its number, and what came of it."""
    words = words_of(test)
    free, asks = program.run(words, b"")
    if came_of(free) != "Whole":
        return [("nothing refused", f"{free!r:.300}")]
    came = []
    for number in range(1, asks + 1):
        left, _ = program.run(words, b"", number, number)
        came.append((f"ask {number}", came_of(left)))
    return came


def tell(test, came):
    """Says what came of the refusals of a test, and how many of them passed and failed."""
    count = {it: sum(1 for _, what in came if what == it) for it in CAME}
    wrong = [f"{test}: {how}: {it}" for how, it in came if it not in CAME]
    for line in wrong[:5]:
        print(line)
    told = ", ".join(f"{number} {CAME[it]}" for it, number in count.items())
    print(f"{test}: {len(came)} refusals: {told}, {len(wrong)} wrong")
    if count["NoMemory"] == 0:
        print(f"{test}: no refusal reached the call")
    return count["NoMemory"] + count["Whole"], len(wrong) + (count["NoMemory"] == 0)


def asks_of(program, test):
    """How many asks a test makes with nothing refused, or what came of it that should not."""
    left, asks = program.run(words_of(test), b"")
    came = came_of(left)
    return asks if came == "Whole" else came


def compare(program, row):
    """Says how many asks each test of a row makes, and how many of them passed and failed, beside
    the one before them."""
    asks = [asks_of(program, test) for test in row]
    passed = 0
    for number in range(1, len(row)):
        before, now = asks[number - 1 : number + 1]
        passed += isinstance(now, int) and now == before
        print(f"{row[number]}: {now} asks, and {before} before its last call")
    return passed, len(row) - 1 - passed


def main():
    if len(sys.argv) != 2:
        sys.exit(__doc__)
    # A failed assertion is to leave no file.
    resource.setrlimit(resource.RLIMIT_CORE, (0, 0))
    library = os.path.abspath(sys.argv[1])
    passed = failed = 0
    for crate, tests in TESTS.items():
        built = os.path.abspath(os.path.join(CRATES, crate, "out", f"{crate}_tests"))
        if not os.path.isfile(built):
            print(f"{crate}: the gate made no program of its tests: there is no {os.path.relpath(built)}")
            failed += 1
            continue
        program = Refusing(built, library)
        counts = [tell(test, refuse_each(program, test)) for test in tests]
        counts += [compare(program, row) for row in ALIKE.get(crate, [])]
        passed += sum(good for good, _ in counts)
        failed += sum(bad for _, bad in counts)
    print(f"{passed} passed, {failed} failed")
    sys.exit(1 if failed else 0)


if __name__ == "__main__":
    main()
