#!/usr/bin/env python3
"""Checks that each must-fail edit can be applied to the code: edits_apply.py

The edits are the files of crates/CRATE/must-fail/ and the entries of crates/CRATE/more-must-fail.txt.
Checks too that no two edits of a crate have the same name, and that the gate has an edit for each of
the wrong bodies in NAMED. Prints each edit that can't be applied, and why, such as an old text that its
file doesn't contain exactly once; and each wrong body without its edit or test. The last line counts
what passed and failed. Ends with status 1 if something failed or there is no edit.
"""

import glob
import os
import re
import sys

sys.path.insert(0, os.path.join(os.path.dirname(__file__), "..", "tools"))

from must_fail import Unusable, changed_texts, edits_of
from sources import TOP

# The wrong bodies against which the contracts were written, and the edits of the gate (crate/edit) that are such bodies.
NAMED = {
    "an overwrite codes every interval again": [
        "aec_edit/codes_every_interval_again",
        "aec_edit/an_untouched_interval_is_coded_again",
    ],
    "new bits are written without moving the tail": ["aec_edit/tail_not_moved", "aec_edit/leaves_the_later_offsets"],
    "zero blocks are joined across two intervals or past 64 blocks": [
        "aec_interval/run_across_intervals",
        "aec_interval/run_across_segments",
    ],
    "the greater of two k of equal length is preferred": ["aec_block/takes_the_later_of_equal_k"],
    "the last block is filled with zeros": ["aec_interval/fills_with_zeros"],
    "samples are appended after the old filler": ["aec_edit/appends_after_the_old_filler"],
    "offsets change before memory is known to suffice": ["aec_edit/offsets_moved_before_memory_is_known"],
    "decoding accepts a mapped value of 2^n": ["aec_block/accepts_two_to_the_n"],
    "decoding returns fewer samples for a cut stream": ["aec_interval/short_answer_for_a_cut_stream"],
    "each block of a zero run is coded by itself": ["aec_interval/zero_blocks_one_by_one"],
    "no compression writes the pattern in place of the mapped value": [
        "aec_block/no_compression_writes_the_pattern_in_place_of_the_mapped_value"
    ],
    "an edit is refused for lack of calls whenever it likes": ["aec_edit/spent_with_calls_left"],
    "coder calls are made before they are found too few": ["aec_edit/calls_made_before_they_are_counted"],
    "a run stops at the first refused edit": ["aec_edit/run_stops_at_the_first_refusal"],
    "an interval ends with each piece": ["aec_interval/interval_ends_with_each_piece"],
    "nothing is coded until the end": ["aec_interval/codes_nothing_until_finish"],
    "values are added in lanes of 32 bits that wrap": ["aec_block/sums_in_lanes_of_32_bits"],
    "the remainder code is read as five blocks": ["aec_interval/remainder_is_five_blocks"],
    "a reference pair whose first member isn't 0 is refused": ["aec_block/refuses_a_first_pair_member"],
    "DEST is begun before an edit is refused": ["aec_engine/begins_before_the_edits"],
    "a range is cut at the end instead of refused": ["aec_edit/range_cut_at_the_end"],
    "every interval is decoded, or one that is wholly overwritten": [
        "aec_edit/decodes_every_interval",
        "aec_edit/decodes_a_wholly_overwritten_interval",
    ],
    "all intervals after a whole insertion are coded again": ["aec_edit/codes_all_intervals_behind_a_whole_insertion"],
    "whole intervals are removed and the later offsets stay": ["aec_edit/leaves_the_later_offsets_after_a_removal"],
}

# One more: a call that may fail with `Memory` always does. Contracts allow it, so tests (crate/test) must refuse it.
REFUSED_BY_TESTS = [
    "aec_bits_tests/reads_whole_samples",
    "aec_bits_tests/builds_and_edits",
    "aec_bits_tests/splices_as_a_list",
    "aec_bits_tests/codes_octets_and_back",
    "aec_block_tests/chooses_and_writes_the_shortest",
    "aec_block_tests/writes_runs",
    "aec_interval_tests/codes_and_reads_back",
    "aec_interval_tests/reads_what_the_count_asks_for",
    "aec_interval_tests/codes_each_interval_when_it_is_complete",
    "aec_edit_tests/workspaces_answer_step_by_step",
    "aec_edit_tests/a_run_takes_the_last_call",
    "aec_edit_tests/mixed_edits_leave_the_code_of_a_plain_list",
    "aec_edit_tests/edits_applied_as_one_leave_the_code_of_a_plain_list",
    "aec_engine_tests/edits_stand_on_their_lines",
    "aec_engine_tests/scripts_are_carried_out",
    "aec_tests/each_option_has_its_setting",
    "aec_job_tests/samples_are_coded_and_decoded",
    "aec_tests/ranges_and_counts_are_cut_out",
    "aec_tests/files_are_coded_and_decoded",
]


def all_edits():
    """Returns each must-fail edit of each crate, also of one that isn't in crates.txt."""
    return [edit for crate in sorted(os.listdir(os.path.join(TOP, "crates"))) for edit in edits_of(crate)]


def why_not(edit, edits):
    """Returns why an edit can't be applied to its crate, or can't be told from another one; or None."""
    if not re.fullmatch(r"[a-z]\w*", edit.name):
        return "it has no line `name: NAME`, or the name is no word"
    if sum((it.crate, it.name) == (edit.crate, edit.name) for it in edits) > 1:
        return "two edits have this name"
    try:
        changed_texts(edit, os.path.join(TOP, "crates", edit.crate))
    except (Unusable, OSError) as why:
        return str(why)
    return None


def is_test(name):
    crate, _, test = name.partition("/")
    sources = glob.glob(os.path.join(TOP, "crates", crate, "src", "**", "*.rt"), recursive=True)
    return any(re.search(rf"#\[test\]\s+fn {test}\(", open(path, encoding="utf-8").read()) for path in sources)


def missing(edits):
    """Yields each wrong body that lost its edit or its test."""
    gate = {f"{it.crate}/{it.name}" for it in edits if it.is_in_gate}
    for body, names in NAMED.items():
        yield from (f"{body}: the gate has no edit {name}\n" for name in names if name not in gate)
    yield from (f"a call always fails with Memory: no test {test}\n" for test in REFUSED_BY_TESTS if not is_test(test))


def main():
    edits = all_edits()
    found = [f"{it.crate}/{it.name}: {why}\n" for it in edits if (why := why_not(it, edits))]
    lost = list(missing(edits))
    checks = len(edits) + sum(map(len, NAMED.values())) + len(REFUSED_BY_TESTS)
    failed = len(found) + len(lost)
    print("".join(found + lost) + f"{checks - failed} passed, {failed} failed")
    return 1 if failed or not edits else 0


if __name__ == "__main__":
    sys.exit(main())
