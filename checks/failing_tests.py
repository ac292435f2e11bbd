#!/usr/bin/env python3
"""Checks that a test fails with wrong bodies that are, or were, refused where a proof by hand no longer fits.

    checks/failing_tests.py [--jobs 2] [EDIT ..]

Where a function is proved by hand the prover refuses each edit of it that its proof doesn't fit, be it wrong or not. So TESTS names,
for such edits, a test of desk_cli that fails with the edit. EDIT is one of them, as CRATE/NAME. It is in `checks/wrong-bodies/CRATE/`.

The repository is only read: its crates are copied into a folder that is removed at the end, once for each run. `rt try --test` runs
the test there, which proves nothing: first each test that is named with no edit, which has to pass, and then with each edit, which
has to make it fail. It fails where one does otherwise, or where a run comes to no end.
"""

import argparse
import re
import shutil
import subprocess
import sys
import tempfile
from concurrent.futures import ThreadPoolExecutor
from pathlib import Path

from wrong_bodies import NotTried, edited

ROOT = Path(__file__).resolve().parent.parent
# The seconds that a run may take.
LONGEST = 1500
RAN = re.compile(r"^test result: .*\. (\d+) passed; (\d+) failed;", re.M)

# edit: the test that fails with it
TESTS = {
    "radio_core/the_width_of_dr6_forgotten": "tests::radio_rules::transmissions_lie_in_bands",
    "duty_core/a_limit_kept_by_the_clock_hour": "tests::hours::fits_up_to_the_limit",
    "duty_core/a_peak_of_hours_that_begin_at_a_start_alone": "tests::hours::finds_the_peak",
    "duty_core/a_range_of_later_starts_alone": "tests::hours::tells_what_is_near",
    "duty_core/collisions_of_equal_starts_alone": "tests::hours::tells_order_and_what_is_clear",
    "duty_core/the_hours_of_the_new_span_without_the_others": "tests::hours::fits_up_to_the_limit",
    "desk_store/a_last_nonce_that_stays_nought": "tests::rows_over_lists",
    "desk_store/an_uplink_that_starts_with_the_next_period": "tests::rows_over_lists",
    "desk_store/another_operator": "tests::rows_over_lists",
    "desk_store/only_earlier_bookings_are_near": "tests::rows_over_lists",
    "desk_store/replies_by_transaction_alone": "tests::rows_over_lists",
    "desk_wire/a_csv_report_read_up_to_its_fault": "tests::csv_reports::reports_are_taken_or_refused_by_the_first_fault",
    "desk_rows/a_reception_replaced": "tests::keys::a_gateway_has_one_reception_of_an_uplink",
    "desk_rows/a_dropped_booking_answers": "tests::rows_over_tables",
    "desk_rows/a_limit_set_for_all_bands": "tests::rows_over_tables",
    "desk_rows/an_index_left_out": "tests::stops::a_run_is_found_after_a_stop",
    "desk_rows/everybody_a_stranger": "tests::rows_over_tables",
    "desk_rows/near_bookings_before_the_start_only": "tests::rows_over_tables",
    "desk_rows/the_reply_by_its_number_alone": "tests::rows_over_tables",
    "desk_rows/the_same_device_again": "tests::rows_over_tables",
    "desk_tables/a_booking_that_is_not_counted": "tests::rows_over_tables",
    "desk_tables/a_desk_without_its_operator": "tests::rows_over_tables",
    "desk_tables/a_floor_raised_by_a_join": "tests::rows_over_tables",
    "desk_tables/a_migration_that_drops_the_replies": "tests::migrating::a_desk_is_moved_with_all_it_holds",
    "desk_tables/a_failed_store_tells_its_counts": "tests::fuses::a_desk_whose_log_stops",
    "desk_tables/the_first_bands_limit_for_every_band": "tests::rows_over_tables",
    "desk_engine/a_months_last_microsecond_in_the_next": "tests::rows_over_lists",
    "desk_engine/an_import_hears_the_first_again": "tests::rows_over_lists",
    "desk_engine/from_nothing_runs_nothing": "tests::stops::a_run_is_found_after_a_stop",
    "desk_engine/the_last_line_dropped": "tests::lines::a_long_line_is_answered",
    "desk_http/a_cut_body_delivered_before_it_is_refused": "tests::requests::limits::every_beginning",
    "desk_http/two_connections_served_for_each": "commands::serving::tests::peers_in_order",
    "desk_cli/texts_that_are_never_answered": "tests::stops::a_run_is_found_after_a_stop",
    "desk_cli/the_first_word_taken_for_the_programs_name": "program::tests::runs_of_words",
}


def file_of(crate, name):
    file = ROOT / "checks" / "wrong-bodies" / crate / f"{name}.edit"
    if not file.is_file():
        raise NotTried("there is no such edit")
    return file


def ran(test, edit=None):
    """Runs the test with the edit, if there is one. Returns whether it passed, or None where it came to no end, and what was printed last."""
    with tempfile.TemporaryDirectory(prefix="failing-tests-") as temporary:
        folder = Path(temporary)
        shutil.copy(ROOT / "crates.txt", folder)
        shutil.copytree(ROOT / "crates", folder / "crates", ignore=shutil.ignore_patterns("out", "must-fail"))
        if edit:
            crate, _, name = edit.partition("/")
            texts = edited(file_of(crate, name), folder / "crates" / crate)
            for file, text in texts.items():
                (folder / "crates" / crate / file).write_text(text)
        words = ["rt", "try", "--test", "--seconds", str(LONGEST), "--", test]
        how = {"stdin": subprocess.DEVNULL, "stdout": subprocess.PIPE, "stderr": subprocess.STDOUT, "text": True}
        told = subprocess.run(words, cwd=folder / "crates" / "desk_cli", errors="replace", **how).stdout
    result = RAN.search(told)
    is_passed = result and {("1", "0"): True, ("0", "1"): False}.get(result.groups())
    return is_passed, next((line for line in reversed(told.splitlines()) if line), "")


def failing(edit):
    """Returns whether the test of the edit fails with it, and what to print of it."""
    try:
        is_passed, last = ran(TESTS[edit], edit)
    except NotTried as why:
        return False, f"{edit}: NOT TRIED: {why}"
    if is_passed is None:
        return False, f"{edit}: NO END: {TESTS[edit]}: {last[:200]}"
    return not is_passed, f"{edit}: {TESTS[edit]} {'PASSES' if is_passed else 'fails'}"


def passing(test):
    """Returns whether the test passes with no edit, and what to print of it."""
    is_passed, last = ran(test)
    return bool(is_passed), f"{test} passes" if is_passed else f"{test}: DOES NOT PASS with no edit: {last[:200]}"


def main():
    words = argparse.ArgumentParser(description=__doc__.splitlines()[0])
    words.add_argument("edits", nargs="*", metavar="EDIT", help="the edits to try, CRATE/NAME, of all where none is named")
    words.add_argument("--jobs", type=int, default=2, help="how many run side by side")
    given = words.parse_args()
    unknown = [edit for edit in given.edits if edit not in TESTS]
    if unknown:
        sys.exit(f"no test belongs to {', '.join(unknown)}")
    edits = given.edits or list(TESTS)
    with ThreadPoolExecutor(given.jobs) as lanes:
        passed = report(lanes.map(passing, sorted({TESTS[edit] for edit in edits})))
        failed = report(lanes.map(failing, edits))
    print(f"{failed[0]} of {failed[1]} edits make their test fail; {passed[0]} of {passed[1]} tests pass with no edit")
    sys.exit(passed[0] < passed[1] or failed[0] < failed[1])


def report(results):
    """Prints the line of each. Returns how many are well, and how many there are."""
    well = all_of_them = 0
    for is_well, said in results:
        print(said, flush=True)
        well += is_well
        all_of_them += 1
    return well, all_of_them


if __name__ == "__main__":
    main()
