"""Holds the programs and the library to documents 01 and 02: to lines written by hand and to the second program.

    python3 tests/run_tests.py

`judge` and the library must be built.
"""

import sys

sys.dont_write_bytecode = True  # before the imports of our own modules, which would leave __pycache__ behind

import resource

from call_comparison import compare_calls
from checks import run_checks
from example_checks import check_examples
from files_checks import check_files
from library_checks import check_library
from list_comparison import compare_lists
from listing_comparison import compare_listings
from pair_comparison import compare_pairs
from promises_checks import check_promises
from second_by_hand import check_second_program
from self_check import check_tests_can_fail
from sheet_comparison import compare_sheets
from streams import check_streams
from verdicts_by_hand import check_verdicts_by_hand
from walk_comparison import compare_walks

MEMORY_LIMIT = 4 << 30  # bytes, so that a judge that reads an endless input to its end harms nobody


def main() -> int:
    resource.setrlimit(resource.RLIMIT_AS, (MEMORY_LIMIT, MEMORY_LIMIT))
    check_tests_can_fail()
    return run_checks(
        compare_listings,
        compare_calls,
        compare_sheets,
        compare_pairs,
        compare_walks,
        compare_lists,
        check_streams,
        check_verdicts_by_hand,
        check_examples,
        check_library,
        check_second_program,
        check_files,
        check_promises,
    )


if __name__ == "__main__":
    sys.exit(main())
