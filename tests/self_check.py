"""Shows that the tests can fail: each wrong output below is reported, and for the right sheet.

What fails here is raised, because the means to report it are what is in doubt.
"""

from collections import Counter
from contextlib import redirect_stdout
from io import StringIO
from unittest.mock import patch

import call_comparison
import list_comparison
import listing_comparison
import sheet_comparison
import walk_comparison
from cases import Case
from checks import Checks, Failure
from comparison import Request, differences
from named_cases import FIRST, HEAD, SMALLEST, ZERO_CLAIM
from pair_cases import CASES as PAIRS
from pair_cases import EMPTY, ENOUGH, sheet_of
from pair_questions import Question, request, second_answer, second_faults
from second.calls import page_lines
from second.listing import right_text
from second.sheet import read, write
from wrong_outputs import (
    FIRED,
    JUDGED_J,
    LISTED,
    NONE,
    OTHER_RIGHT_TOKENS,
    RIGHT_LISTINGS,
    RIGHT_LISTS,
    RIGHT_WALKS,
    WALKED,
    WRONG_CALLS,
    WRONG_LISTINGS,
    WRONG_LISTS,
    WRONG_WALKS,
)

CASES = [
    Case("first sheet", "sound", FIRST, read(FIRST), shown=True),
    Case("sheet without a claim", "damaged", HEAD, read(HEAD), shown=True),
    Case("sheet with a zero claim", "damaged", ZERO_CLAIM, read(ZERO_CLAIM), shown=True),
    Case("smallest sheet", "sound", SMALLEST, read(SMALLEST), shown=False),
]
START = f"start 0: refusal 0 at 0, tokens 2 0{NONE}\n"
LAST = "read 0: refusal 0 at 0, counts 1 0 1\n.\n"

# What is wrong, the sheet that it is wrong for, the right words and the wrong ones.
WRONG = [
    ("a count", FIRST, "counts 2 1 5", "counts 2 1 4"),
    ("a weight", FIRST, "weights 1: refusal 0 at 0, taken 1 0", "weights 1: refusal 0 at 0, taken 0 1"),
    ("a call not refused", FIRST, "weights 2: refusal 12 at 2", "weights 2: refusal 0 at 0"),
    ("a token beyond place n", FIRST, "start 0: refusal 0 at 0, tokens 2 0 0", "start 0: refusal 0 at 0, tokens 2 0 1"),
    ("the kind", FIRST, "kind 0", "kind 1"),
    ("a sign", FIRST, "half_space 2: refusal 0 at 0, coefficients -1", "half_space 2: refusal 0 at 0, coefficients 1"),
    ("two coefficients exchanged", FIRST, "coefficients 2 1", "coefficients 1 2"),
    ("a constant", FIRST, "constant 4", "constant 5"),
    ("a record one later", FIRST, "from 29, length 6", "from 30, length 6"),
    ("a record too short", FIRST, "from 29, length 6", "from 29, length 5"),
    ("a record's check", FIRST, "claim_check 5: refusal 0 at 0", "claim_check 5: refusal 11 at 5"),
    ("a missing line", FIRST, START, ""),
    ("a line too many", FIRST, START, 2 * START),
    ("a detail", HEAD, "read 0: refusal 9 at 23", "read 0: refusal 9 at 24"),
    ("a refusal's number", HEAD, "read 0: refusal 9 at 23", "read 0: refusal 1 at 23"),
    ("a detail passed on", HEAD, "start 0: refusal 9 at 23", "start 0: refusal 9 at 0"),
    ("18 at the first coefficient", ZERO_CLAIM, "read 0: refusal 18 at 29", "read 0: refusal 18 at 31"),
    ("6 for 18", ZERO_CLAIM, "read 0: refusal 18 at 29", "read 0: refusal 6 at 29"),
    ("a zero claim taken", ZERO_CLAIM, "read 0: refusal 18 at 29, counts 0 0 0", "read 0: refusal 0 at 0, counts 2 1 5"),
    ("18 not passed on", ZERO_CLAIM, "half_space 2: refusal 18 at 29", "half_space 2: refusal 0 at 0"),
    ("11 before 18", ZERO_CLAIM, "claim_check 6: refusal 18 at 29", "claim_check 6: refusal 11 at 6"),
    ("a missing answer", SMALLEST, LAST, ""),
    ("an answer too many", SMALLEST, LAST, 2 * LAST),
    ("a missing newline", SMALLEST, LAST, LAST[:-1]),
    ("a changed sheet", SMALLEST, LAST, LAST.replace(".\n", "sheet changed\n.\n")),
    ("an end by a signal", SMALLEST, LAST, LAST + "(ended with status -11)"),
]


# Cases a and j of 01, a zero claim, and a question with a claim, a transition and areas that are all wrong.
CASE_A, CASE_J = (write(sheet_of(pair)) for name, pair, _ in PAIRS if name in ["a", "j"])
QUESTIONS = [
    Question("case a", CASE_A, 1, 1, ENOUGH),
    Question("case j", CASE_J, 1, 1, ENOUGH),
    Question("zero claim", ZERO_CLAIM, 2, 1, ENOUGH),
    Question("refused", FIRST, 6, 2, EMPTY),
]
ANSWERS = list(map(second_answer, QUESTIONS))
CLEARED = "by transition 1, marks 20000 zero, queue 20000 zero\n.\n"
KEPT = f"pair 1: refusal 0 at 0, answer 1, tokens 0 0{NONE}, {CLEARED}"
BROKEN = f"pair 1: refusal 0 at 0, answer 2, tokens 2 1{NONE}, {CLEARED}"
ZERO = f"pair 2: refusal 18 at 29, answer 0, tokens 0 0{NONE}, {CLEARED}".replace(" zero", " kept")
REFUSED = f"pair 6: refusal 11 at 6, answer 0, tokens 0 0{NONE}, by transition 2, marks 0 kept, queue 0 kept\n.\n"

WRONG_PAIRS = [
    ("kept for broken", CASE_J, "answer 2, tokens 2 1", "answer 1, tokens 0 0"),
    ("broken for kept", CASE_A, "answer 1, tokens 0 0", "answer 2, tokens 2 2"),
    ("a marking that isn't inside", CASE_J, "tokens 2 1", "tokens 2 2"),
    ("a marking that stays inside", CASE_J, "tokens 2 1", "tokens 4 1"),
    ("a marking that isn't enabled", CASE_J, "tokens 2 1", "tokens 1 0"),
    ("a bad marking with 20,001 tokens", CASE_J, "tokens 2 1", "tokens 20001 13334"),
    ("a token beyond place n", CASE_J, "tokens 2 1 0", "tokens 2 1 1"),
    ("a marking too short", CASE_J, "tokens 2 1 0", "tokens 2 1"),
    ("a marking with kept", CASE_A, "answer 1, tokens 0 0", "answer 1, tokens 2 2"),
    ("a marking with a refusal", FIRST, "at 6, answer 0, tokens 0", "at 6, answer 0, tokens 1"),
    ("a dirty first area", CASE_A, KEPT, KEPT.replace("marks 20000 zero", "marks 20000 dirty")),
    ("a dirty second area", CASE_J, BROKEN, BROKEN.replace("queue 20000 zero", "queue 20000 dirty")),
    ("areas not cleared", CASE_A, KEPT, KEPT.replace("zero", "kept")),
    ("areas cleared in vain", FIRST, REFUSED, REFUSED.replace("kept", "zero")),
    ("kept for a zero claim", ZERO_CLAIM, ZERO, KEPT.replace("pair 1", "pair 2")),
    ("18 at another claim", ZERO_CLAIM, "refusal 18 at 29", "refusal 18 at 23"),
    ("areas cleared for a zero claim", ZERO_CLAIM, ZERO, ZERO.replace("kept", "zero")),
    ("12 before 11", FIRST, "refusal 11 at 6", "refusal 12 at 2"),
    ("13 before 11", FIRST, "refusal 11 at 6", "refusal 13 at 0"),
    ("another pair's detail", FIRST, "refusal 11 at 6", "refusal 11 at 2"),
    ("kept for a refusal", FIRST, REFUSED, KEPT),
    ("a missing answer about a pair", FIRST, REFUSED, ""),
    ("an answer about a pair too many", FIRST, REFUSED, 2 * REFUSED),
    ("a missing newline after a pair", FIRST, REFUSED, REFUSED[:-1]),
    ("an end by a signal after a pair", FIRST, REFUSED, REFUSED + "(ended with status -11)"),
]

# Wrong answers of the second program itself: the question, and the bad marking that it gives or None.
WRONG_SECOND = [
    ("second program: kept for broken", 1, None),
    ("second program: broken for kept", 0, (2, 2)),
    ("second program: a bad marking with 20,001 tokens", 1, (20_001, 13_334)),
]


def check_tests_can_fail() -> None:
    sheets = list(map(sheet_comparison.request, CASES))
    check_reported(sheets, right_output(sheets), WRONG)
    check_pairs_can_fail()
    listings = [Request("a listing", data, "L", page_lines(read(data))) for _, data in LISTED]
    check_reported(listings, RIGHT_LISTINGS, WRONG_LISTINGS)
    check_others_pass(listings, RIGHT_LISTINGS, "claim 1 broken 2 2 1", "2 1")
    check_reported([walk_comparison.request(walk) for walk, _ in WALKED], RIGHT_WALKS, WRONG_WALKS)
    check_reported([list_comparison.request(made) for made, _ in FIRED], RIGHT_LISTS, WRONG_LISTS)
    # Every call on the same sheets, with the bad markings that the second program happens to find.
    calls = list(map(call_comparison.request, LISTED))
    check_reported(calls, right_output(calls), WRONG_CALLS)
    check_others_pass(calls, right_output(calls), JUDGED_J, "3 1")
    demand("the second program agrees with itself", not failures_found_again())
    with patch("second.sums.some_sum", return_value=False):
        demand("second program: proof for broken, found another way", failures_found_again())


def right_output(requests: list[Request]) -> str:
    return "".join(right_text(request.lines) + ".\n" for request in requests)


def check_pairs_can_fail() -> None:
    pairs = list(map(request, QUESTIONS, ANSWERS))
    check_reported(pairs, KEPT + BROKEN + ZERO + REFUSED, WRONG_PAIRS)
    check_others_pass(pairs, KEPT + BROKEN + ZERO + REFUSED, BROKEN, "2 1")
    for name, index, bad in WRONG_SECOND:
        demand(f"{name} is reported", second_faults(QUESTIONS[index], ANSWERS[index]._replace(bad=bad)))


def check_others_pass(requests: list[Request], right: str, words: str, tokens: str) -> None:
    """Any bad marking will do. The words are right, and so are they with other tokens."""
    for others in OTHER_RIGHT_TOKENS:
        other = right.replace(words, words.replace(tokens, others))
        demand(f"{others} for {tokens} passes too", other != right and not differences(requests, other))


def failures_found_again() -> list[Failure]:
    made = LISTED[0]
    sheet = read(made.data)
    return listing_comparison.found_again(made, sheet, page_lines(sheet), Counter())


def check_reported(requests: list[Request], right: str, wrong: list[tuple[str, bytes, str, str]]) -> None:
    demand("right output passes", not differences(requests, right))
    reported = {failure.data for failure in differences(requests, "")}
    demand("no output is reported for every sheet", reported == {data for _, data, _, _ in wrong})
    for name, data, words, wrong_words in wrong:
        demand(f"{name}: the words are there", words in right)
        found = differences(requests, right.replace(words, wrong_words, 1))
        demand(f"{name} is reported", [failure.data for failure in found] == [data])
        demand(f"{name} counts as a failure and is shown", failure_shown(found, data))


def failure_shown(found: list[Failure], data: bytes) -> bool:
    checks = Checks()
    with redirect_stdout(StringIO()) as printed:
        checks.report(found)
    words = [data.hex(), repr(found[0].expected), repr(found[0].actual)]
    return checks.failed == 1 and all(word in printed.getvalue() for word in words)


def demand(name: str, holds: bool) -> None:
    if not holds:
        raise AssertionError(f"self-check: {name}")
