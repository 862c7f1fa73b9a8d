"""Holds what the library reads from many sheets, and what judge lists for some of them, to the second program.

    python3 tests/sheet_comparison.py

The program `judge` and the library must be built.
"""

import sys

sys.dont_write_bytecode = True  # before the imports of our own modules, which would leave __pycache__ behind

from collections import Counter

from cases import Case, answer_name, for_judge, for_library, make_cases
from checks import Checks, Failure, run_checks
from comparison import Request, compare
from programs import run
from second.calls import counted_lines, held_lines
from second.listing import check_lines, lines
from second.sheet import REFUSALS, Sheet

LEAST_SHEETS = 20_000
LEAST_OF_EACH_REFUSAL = 100
LEAST_OF_EACH_REFUSAL_SHOWN = 10
LEAST_JUDGED = 250


def compare_sheets(checks: Checks) -> None:
    cases = make_cases(checks)
    judged = for_judge(cases)
    compare(checks, list(map(request, for_library(cases))))
    for case in judged:
        checks.report(judge_failures(case, run("judge", input=case.data)))
    print_counts(cases, judged)
    check_coverage(checks, cases, judged)


def request(case: Case) -> Request:
    if case.shown:
        return Request(f"{case.name}, held", case.data, "H", held_lines(case.answer))
    return Request(f"{case.name}, counts", case.data, "R", counted_lines(case.answer))


def judge_failures(case: Case, output: str) -> list[Failure]:
    reason = check_lines(lines(case.answer), output)
    return [Failure(f"{case.name}, judge", case.data, reason, output)] if reason else []


def print_counts(cases: list[Case], judged: list[Case]) -> None:
    kinds = Counter(case.kind for case in cases)
    by_kind = ", ".join(f"{kinds[kind]:,} {kind}" for kind in ["sound", "damaged", "random"])
    print(f"compared {len(cases):,} sheets: {by_kind}")
    print(f"answers: {counted(cases)}")
    shown = [case for case in cases if case.shown]
    print(f"contents shown and compared: {len(shown):,} sheets: {counted(shown)}")
    print(f"given to judge itself: {len(judged):,} sheets: {counted(judged)}")


def counted(cases: list[Case]) -> str:
    counts = Counter(map(answer_name, cases))
    return ", ".join(f"{name} {counts[name]:,}" for name in sorted(counts))


def check_coverage(checks: Checks, cases: list[Case], judged: list[Case]) -> None:
    checks.at_least("sheets compared", LEAST_SHEETS, len(cases))
    checks.at_least("sheets given to judge", LEAST_JUDGED, len(judged))
    shown = [case for case in cases if case.shown]
    counts, shown_counts = Counter(map(answer_name, cases)), Counter(map(answer_name, shown))
    for name in [f"refusal {number}" for number in REFUSALS]:
        checks.at_least(name, LEAST_OF_EACH_REFUSAL, counts[name])
        checks.at_least(f"{name}, contents shown", LEAST_OF_EACH_REFUSAL_SHOWN, shown_counts[name])
    check_sizes_shown(checks, [case.answer for case in shown if isinstance(case.answer, Sheet)])


def check_sizes_shown(checks: Checks, shown: list[Sheet]) -> None:
    """A fault may need many places, transitions or claims before it tells."""
    sizes = [(sheet.n, sheet.T, len(sheet.claims)) for sheet in shown]
    checks.at_least("pairs of n and T shown", 65 * 8, len({(n, T) for n, T, _ in sizes}))
    checks.at_least("counts of claims shown", 32, len({claims for _, _, claims in sizes}))
    checks.at_least("sheets of the largest size shown", 5, sizes.count((16, 64, 32)))


if __name__ == "__main__":
    sys.exit(run_checks(compare_sheets))
