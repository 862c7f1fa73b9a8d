"""Asks the library about many pairs of a half space and a transition, and holds its answers to the second program.

    python3 tests/pair_comparison.py

The archive must be built (`scripts/library`).
"""

import sys

sys.dont_write_bytecode = True  # before the imports of our own modules, which would leave __pycache__ behind

from collections import Counter

from checks import Checks, run_checks
from comparison import differences, dotted_answers, output_for
from pair_cases import make_questions
from pair_questions import Answer, kinds_of, request, second_answer, second_faults, shown_marking, words
from second.sheet import REFUSALS, Refusal

LEAST_QUESTIONS = 34_000
LEAST_OF_EACH_REFUSAL = 40

# Of each kind, how many pairs must be kept and how many broken. By the theorems of 004 oriented, monotone and
# antitone ones are all kept.
LEAST_KEPT_AND_BROKEN = {
    "all at or above zero": (3_000, 2_000),
    "all at or below zero": (3_000, 2_000),
    "mixed signs": (800, 2_500),
    "with zeros": (800, 800),
    "oriented": (3_000, 0),
    "monotone": (2_000, 0),
    "antitone": (2_000, 0),
    "non-trivial, one sign": (1_000, 5_000),
    "window of one value": (400, 600),
    "window beyond 10,000": (0, 500),
}


def compare_pairs(checks: Checks) -> None:
    questions = make_questions(checks)
    answers = list(map(second_answer, questions))
    requests = list(map(request, questions, answers))
    output = output_for(requests)
    checks.report(differences(requests, output))
    for question, answer in zip(questions, answers):
        checks.report(second_faults(question, answer))
    decided = [answer for answer in answers if not isinstance(answer.asked, Refusal)]
    names = Counter(map(answer_name, answers))
    kinds = Counter((kind, words(answer)) for answer in decided for kind in kinds_of(answer.asked))
    print_counts(names, kinds, Counter(map(has_least_total, answers, dotted_answers(output, len(requests)))))
    check_coverage(checks, names, kinds)


def answer_name(answer: Answer) -> str:
    """The words without the detail."""
    return words(answer).split(" at ")[0]


def has_least_total(answer: Answer, printed: str) -> bool | None:
    """None where there is nothing to compare. Printed and no more, because 01 asks for any bad marking."""
    shown = shown_marking(printed)
    if not answer.small or not shown:
        return None
    return sum(shown) <= min(map(sum, answer.small))


def print_counts(answers: Counter[str], kinds: Counter[tuple[str, str]], totals: Counter[bool | None]) -> None:
    print(f"asked about {answers.total():,} pairs: {counted(answers)}")
    for kind in LEAST_KEPT_AND_BROKEN:
        kept, broken = kinds[kind, "kept"], kinds[kind, "broken"]
        print(f"  {kind}: {kept + broken:,}: kept {kept:,}, broken {broken:,}")
    print(f"shown markings with a bad one among those tried: least total {totals[True]:,}, more {totals[False]:,}")


def counted(answers: Counter[str]) -> str:
    return ", ".join(f"{name} {answers[name]:,}" for name in sorted(answers))


def check_coverage(checks: Checks, answers: Counter[str], kinds: Counter[tuple[str, str]]) -> None:
    checks.at_least("questions about pairs", LEAST_QUESTIONS, answers.total())
    for number in [*REFUSALS, 11, 12, 13]:
        checks.at_least(f"pairs refused {number}", LEAST_OF_EACH_REFUSAL, answers[f"refused {number}"])
    for kind, least in LEAST_KEPT_AND_BROKEN.items():
        for word, count in zip(["kept", "broken"], least):
            checks.at_least(f"{kind}, {word}", count, kinds[kind, word])


if __name__ == "__main__":
    sys.exit(run_checks(compare_pairs))
