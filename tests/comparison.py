"""Gives tests/c/requests.c many requests in one run, and holds its answers to the lines of the second program.

A start of the program takes longer than a request.
"""

import re
import struct
from collections.abc import Sequence
from typing import NamedTuple

from checks import Checks, Failure
from programs import c_program, output_of
from second.listing import Line, check_lines

TIME_LIMIT = 120  # seconds for all requests of a comparison, which need ten or so

END = re.compile(r"(?<=^\.\n)", re.MULTILINE)  # right after a line that is a dot


class Request(NamedTuple):
    name: str
    data: bytes  # the sheet
    letter: str  # what is asked for; tests/c/requests.c has them all
    lines: list[Line]  # the right answer, but for its dot
    numbers: Sequence[int] = ()  # what the letter needs besides

    def sent(self) -> bytes:
        return self.letter.encode() + in_two_bytes(len(self.data)) + self.data + in_two_bytes(*self.numbers)


def in_two_bytes(*numbers: int) -> bytes:
    return struct.pack(f"<{len(numbers)}H", *numbers)


def compare(checks: Checks, requests: list[Request]) -> None:
    checks.report(differences(requests, output_for(requests)))


def output_for(requests: list[Request]) -> str:
    return output_of(c_program("requests"), TIME_LIMIT, input=b"".join(request.sent() for request in requests))


def differences(requests: list[Request], output: str) -> list[Failure]:
    """One failure for each request that isn't answered as it must be, with the first line that is wrong."""
    failures = []
    for request, answer in zip(requests, dotted_answers(output, len(requests))):
        lines = [*request.lines, Line(".")]
        reason = check_lines(lines, answer)
        if reason:
            failures.append(Failure(request.name, request.data, reason, first_wrong(lines, answer)))
    return failures


def dotted_answers(output: str, count: int) -> list[str]:
    """So many answers, dots included; missing ones are empty, and what follows the last answer is part of it."""
    answers = END.split(output, maxsplit=count - 1)
    return answers + (count - len(answers)) * [""]


def first_wrong(lines: list[Line], answer: str) -> str:
    """The first line that is wrong, or where all that are there are right the last few bytes."""
    wrong = (actual for line, actual in zip(lines, answer.split("\n")) if not line.fits(actual))
    return next(wrong, answer[-60:])
