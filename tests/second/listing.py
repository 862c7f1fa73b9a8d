"""The whole listing of a sheet: one that is right, and whether a printed one is. Quoted sentences are 01's."""

import re
from typing import NamedTuple

from second.counts import counts
from second.pairs import Pair, bad_marking, may_be_shown
from second.sheet import Refusal, Sheet, read
from second.twins import first_twins
from second.verdicts import BY_SUMS, verdict

TOKENS = re.compile(r"(?: (?:0|[1-9][0-9]{0,4}))+")


class Line(NamedTuple):
    """A line but for its newline, and but for the tokens of a bad marking, which stand between its two parts."""

    opening: str
    broken: Pair | None = None  # what the marking must be bad for
    closing: str = ""

    def with_tokens(self, tokens: tuple[int, ...]) -> str:
        return self.opening + "".join(f" {number}" for number in tokens) + self.closing

    def fits(self, printed: str) -> bool:
        """Byte for byte, with any bad marking that may be shown; which one is never foretold."""
        if not self.broken:
            return printed == self.with_tokens(())
        if not (printed.startswith(self.opening) and printed.endswith(self.closing)):
            return False
        tokens = printed[len(self.opening) : len(printed) - len(self.closing)]
        return bool(TOKENS.fullmatch(tokens)) and may_be_shown(self.broken, tuple(map(int, tokens.split())))

    def __str__(self) -> str:
        return f"{self.opening} (a bad marking){self.closing}" if self.broken else self.opening + self.closing


def lines(answer: Sheet | Refusal) -> list[Line]:
    """The lines of a sheet or of its refusal."""
    if isinstance(answer, Refusal):
        return [Line(answer.words())]
    twins = first_twins(answer.claims)
    return [Line(counts(answer)), *(claim_line(answer, index, twin) for index, twin in enumerate(twins))]


def claim_line(sheet: Sheet, index: int, twin: int | None) -> Line:
    """ "The word `claim`, its number, the verdict, for broken the transition and the n tokens", then any twin."""
    claim = sheet.claims[index]
    word, transition = verdict(sheet, claim, BY_SUMS)
    opening = f"claim {index + 1} {word}"
    closing = f" twin {twin}" if twin else ""
    if transition is None:
        return Line(opening, closing=closing)
    return Line(f"{opening} {transition}", Pair(claim, sheet.transitions[transition - 1]), closing)


def listing(data: bytes) -> str:
    """One right listing."""
    return right_text(lines(read(data)))


def right_text(expected: list[Line]) -> str:
    """A text with these lines: any bad marking will do, so another may be right too."""
    return "".join(line.with_tokens(bad_marking(line.broken) if line.broken else ()) + "\n" for line in expected)


def check_listing(data: bytes, text: str) -> str | None:
    """None if judge may print this text for these bytes, or else what is wrong with it."""
    return check_lines(lines(read(data)), text)


def check_lines(expected: list[Line], text: str) -> str | None:
    """ "Each line ends with one newline byte", so a right text has nothing after the last."""
    *printed, rest = text.split("\n")
    for number, (line, actual) in enumerate(zip(expected, printed), start=1):
        if not line.fits(actual):
            return f"line {number}: {line}"
    if len(printed) != len(expected):
        return f"{len(expected)} lines, not {len(printed)}"
    return "nothing after the last newline" if rest else None
