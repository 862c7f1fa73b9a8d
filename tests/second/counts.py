"""The first line that judge prints for a sheet; for a refused one it is all that judge prints."""

from second.sheet import Refusal, Sheet


def first_line(answer: Sheet | Refusal) -> str:
    """ "Each line ends with one newline byte"."""
    return (answer.words() if isinstance(answer, Refusal) else counts(answer)) + "\n"


def counts(sheet: Sheet) -> str:
    return f"places {sheet.n} transitions {sheet.T} claims {len(sheet.claims)}"
