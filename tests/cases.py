"""Every sheet that is compared, and which of them judge itself is given."""

from collections.abc import Iterable
from itertools import chain
from random import Random
from typing import NamedTuple

from checks import Checks
from make_sheets import damaged_sheets, random_bytes, sheets_of_every_size, sound_sheets
from named_cases import named_cases
from second.counts import first_line
from second.sheet import Refusal, Sheet, read, write

# Showing all that a sheet holds takes some hundred times as long as its answer alone, so most are not shown.
MOST_BYTES_SHOWN = 250  # of a named sheet
SWEEPS = ["mark", "bytes after the last claim", "under two bytes"]  # named groups with every value of a byte
SWEEP_STEP = 11  # of a sweep, one sheet in so many is shown
SOUND_SHOWN = 300
DAMAGED_SHOWN = 400
RANDOM_SHOWN = 100

SPECIAL_SHEETS = [b"", b"\x00", b"N", b"\xff"]  # always shown, and always given to judge itself

MOST_SENT = 65_535  # bytes of a sheet that tests/c/requests.c can be given

# Each start of judge takes as long as some hundred sheets that the library reads.
JUDGED_GROUPS = ["sound", "kind", "count of claims", "longer than any sheet", "order of records", "order of checks"]
JUDGED_OF_EACH_ANSWER = 16


class Case(NamedTuple):
    name: str
    kind: str  # how it was made: damage may by chance leave a sheet sound
    data: bytes
    answer: Sheet | Refusal  # of the second program
    shown: bool  # whether all that the sheet holds is compared, and not its counts alone


def make_cases(checks: Checks) -> list[Case]:
    """None twice; of two alike the first stays."""
    of_every_size = sheets_of_every_size()
    cases: dict[bytes, Case] = {}
    for case in chain(
        named(checks),
        sound(checks, "sheet of every size", of_every_size, len(of_every_size)),
        sound(checks, "sound sheet", sound_sheets(9_000), SOUND_SHOWN),
        made("damaged", damaged_sheets(9_000), DAMAGED_SHOWN),
        made("random", random_bytes(4_000), RANDOM_SHOWN),
    ):
        cases.setdefault(case.data, case)
    return list(cases.values())


def named(checks: Checks) -> Iterable[Case]:
    for index, (name, data, line) in enumerate(named_cases()):
        answer = read(data)
        checks.equal(f"{name}, second program against 01", data, line + "\n", first_line(answer))
        kind = "damaged" if line.startswith("refused") else "sound"
        yield Case(name, kind, data, answer, is_shown(index, name, data))


def is_shown(index: int, name: str, data: bytes) -> bool:
    if name == "sound" or data in SPECIAL_SHEETS:
        return True
    return len(data) <= MOST_BYTES_SHOWN and (name not in SWEEPS or index % SWEEP_STEP == 0)


def sound(checks: Checks, name: str, sheets: list[Sheet], shown: int) -> Iterable[Case]:
    for index, sheet in enumerate(sheets):
        data = write(sheet)
        answer = read(data)
        checks.equal(f"{name}, second program reads what it wrote", data, sheet, answer)
        yield Case(name, "sound", data, answer, shown=index < shown)


def made(kind: str, sheets: list[bytes], shown: int) -> Iterable[Case]:
    for index, data in enumerate(sheets):
        yield Case(f"{kind} sheet", kind, data, read(data), shown=index < shown)


def for_library(cases: list[Case]) -> list[Case]:
    return [case for case in cases if len(case.data) <= MOST_SENT]


def for_judge(cases: list[Case]) -> list[Case]:
    """The sheets where input and output matter, those too long for tests/c/requests.c, and some of each answer."""
    special = [
        case
        for case in cases
        if case.name in JUDGED_GROUPS or case.data in SPECIAL_SHEETS or len(case.data) > MOST_SENT
    ]
    by_answer: dict[str, list[Case]] = {}
    for case in cases:
        by_answer.setdefault(answer_name(case), []).append(case)
    chance = Random("judge")
    samples = [chance.sample(alike, JUDGED_OF_EACH_ANSWER) for alike in by_answer.values()]
    return list(dict.fromkeys(chain(special, *samples)))


def answer_name(case: Case) -> str:
    return f"refusal {case.answer.number}" if isinstance(case.answer, Refusal) else "not refused"
