"""What each call of the library must answer on a sheet, in the lines and the order of tests/c/requests.c.

Rules and quoted sentences are 01's; the numbers of the answers are those of include/krunvedo.h.
"""

from collections.abc import Iterable, Iterator, Sequence
from dataclasses import dataclass
from itertools import accumulate, product

from second.limits import AREA_SIZE, MOST_CLAIMS, MOST_PLACES, MOST_TOKENS, MOST_TRANSITIONS
from second.listing import Line, lines
from second.pairs import Pair, Vector
from second.sheet import Claim, Refusal, Sheet, Transition, outside, read, records
from second.sums import breaks
from second.twins import first_twins, reduced
from second.verdicts import BY_SUMS, verdict
from second.walk import Fired, begun, fired, stepped

# What a refused call holds: zeros alone, and the first kind.
NO_SHEET = Sheet(n=0, T=0, transitions=(), start=(), kind=0, target=(), claims=())
NO_TRANSITION = Transition(taken=(), put=())
NO_CLAIM = Claim(coefficients=(), constant=0)

FINE = Refusal(0, 0)
VERDICTS = ["refused", "start-outside", "target-inside", "broken", "proof"]
TEXT_SIZE = 4_096
FAR = 2**32 + 1  # asked for too: in 32 bits it is 1
PAIRS = 24  # asked about on a sheet, or a few more

ENOUGH = [(AREA_SIZE, AREA_SIZE), (AREA_SIZE + 8, AREA_SIZE + 1)]
TOO_FEW = [(AREA_SIZE - 1, AREA_SIZE), (AREA_SIZE, AREA_SIZE - 1), (0, 0)]

NEARLY_FULL = tuple(MOST_TOKENS - place for place in range(MOST_PLACES))

Sizes = tuple[int, int]


@dataclass(frozen=True)
class Asked:
    """A sheet that was read; where it is refused, `sheet` is one without anything."""

    answer: Sheet | Refusal

    @property
    def sheet(self) -> Sheet:
        return NO_SHEET if isinstance(self.answer, Refusal) else self.answer

    @property
    def refused(self) -> Refusal | None:
        return self.answer if isinstance(self.answer, Refusal) else None

    def claim_refused(self, i: int) -> Refusal | None:
        return self.refused or outside(i, len(self.sheet.claims), 11)

    def transition_refused(self, t: int) -> Refusal | None:
        return self.refused or outside(t, self.sheet.T, 12)


def counted_lines(answer: Sheet | Refusal) -> list[Line]:
    return [Line(read_line(Asked(answer)))]


def held_lines(answer: Sheet | Refusal) -> list[Line]:
    """Every transition and every claim that a sheet can have, with numbers from 0 to one too many."""
    asked = Asked(answer)
    return [
        *map(Line, sheet_lines(asked)),
        *(Line(weights_line(asked, t)) for t in range(MOST_TRANSITIONS + 2)),
        *map(Line, claim_lines(asked, range(MOST_CLAIMS + 2))),
    ]


def every_line(data: bytes) -> list[Line]:
    """The lines of every call."""
    asked = Asked(read(data))
    transitions, claims = numbers(asked.sheet.T), numbers(len(asked.sheet.claims))
    return [
        *map(Line, sheet_lines(asked)),
        *(Line(weights_line(asked, t)) for t in transitions),
        *map(Line, claim_lines(asked, claims)),
        *(verdict_line(asked, i, ENOUGH[index % 2]) for index, i in enumerate(claims)),
        *pair_lines(asked, claims, transitions),
        *too_few_lines(asked),
        *text_lines(asked),
        *map(Line, walk_lines(asked, transitions)),
        *map(Line, list_lines(asked, transitions[1:])),
    ]


def numbers(count: int) -> list[int]:
    return [*range(count + 2), FAR]


def refusal(refused: Refusal | None) -> str:
    """ "Each refusal gives its number and a detail"."""
    return "refusal {} at {}".format(*(refused or FINE))


def row(values: Sequence[int]) -> str:
    """Held as 16 numbers, "zero beyond place n"."""
    return " ".join(map(str, [*values, *(MOST_PLACES - len(values)) * [0]]))


def read_line(asked: Asked) -> str:
    sheet = asked.sheet
    return f"read 0: {refusal(asked.refused)}, counts {sheet.n} {sheet.T} {len(sheet.claims)}"


def sheet_lines(asked: Asked) -> Iterator[str]:
    sheet, words = asked.sheet, refusal(asked.refused)
    yield read_line(asked)
    yield f"start 0: {words}, tokens {row(sheet.start)}"
    yield f"target 0: {words}, kind {sheet.kind}, tokens {row(sheet.target)}"


def weights_line(asked: Asked, t: int) -> str:
    refused = asked.transition_refused(t)
    taken, put = NO_TRANSITION if refused else asked.sheet.transitions[t - 1]
    return f"weights {t}: {refusal(refused)}, taken {row(taken)}, put {row(put)}"


def claim_lines(asked: Asked, numbers: Iterable[int]) -> Iterator[str]:
    """The claim's own lines: what its record holds, and where that stands."""
    twins, places = first_twins(asked.sheet.claims), record_places(asked.sheet)
    for i in numbers:
        refused = asked.claim_refused(i)
        claim = NO_CLAIM if refused else asked.sheet.claims[i - 1]
        spaces = {"half_space": claim, "reduced": NO_CLAIM if refused else reduced(claim)}
        for call, (coefficients, constant) in spaces.items():
            yield f"{call} {i}: {refusal(refused)}, coefficients {row(coefficients)}, constant {constant}"
        yield f"claim_check {i}: {refusal(refused)}"
        offset, length = (0, 0) if refused else places[i - 1]
        yield f"claim_record {i}: {refusal(refused)}, from {offset}, length {length}"
        yield f"twin {i}: {refusal(refused)}, claim {0 if refused else twins[i - 1] or 0}"


def record_places(sheet: Sheet) -> list[tuple[int, int]]:
    """Where each claim's record stands and how long it is, "mark included": behind those of NP, TR, MK and TG."""
    lengths = list(map(len, records(sheet)))
    starts = accumulate(lengths, initial=0)
    return list(zip(starts, lengths))[len(sheet.transitions) + 3 :]


def small_area(sizes: Sizes) -> Refusal | None:
    """13: "either work area has fewer than 20,000 entries"."""
    return Refusal(13, 0) if min(sizes) < AREA_SIZE else None


def areas(refused: Refusal | None, sizes: Sizes) -> str:
    """After a refusal all is as it was; else "the first 20,000 entries of both are zero and the rest are untouched"."""
    word = "kept" if refused else "zero"
    return ", marks {} {}, queue {} {}".format(sizes[0], word, sizes[1], word)


def marked(opening: str, broken: Pair | None, closing: str) -> Line:
    """A line with a bad marking, or with zeros; it is "held as 16 numbers, zero beyond place n"."""
    n = len(broken.claim.coefficients) if broken else 0
    return Line(f"{opening}, tokens", broken, (MOST_PLACES - n) * " 0" + closing)


def verdict_line(asked: Asked, i: int, sizes: Sizes) -> Line:
    refused = asked.claim_refused(i) or small_area(sizes)
    word, t, broken = "refused", None, None
    if not refused:
        claim = asked.sheet.claims[i - 1]
        word, t = verdict(asked.sheet, claim, BY_SUMS)
        broken = Pair(claim, asked.sheet.transitions[t - 1]) if t else None
    opening = f"verdict {i}: {refusal(refused)}, answer {VERDICTS.index(word)}, transition {t or 0}"
    return marked(opening, broken, areas(refused, sizes))


def pair_line(asked: Asked, i: int, t: int, sizes: Sizes) -> Line:
    refused = asked.claim_refused(i) or asked.transition_refused(t) or small_area(sizes)
    pair = None if refused else Pair(asked.sheet.claims[i - 1], asked.sheet.transitions[t - 1])
    return pair_answer(refused, pair if pair and breaks(pair) else None, i, t, sizes)


def pair_answer(refused: Refusal | None, broken: Pair | None, i: int, t: int, sizes: Sizes) -> Line:
    answer = 0 if refused else 2 if broken else 1
    closing = f", by transition {t}{areas(refused, sizes)}"
    return marked(f"pair {i}: {refusal(refused)}, answer {answer}", broken, closing)


def pair_lines(asked: Asked, claims: list[int], transitions: list[int]) -> Iterator[Line]:
    step = 1 + len(claims) * len(transitions) // PAIRS
    for (index, i), (other, t) in product(enumerate(claims), enumerate(transitions)):
        if other % step == index % step:
            yield pair_line(asked, i, t, ENOUGH[(index + other) % 2])


def too_few_lines(asked: Asked) -> Iterator[Line]:
    for i, sizes in enumerate(TOO_FEW):
        yield verdict_line(asked, i, sizes)
        yield pair_line(asked, i, 1, sizes)
    yield pair_line(asked, 1, 0, TOO_FEW[0])


def text_lines(asked: Asked) -> Iterator[Line]:
    yield from listing_lines(asked, ENOUGH[0], TEXT_SIZE)
    yield from listing_lines(asked, ENOUGH[1], TEXT_SIZE + 1)
    yield from listing_lines(asked, ENOUGH[0], TEXT_SIZE - 1)
    yield from listing_lines(asked, TOO_FEW[0], TEXT_SIZE - 1)
    yield from listing_lines(asked, TOO_FEW[1], TEXT_SIZE)
    yield from refusal_text_lines(asked.refused or FINE)
    yield Line(f"refusal_text: {written(small_text(TEXT_SIZE - 1), TEXT_SIZE - 1)}")


def listing_lines(asked: Asked, sizes: Sizes, room: int) -> Iterator[Line]:
    refused = asked.refused or small_area(sizes) or small_text(room)
    yield Line(f"listing: {written(refused, room)}{areas(refused, sizes)}")
    yield from [] if refused else lines(asked.answer)


def refusal_text_lines(refused: Refusal) -> Iterator[Line]:
    yield Line(f"refusal_text: {written(None, TEXT_SIZE)}")
    yield Line(refused.words())


def page_lines(answer: Sheet | Refusal) -> list[Line]:
    """The listing, or the line of its refusal."""
    asked = Asked(answer)
    refusal_text = refusal_text_lines(asked.refused) if asked.refused else []
    return [*listing_lines(asked, ENOUGH[0], TEXT_SIZE), *refusal_text]


def small_text(room: int) -> Refusal | None:
    """The library's own refusal 19: the text's area is too short, and the detail is what it must have."""
    return Refusal(19, TEXT_SIZE) if room < TEXT_SIZE else None


def written(refused: Refusal | None, room: int) -> str:
    number, detail = refused or FINE
    return f"number {number} at {detail}, text {room} {'kept' if refused else 'written'}"


def walk_lines(asked: Asked, transitions: list[int]) -> Iterator[str]:
    """From the start with other numbers beyond n, and from nearly full places."""
    yield begin_line(asked)
    n = asked.sheet.n
    beyond = tuple(7 + place for place in range(n, MOST_PLACES))
    for marking in [asked.sheet.start + beyond, NEARLY_FULL]:
        yield from step_lines(asked, marking, transitions)


def begin_line(asked: Asked) -> str:
    return f"begin 0: {refusal(asked.refused)}, tokens {row(begun(asked.sheet))}"


def step_lines(asked: Asked, marking: Vector, transitions: Iterable[int]) -> Iterator[str]:
    """A refused step moves nothing, and the walk goes on."""
    for t in transitions:
        after = stepped(asked.answer, marking, t)
        refused = after if isinstance(after, Refusal) else None
        marking = marking if refused else after
        yield f"step {t}: {refusal(refused)}, tokens {row(marking)}"


def list_lines(asked: Asked, transitions: list[int]) -> Iterator[str]:
    """In one list the transitions but 0, then those that there are, then none; from the start and from nearly full places."""
    for marking in [begun(asked.sheet), NEARLY_FULL]:
        for length in [len(transitions), asked.sheet.T, 0]:
            answer = fired(asked.answer, marking, transitions[:length])
            marking = answer.marking
            yield list_line(answer, length)


def list_line(answer: Fired, length: int) -> str:
    refused, position, marking = answer
    return f"fire_list {length}: {refusal(refused)}, position {position}, tokens {row(marking)}"
