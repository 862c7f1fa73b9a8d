"""Links the library into a C program and a Rust program, and holds both to document 01.

    python3 tests/library_checks.py

The archive must be built (`scripts/library`).
"""

import sys

sys.dont_write_bytecode = True  # before the imports of our own modules, which would leave __pycache__ behind

from collections.abc import Iterator

from checks import Checks, run_checks
from named_cases import FIRST
from programs import ARCHIVES, BUILT, COMPILER, ROOT, TIME_LIMIT, build, c_program, output_of
from verdicts_by_hand import LISTING_OF_01

STRICT_RUST = ["--edition", "2021", "--test", "-D", "warnings"]


def check_library(checks: Checks) -> None:
    expected = "".join(line + "\n" for line in expected_lines())
    checks.equal("the library from C", FIRST, expected, output_of(c_program("example"), TIME_LIMIT, input=FIRST))
    print(f"library: linked by {COMPILER}")
    checks.equal("what the library needs from outside (krunvedo.h)", b"", ["memcpy", "memset"], needed_names())
    check_rust(checks)


def needed_names() -> list[str]:
    listed = output_of(["nm", "-u", str(ARCHIVES / "libkrunvedo.a")], TIME_LIMIT)
    return sorted({words[1] for words in map(str.split, listed.splitlines()) if words[:1] == ["U"]})


def check_rust(checks: Checks) -> None:
    program = BUILT / "library"
    build(["rustc", *STRICT_RUST, "-L", ARCHIVES, ROOT / "tests" / "rust" / "library.rs", "-o", program])
    checks.equal("the library from Rust", b"", "", failed_tests(output_of([str(program)], TIME_LIMIT)))
    print("library: linked by rustc")


def failed_tests(output: str) -> str:
    """Nothing where Rust's own harness says that all tests passed, else all that it printed."""
    return "" if "test result: ok. 8 passed; 0 failed" in output else output


def expected_lines() -> Iterator[str]:
    """What 01 says of its own sheet, written by hand."""
    yield "read 0: refusal 0 at 0, counts 2 1 5"
    yield f"start 0: refusal 0 at 0, tokens {row(2)}"
    yield f"target 0: refusal 0 at 0, kind 0, tokens {row(0, 1)}"
    yield f"weights 0: refusal 12 at 0, taken {row()}, put {row()}"
    yield f"weights 1: refusal 0 at 0, taken {row(1)}, put {row(0, 1)}"
    yield f"weights 2: refusal 12 at 2, taken {row()}, put {row()}"
    yield from claim_lines()
    yield from judged_lines()
    yield from text_lines()
    yield f"begin 0: refusal 0 at 0, tokens {row(2)}"
    yield f"step 1: refusal 0 at 0, tokens {row(1, 1, last=7)}"
    yield f"step 1: refusal 0 at 0, tokens {row(0, 2, last=7)}"
    yield f"step 1: refusal 15 at 1, tokens {row(0, 2, last=7)}"
    yield f"step 2: refusal 12 at 2, tokens {row(0, 2, last=7)}"
    yield f"fire_list 0: refusal 0 at 0, position 0, tokens {row(2)}"
    yield f"fire_list 3: refusal 15 at 1, position 3, tokens {row(2)}"
    yield f"fire_list 2: refusal 0 at 0, position 0, tokens {row(0, 2)}"
    yield f"fire_list 65: refusal 17 at 65, position 0, tokens {row(0, 2)}"


def claim_lines() -> Iterator[str]:
    none = ([], 0)
    spaces = [none, ([1, 1], 2), ([-1], 0), ([0, 1], 0), ([2, 1], 2), ([2, 2], 4), none]
    reduced = [*spaces[:5], ([1, 1], 2), none]
    starts, twins = [0, 23, 29, 35, 41, 47, 0], [0, 0, 0, 0, 0, 1, 0]
    for i in range(7):
        refusal = refused_claim(i)
        for call, (coefficients, constant) in [("half_space", spaces[i]), ("reduced", reduced[i])]:
            yield f"{call} {i}: {refusal}, coefficients {row(*coefficients)}, constant {constant}"
        yield f"claim_check {i}: {refusal}"
        yield f"claim_record {i}: {refusal}, from {starts[i]}, length {6 if 1 <= i <= 5 else 0}"
        yield f"twin {i}: {refusal}, claim {twins[i]}"


def judged_lines() -> Iterator[str]:
    pairs, verdicts = [0, 1, 1, 1, 2, 1, 0], [0, 4, 1, 2, 3, 4, 0]
    for i in range(7):
        bad = row(1) if i == 4 else row()
        yield f"pair {i}: {refused_claim(i)}, answer {pairs[i]}, tokens {bad}"
        yield f"verdict {i}: {refused_claim(i)}, answer {verdicts[i]}, transition {int(i == 4)}, tokens {bad}"
    yield f"pair 4: refusal 13 at 0, answer 0, tokens {row()}"
    yield f"verdict 4: refusal 13 at 0, answer 0, transition 0, tokens {row()}"


def text_lines() -> Iterator[str]:
    """Behind each text stands the sharp that the area was filled with."""
    yield f"listing: number 0, value {len(LISTING_OF_01)}\n{LISTING_OF_01}#"
    yield "listing: number 19, value 4096\n#"
    yield "listing: number 13, value 0\n#"
    yield "listing: number 1, value 47\n#"
    for number, detail in [(1, 47), (2**8 - 1, 2**64 - 1)]:
        line = f"refused {number} at {detail}\n"
        yield f"refusal_text: number 0, value {len(line)}\n{line}#"
    yield "refusal_text: number 19, value 4096\n#"


def refused_claim(i: int) -> str:
    return "refusal 0 at 0" if 1 <= i <= 5 else f"refusal 11 at {i}"


def row(*first: int, last: int = 0) -> str:
    return " ".join(map(str, [*first, *(15 - len(first)) * [0], last]))


if __name__ == "__main__":
    sys.exit(run_checks(check_library))
