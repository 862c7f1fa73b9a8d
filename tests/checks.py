"""Counts the checks that failed, and shows each."""

from collections.abc import Callable
from concurrent.futures import ProcessPoolExecutor
from contextlib import redirect_stdout
from io import StringIO
from typing import NamedTuple

MOST_FAILURES = 25  # a part that fails this often is not worth more output
WORKERS = 2  # parts that run at a time


class Failure(NamedTuple):
    name: str
    data: bytes
    expected: object
    actual: object


class TooManyFailures(Exception):
    pass


class Checks:
    failed = 0

    def report(self, failures: list[Failure]) -> None:
        for failure in failures:
            self._fail(
                f"{failure.name}\n"
                f"sheet:    {failure.data.hex()}\n"
                f"expected: {failure.expected!r}\n"
                f"actual:   {failure.actual!r}"
            )

    def equal(self, name: str, data: bytes, expected: object, actual: object) -> None:
        if expected != actual:
            self.report([Failure(name, data, expected, actual)])

    def at_least(self, name: str, least: int, actual: int) -> None:
        if actual < least:
            self._fail(f"{name}: {actual:,}, which is under {least:,}")

    def _fail(self, words: str) -> None:
        self.failed += 1
        print(f"FAILED: {words}")
        if self.failed >= MOST_FAILURES:
            raise TooManyFailures


Part = Callable[[Checks], None]


def run_checks(*parts: Part) -> int:
    """The exit status of a program that makes these checks. Parts begin in this order: the longest come first."""
    failed = 0
    with ProcessPoolExecutor(WORKERS) as pool:
        for printed, failed_here in pool.map(run_part, parts):
            print(printed, end="", flush=True)
            failed += failed_here
    print(f"{failed} checks failed" if failed else "all checks passed")
    return 1 if failed else 0


def run_part(part: Part) -> tuple[str, int]:
    """What the part printed, and how many of its checks failed."""
    checks = Checks()
    with redirect_stdout(StringIO()) as printed:
        try:
            part(checks)
        except TooManyFailures:
            print(f"stopped after {checks.failed} failures")
    return printed.getvalue(), checks.failed
