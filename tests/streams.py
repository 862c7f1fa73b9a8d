"""Other ways to give judge its input and to take its output."""

import os
import socket
from itertools import chain, repeat
from signal import SIGPIPE

from checks import Checks
from named_cases import FIRST, HEAD, HS, LARGEST, LARGEST_HS
from programs import command, finished, run, run_in_pieces, with_end
from second.counts import first_line
from second.listing import check_listing
from second.sheet import read


def check_streams(checks: Checks) -> None:
    check_files(checks)
    check_pieces(checks)
    check_endless(checks)
    check_failed_reading(checks)
    check_no_output(checks)


def check_files(checks: Checks) -> None:
    with open("/dev/null", "rb") as nothing:
        checks.equal("/dev/null", b"", "refused 1 at 0\n", run("judge", stdin=nothing))
    for data in [FIRST, LARGEST, LARGEST + bytes(1), FIRST + bytes(65_536)]:
        descriptor = os.memfd_create("sheet")
        os.write(descriptor, data)
        os.lseek(descriptor, 0, os.SEEK_SET)
        checks.equal("sheet in a file", data, None, check_listing(data, run("judge", stdin=descriptor)))
        os.close(descriptor)


def check_pieces(checks: Checks) -> None:
    """A read that gives fewer bytes than asked for isn't the end of the sheet."""
    for pieces, line in [
        (each(FIRST, 1), "places 2 transitions 1 claims 5"),
        (each(FIRST, 7), "places 2 transitions 1 claims 5"),
        (each(LARGEST, 100), "places 16 transitions 64 claims 32"),
        ([b"", b"", FIRST], "places 2 transitions 1 claims 5"),
        ([HEAD, HS], "places 2 transitions 1 claims 1"),
        ([HEAD, b"", b""], "refused 9 at 23"),
        ([FIRST, b"H", b"S"], "refused 1 at 53"),
        ([LARGEST, b"H"], "refused 1 at 2889"),
        ([LARGEST, b"H", b"T"], "refused 2 at 2889"),
        ([LARGEST, b"H", LARGEST_HS[1:]], "refused 8 at 2889"),
    ]:
        data = b"".join(pieces)
        expected = first_line(read(data))
        checks.equal("sheet in pieces, second program against 01", data, line + "\n", expected)
        actual = run_in_pieces("judge", pieces, pause=0.01)
        checks.equal("sheet in pieces", data, None, check_listing(data, actual))


def each(data: bytes, size: int) -> list[bytes]:
    return [data[at : at + size] for at in range(0, len(data), size)]


def check_endless(checks: Checks) -> None:
    """The answer is settled by a sheet's first bytes, so it must come though the input never ends."""
    with open("/dev/zero", "rb") as zeros:
        checks.equal("/dev/zero", b"", "refused 2 at 0\n", run("judge", stdin=zeros))
    for start, more, line in [
        (FIRST, bytes(4_096), "refused 2 at 53"),
        (LARGEST, bytes(4_096), "refused 2 at 2889"),
        (LARGEST, LARGEST_HS, "refused 8 at 2889"),
    ]:
        actual = run_in_pieces("judge", chain([start], repeat(more)), pause=0)
        checks.equal("sheet without an end", start + more, line + "\n", actual)


def check_failed_reading(checks: Checks) -> None:
    """What was not read can't be judged: nothing on standard output, and words on standard error."""
    directory = os.open("/", os.O_RDONLY)
    only_written = os.open("/dev/null", os.O_WRONLY)
    for name, data, descriptor in [
        ("a directory", b"", directory),
        ("input that can't be read", b"", only_written),
        ("input that fails at once", b"", failing_after(b"")),
        ("input that fails after a sound sheet", FIRST, failing_after(FIRST)),
        ("input that fails after the longest sheet", LARGEST, failing_after(LARGEST)),
    ]:
        ended = finished(command("judge"), stdin=descriptor, capture_output=True)
        checks.equal(name, data, "", with_end(ended.stdout, ended.returncode))
        checks.equal(f"{name}, words on standard error", data, True, ended.stderr != b"")
        os.close(descriptor)


def failing_after(data: bytes) -> int:
    """A socket that gives the data, and then an error instead of an end."""
    ours, theirs = socket.socketpair()
    theirs.send(b"unread")  # closed with this unread, our end resets the connection
    ours.send(data)
    ours.close()
    return theirs.detach()


def check_no_output(checks: Checks) -> None:
    """Where nobody takes the listing, judge still ends by itself and in time."""
    for data in [b"", FIRST, LARGEST]:
        checks.equal("closed output", data, 0, status_through_shell('exec "$@" >&-', data))
        checks.equal("full output", data, 0, status_through_shell('exec "$@" >/dev/full', data))
        checks.equal("reader gone", data, 0, status_without_reader(data))


def status_without_reader(data: bytes) -> int:
    reader, writer = os.pipe()
    os.close(reader)
    status = finished(command("judge"), input=data, stdout=writer).returncode
    os.close(writer)
    # The lost pipe may well end judge, as it ends most programs.
    return 0 if status == -SIGPIPE else status


def status_through_shell(script: str, data: bytes) -> int:
    return finished(["sh", "-c", script, "sh", *command("judge")], input=data).returncode
