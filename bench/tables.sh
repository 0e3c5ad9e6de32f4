#!/bin/sh
# Tries `subunit2csv` and `subunit-output` over real streams. Python's `csv` reads the records of 10,000 drawn tests and more,
# whose rows are told from the drawn events without the program. Files of several pieces are attached, from standard input and
# by their names, and what is left of standard input is looked at where it is not attached. Where `python3-subunit` and
# `python3-testtools` of Debian are installed, they read the events, too.
# usage: bench/tables.sh [CASE..]: by default all cases. The variable SEED has the seed of what is drawn, 1 unless said
# otherwise.
set -eu

root=$(CDPATH='' cd -- "$(dirname -- "$0")/.." && pwd -P)
. "$root/bench/prepare.sh"

SEED=${SEED:-1} PYTHONDONTWRITEBYTECODE=1 PYTHONPATH=$root/bench python3 - "$program" "$work" "$@" <<'PYTHON'
import csv
import datetime
import io
import os
import random
import struct
import subprocess
import sys
import zlib

import streams
from cases import LIMIT, PROGRAM, case, check, main, need, new_folder, run, write
from streams import FAIL, FILE, ID, IN_PROGRESS, LAST, RUNNABLE, SKIP, SUCCESS, TAGS, TIME, TYPE, number, text

SEED = int(os.environ["SEED"])
UNSET, EXISTS, UXSUCCESS, XFAIL = 0, 1, 4, 7
WORDS = {SUCCESS: "success", UXSUCCESS: "uxsuccess", SKIP: "skip", FAIL: "fail", XFAIL: "xfail"}
STATUSES = (UNSET, EXISTS, IN_PROGRESS, IN_PROGRESS, SUCCESS, SUCCESS, UXSUCCESS, SKIP, FAIL, XFAIL)
HEAD = ["test", "status", "start_time", "stop_time"]
# What ids are drawn of: all that a record treats otherwise stands here.
SIGNS = ("a", "b", "Z", "0", ".", " ", "\t", ",", '"', '""', "'", ";", "\n", "\r", "\r\n", "#", "=", "ä", "\u2028", "\U0001f40d")
EPOCH = datetime.datetime(1970, 1, 1)
PYTHON = "/usr/bin/python3"
MOMENTS = ((0, 0), (0, 999), (0, 1000), (0, 999_999_999), (951_782_399, 999_999_999), (951_782_400, 0), (2 ** 32 - 1, 0),
           (2 ** 32 - 1, 999_999_999), (2 ** 32 - 1, 2 ** 30 - 1))


def filtered(name, *words, given=b""):
    """The output of the filter, which does not fail."""
    status, out, err = run(os.curdir, *words, given=given, program=[PROGRAM, name])
    check((status, err) == (0, b""), f"{name} {words}: status {status}, errors {err!r}")
    return out


def instant(moment):
    """A moment as a record has it, its microseconds rounded down."""
    if moment is None:
        return ""
    seconds, nanos = moment
    at = EPOCH + datetime.timedelta(seconds=seconds, microseconds=nanos // 1000)
    return at.strftime("%Y-%m-%d %H:%M:%S.") + f"{at.microsecond:06}+00:00"


def packet_of(route, name, status, moment):
    body = (struct.pack(">I", moment[0]) + number(moment[1]) if moment else b"") + text(name)
    return streams.event((TIME if moment else 0) | ID | RUNNABLE | status, body, route)


def drawn(draw, count):
    """A stream and the events in it: route, id, status and moment."""
    names = ["".join(draw.choices(SIGNS, k=draw.randrange(9))).encode() for _ in range(count // 8)]
    stream, events = bytearray(), []
    for _ in range(count):
        if draw.random() < 0.1:
            stream += draw.choice((b"a line of a log\n", b"\n", b"\xb3", b"test,status\n"))
        moment = draw.choice((None, draw.choice(MOMENTS), (draw.randrange(2 ** 32), draw.randrange(10 ** 9))))
        event = (draw.choice((b"", b"0", b"1", b"0/2")), draw.choice(names), draw.choice(STATUSES), moment)
        stream += packet_of(*event)
        events.append(event)
    return bytes(stream), events


def records_of(events):
    """The records below the head: a list for each part that is complete, and then those of the open ones."""
    begun, records = {}, []
    for route, name, status, moment in events:
        first = begun.setdefault((route, name), moment)
        if status in (UNSET, IN_PROGRESS):
            continue
        del begun[route, name]
        if status != EXISTS:
            records.append([name.decode(), WORDS[status], instant(first), instant(moment)])
    return records + [[name.decode(), "inprogress", instant(first), ""] for (_, name), first in sorted(begun.items())]


def read(out):
    return list(csv.reader(io.StringIO(out.decode(), newline=""), strict=True))


@case
def python_reads_the_records_of_drawn_tests():
    stream, events = drawn(random.Random(SEED), 40_000)
    wanted = records_of(events)
    check(len(wanted) > 10_000, f"only {len(wanted)} tests were drawn")
    found = read(filtered("subunit2csv", given=stream))
    check(found[0] == HEAD, f"the names of the fields are {found[0]}")
    for place, (one, other) in enumerate(zip(found[1:], wanted)):
        check(one == other, f"record {place} is {one}, and not {other}")
    check(len(found) == len(wanted) + 1, f"{len(found) - 1} records, and not {len(wanted)}")


@case
def a_selection_of_them():
    stream, events = drawn(random.Random(SEED + 1), 2_000)
    wanted = [record for record in records_of(events) if record[1] in ("skip", "xfail")]
    check(read(filtered("subunit2csv", "--no-success", "--no-failure", given=stream)) == [HEAD] + wanted, "the records differ")


def file_of(piece, name=b"stdin", mime=b"", front=b"", flags=0):
    """A packet with this piece of a file. The front is the time and the id, as far as they are told."""
    return streams.event(flags | RUNNABLE | FILE | (TYPE if mime else 0), front + (text(mime) if mime else b"") + text(name) + text(piece))


def packets_of(given, name):
    """The packets of a file of these bytes under this name."""
    pieces = [file_of(given[start:start + 65_536], name) for start in range(0, len(given), 65_536)]
    return b"".join(pieces) + streams.event(RUNNABLE | LAST, b"")


SIZES = (0, 1, 10, 65_535, 65_536, 65_537, 131_072, 200_000)


@case
def a_file_is_cut_into_pieces():
    for size in SIZES:
        given = random.Random(size).randbytes(size)
        check(filtered("subunit-output", "--attach-file=-", given=given) == packets_of(given, b"stdin"), f"a file of {size} bytes")


@case
def a_file_is_attached_by_its_name():
    folder = new_folder()
    for size in SIZES:
        given = random.Random(size).randbytes(size)
        write(folder, "log", given)
        # What stands in the input is left to the next program.
        left = run(folder, given=b"input", program=["sh", "-c", '"$0" subunit-output --attach-file=log && cat', PROGRAM])
        check(left == (0, packets_of(given, b"log") + b"input", b""), f"a file of {size} bytes: {left[0]}, {left[2]!r}")
        named = filtered("subunit-output", f"--attach-file={folder}/log", "--file-name=told")
        check(named == packets_of(given, b"told"), f"a file of {size} bytes with a name")


@case
def what_is_no_file_is_refused():
    folder = new_folder()
    os.mkdir(os.path.join(folder, "folder"))
    os.symlink("nowhere", os.path.join(folder, "lost"))
    for name, status, line in (("gone", 3, b"no file gone"), ("", 3, b"no file "), ("folder", 4, b"fault reading a file"),
                               ("lost", 4, b"fault reading a file")):
        told = run(folder, f"--attach-file={name}", given=b"input", program=[PROGRAM, "subunit-output"])
        check(told[:2] == (status, b"") and told[2].startswith(b"subunit-output: " + line + b"\n"), f"{name!r}: {told}")


@case
def all_that_words_tell_stands_in_the_events():
    given = bytes(70_000)
    front = struct.pack(">I", 951_782_400) + number(500_000_000) + text(b"a b")
    told = [file_of(given[start:start + 65_536], b"log", b"text/plain", front, TIME | ID) for start in (0, 65_536)]
    told.append(streams.event(TIME | ID | TAGS | RUNNABLE | LAST | FAIL, front + number(2) + text(b"y") + text(b"x")))
    words = ("--fail", "a b", "--tag=y", "--tag=x", "--attach-file=-", "--file-name=log", "--mimetype=text/plain",
             "--timestamp=2000-02-29 00:00:00.5Z")
    check(filtered("subunit-output", *words, given=given) == b"".join(told), "the events differ")


@case
def an_event_alone_leaves_the_input():
    given = os.path.join(sys.argv[2], "given")
    with open(given, "wb") as file:
        file.write(bytes(100_000))
    with open(given, "rb") as file:
        left = subprocess.run(["sh", "-c", '"$0" subunit-output --success=foo && cat', PROGRAM], stdin=file, capture_output=True,
                              timeout=LIMIT)
    check((left.returncode, left.stderr) == (0, b""), f"status {left.returncode}, errors {left.stderr!r}")
    check(left.stdout == streams.event(ID | RUNNABLE | SUCCESS, text(b"foo")) + bytes(100_000), "the input is not left as it is")


# Reads a stream as the reference implementation does, and prints what each event tells.
READER = """import subunit, sys, testtools
class Told(testtools.StreamResult):
    def status(self, test_id=None, test_status=None, test_tags=None, file_name=None, file_bytes=None, eof=False, mime_type=None,
               timestamp=None, **rest):
        print((test_id, test_status, sorted(test_tags or []), file_name, file_bytes and bytes(file_bytes), eof, mime_type,
               timestamp.timestamp()))
subunit.ByteStreamToStreamResult(sys.stdin.buffer).run(Told())
"""


@case
def others_read_the_events():
    there = os.path.exists(PYTHON) and subprocess.run([PYTHON, "-c", "import subunit, testtools"], capture_output=True).returncode == 0
    need(there, "python3-subunit and python3-testtools are not installed")
    words = ("--skip=foo", "--tag=quick", "--attach-file=-", "--mimetype=text/plain", "--timestamp=1970-01-01 00:01:41.5Z")
    given = filtered("subunit-output", *words, given=b"why\n")
    read = subprocess.run([PYTHON, "-c", READER], input=given, capture_output=True, timeout=LIMIT, check=True)
    told = [("foo", None, [], "stdin", b"why\n", False, "text/plain", 101.5), ("foo", "skip", ["quick"], None, None, True, None, 101.5)]
    check(read.stdout.decode().splitlines() == [str(one) for one in told], f"Python reads {read.stdout}")


main("tables", *sys.argv[3:])
PYTHON
