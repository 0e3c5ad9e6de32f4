#!/bin/sh
# Tries `subunit-1to2` and `subunit-2to1`. Where Debian's `testr` and `stestr` are installed, each runs a suite of 300 tests
# of Python, and the run that it stored, which is of version 1, is read: its counts, ids, statuses, tags, times and files must
# be those that their own `last` tells. Python reads what is written, where `python3-subunit` is installed. Drawn tests are
# written and read again.
# usage: bench/version-one.sh [CASE..]: by default all cases. The variable SEED has the seed of what is drawn, 1 unless said
# otherwise.
set -eu

root=$(CDPATH='' cd -- "$(dirname -- "$0")/.." && pwd -P)
. "$root/bench/prepare.sh"

SEED=${SEED:-1} PYTHONDONTWRITEBYTECODE=1 PYTHONPATH=$root/bench python3 - "$program" "$work" "$@" <<'PYTHON'
import json
import os
import random
import re
import subprocess
import sys
from datetime import datetime, timedelta

import streams
from cases import LIMIT, PROGRAM, case, check, main, need, new_folder, run, write
from streams import FAIL, FILE, ID, IN_PROGRESS, RUNNABLE, SKIP, SUCCESS, TAGS, TIME, TYPE, number, text

SEED = int(os.environ["SEED"])
PYTHON = "/usr/bin/python3"
UXSUCCESS, XFAIL = 4, 7
COUNT = 300
SUITE = b'''import random
import unittest


def test_of(kind, number):
    def test(self):
        if kind == "skip":
            self.skipTest(f"why {number}\\n]\\n ] more")
        if kind == "fail":
            self.fail(f"]\\nnot {number}\\n] \\u00e4\\r\\nend")
        if kind == "error":
            raise RuntimeError("x" * (number * 700))
        if kind == "xfail":
            raise AssertionError("as thought\\n]")
    return unittest.expectedFailure(test) if kind in ("xfail", "uxsuccess") else test


class Drawn(unittest.TestCase):
    pass


draw = random.Random(1)
for number in range(300):
    kind = draw.choice(("success",) * 5 + ("skip", "fail", "error", "xfail", "uxsuccess"))
    setattr(Drawn, f"test_{number:03}_{kind}", test_of(kind, number))
'''
# Tells each test of a stream of version 2 as Python reads it.
READER = r"""
import io, json, subunit, sys, testtools
told = []
def take(test):
    files = {name: b"".join(content.iter_bytes()).decode("latin-1") for name, content in test["details"].items()}
    types = {name: repr(content.content_type) for name, content in test["details"].items()}
    times = [None if time is None else time.isoformat() for time in test["timestamps"]]
    told.append([test["id"], test["status"], sorted(test["tags"]), times, files, types])
result = testtools.StreamToDict(take)
result.startTestRun()
subunit.ByteStreamToStreamResult(io.BytesIO(sys.stdin.buffer.read()), non_subunit_name="foreign").run(result)
result.stopTestRun()
print(json.dumps(told))
"""
# Tells each test of a stream of version 1 so, with the text of its files in place of these. Tags are those of the test alone.
READER_OF_LINES = r"""
import io, json, subunit, sys, testtools
told = []
class Result(testtools.TestResult):
    def __init__(self):
        super().__init__()
        self.own, self.begun, self.now = set(), None, None
    def time(self, when):
        self.now = when
    def tags(self, new, gone):
        self.own = (self.own | set(new)) - set(gone)
    def startTest(self, test):
        self.begun, self.own = self.now, set()
    def stopTest(self, test):
        pass
    def told(self, test, status, details=None):
        text = "".join(b"".join(details[name].iter_bytes()).decode("latin-1") for name in sorted(details or {}))
        times = [None if time is None else time.isoformat() for time in (self.begun, self.now)]
        told.append([test.id(), status, sorted(self.own), times, text])
    def addSuccess(self, test, details=None):
        self.told(test, "success", details)
    def addSkip(self, test, reason=None, details=None):
        self.told(test, "skip", details)
    def addFailure(self, test, error=None, details=None):
        self.told(test, "fail", details)
    def addError(self, test, error=None, details=None):
        self.told(test, "error", details)
    def addExpectedFailure(self, test, error=None, details=None):
        self.told(test, "xfail", details)
    def addUnexpectedSuccess(self, test, details=None):
        self.told(test, "uxsuccess", details)
subunit.ProtocolTestCase(io.BytesIO(sys.stdin.buffer.read()), io.BytesIO()).run(Result())
print(json.dumps(told))
"""


def filtered(name, given=b""):
    """The output of the filter, which does not fail."""
    status, out, err = run(os.curdir, given=given, program=[PROGRAM, name])
    check((status, err) == (0, b""), f"{name}: status {status}, errors {err!r}")
    return out


def need_python(*modules):
    there = os.path.exists(PYTHON) and subprocess.run([PYTHON, "-c", "import " + ", ".join(modules)], capture_output=True).returncode == 0
    need(there, f"Python's {' and '.join(modules)} are not installed")


def read_by(reader, stream):
    done = subprocess.run([PYTHON, "-B", "-c", reader], input=stream, capture_output=True, timeout=LIMIT)
    check(done.returncode == 0, f"Python does not read the stream: {done.stderr[-400:]!r}")
    return json.loads(done.stdout)


def called(folder, *words):
    done = subprocess.run(words, cwd=folder, capture_output=True, timeout=LIMIT)
    check(done.returncode in (0, 1), f"{words}: status {done.returncode}, {done.stderr[-400:]!r}")
    return done.stdout


def suite(**files):
    folder = new_folder()
    write(folder, "test_drawn.py", SUITE)
    for name, lines in files.items():
        write(folder, "." + name.replace("_", "."), lines)
    return folder


def are_same_times(ours, theirs):
    """Python's reader of version 1 takes the fraction of a second as a floating number, and cuts what a million times it
    is. So it may tell a microsecond less than the line does."""
    if ours is None or theirs is None:
        return ours is theirs
    return timedelta(0) <= datetime.fromisoformat(ours) - datetime.fromisoformat(theirs) <= timedelta(microseconds=1)


def same(ours, theirs):
    """Both are lists of tests, in any order. Theirs were read by Python, which may have cut their times."""
    ours, theirs = ({test[0]: test for test in tests} for tests in (ours, theirs))
    check(ours.keys() == theirs.keys(), f"the ids differ: {sorted(ours.keys() ^ theirs.keys())[:5]}")
    for name, test in ours.items():
        for part, one, other in zip(("id", "status", "tags", "times", "files", "types"), test, theirs[name]):
            holds = all(map(are_same_times, one, other)) if part == "times" else one == other
            check(holds, f"{part} of {name}: {one!r:.300}, and not {other!r:.300}")


def with_last_times(told):
    """The tests as lines of version 1 tell their times: a line stands until the next one, so a test that tells no time has
    the last one that was told before."""
    last = None
    for test in told:
        for place, time in enumerate(test[3]):
            last = time or last
            test[3][place] = last
    return told


def counts_of(told):
    counts = {}
    for test in told:
        counts[test[1]] = counts.get(test[1], 0) + 1
    return counts


def a_stored_run(stored, last):
    """Reads the run, and compares it with what `last` gives of it."""
    check(stored.startswith(b"time: "), f"the run is not of version 1: {stored[:40]!r}")
    check(stored.count(b" [ multipart\n") >= COUNT, "not each test has parts")
    ours = read_by(READER, filtered("subunit-1to2", stored))
    check(len(ours) == COUNT, f"{len(ours)} tests, and not {COUNT}")
    same(ours, read_by(READER, last))
    check(all(test[2] for test in ours) and all(test[3][1] for test in ours), "tags or times are missing")
    return counts_of(ours)


@case
def a_run_of_testr():
    need_python("subunit", "testtools", "testrepository")
    need(os.path.exists("/usr/bin/testr"), "Debian's testr is not installed")
    folder = suite(testr_conf=f"[DEFAULT]\ntest_command={PYTHON} -B -m subunit.run $LISTOPT $IDOPTION test_drawn\ntest_id_option=--load-list $IDFILE\ntest_list_option=--list\n".encode())
    called(folder, "/usr/bin/testr", "init")
    called(folder, "/usr/bin/testr", "run", "--parallel", "--concurrency=2")
    with open(os.path.join(folder, ".testrepository", "0"), "rb") as file:
        counts = a_stored_run(file.read(), called(folder, "/usr/bin/testr", "last", "--subunit"))
    line = called(folder, "/usr/bin/testr", "last").splitlines()[-1]
    # It counts no unexpected success as a failure.
    wanted = f"FAILED (id=0, failures={counts['fail']}, skips={counts['skip']})".encode()
    check(line == wanted, f"last says {line!r}, and the stream {wanted!r}")


@case
def a_run_of_stestr():
    need_python("subunit", "testtools", "stestr")
    need(os.path.exists("/usr/bin/stestr"), "Debian's stestr is not installed")
    folder = suite(stestr_conf=b"[DEFAULT]\ntest_path=.\n")
    called(folder, "/usr/bin/stestr", "init")
    called(folder, "/usr/bin/stestr", "run", "--concurrency=2")
    with open(os.path.join(folder, ".stestr", "0"), "rb") as file:
        counts = a_stored_run(file.read(), called(folder, "/usr/bin/stestr", "last", "--subunit"))
    told = called(folder, "/usr/bin/stestr", "last").decode()
    found = {word: int(re.search(rf" - {word}: (\d+)", told)[1]) for word in ("Passed", "Skipped", "Expected Fail", "Unexpected Success", "Failed")}
    wanted = {word: counts.get(status, 0) for word, status in
              (("Passed", "success"), ("Skipped", "skip"), ("Expected Fail", "xfail"), ("Unexpected Success", "uxsuccess"), ("Failed", "fail"))}
    check(found == wanted, f"last says {found}, and the stream {wanted}")


SIGNS = ("a", "b", "Z", "0", ".", " ", ",", "[", " [", " [ multipart", "]", "ä", "\u2028", "\U0001f40d")
WORDS = ("x", "y-1", "worker-0", "ä", "=", "z" * 100)
LINES = ("]", " ]", "x", "", "test: a", "time: 1970-01-01 00:00:00Z", "]\r", "y" * 70_000, "ä")
STATUSES = {SUCCESS: "success", FAIL: "fail", SKIP: "skip", XFAIL: "xfail", UXSUCCESS: "uxsuccess"}


def packet_of(name, status, moment, tags=(), file=None):
    flags = ID | RUNNABLE | status
    body = b""
    if moment is not None:
        flags |= TIME
        body += moment.to_bytes(4, "big") + number(500_000_000)
    body += text(name)
    if tags:
        flags |= TAGS
        body += number(len(tags)) + b"".join(text(tag) for tag in tags)
    if file is not None:
        flags |= TYPE | FILE
        body += text(b"text/plain;charset=utf8") + text(b"log") + text(file)
    return streams.event(flags, body)


def drawn(draw, count):
    """A stream and its tests, each of which ends: id, status, tags, times and text."""
    stream, tests = bytearray(), []
    for place in range(count):
        name = ("".join(draw.choices(SIGNS, k=draw.randrange(6))) + f"-{place}").encode()
        status, tags = draw.choice(tuple(STATUSES)), sorted(set(draw.sample(WORDS, draw.randrange(4))))
        begun, ended = draw.choice((None, draw.randrange(2 ** 31))), draw.choice((None, draw.randrange(2 ** 31)))
        lines = "\n".join(draw.choices(LINES, k=draw.randrange(5))).encode()[:65_536] if draw.random() < 0.3 else b""
        stream += packet_of(name, IN_PROGRESS, begun)
        stream += packet_of(name, status, ended, [tag.encode() for tag in tags], lines or None)
        tests.append((name.decode(), STATUSES[status], tags, lines))
    return bytes(stream), tests


@case
def drawn_tests_are_written_and_read_again():
    stream, tests = drawn(random.Random(SEED), 2_000)
    lines = filtered("subunit-2to1", stream)
    again = filtered("subunit-1to2", lines)
    counts = run(os.curdir, "--no-passthrough", given=again, program=[PROGRAM, "subunit-stats"])[1]
    check(counts == run(os.curdir, given=stream, program=[PROGRAM, "subunit-stats"])[1], f"the counts are {counts!r}")
    ids = run(os.curdir, "--no-passthrough", given=again, program=[PROGRAM, "subunit-ls"])[1]
    check(ids.decode().split("\n")[:-1] == [test[0] for test in tests], "the ids differ")
    check(filtered("subunit-2to1", again).count(b"\ntest: ") == filtered("subunit-2to1", stream).count(b"\ntest: "), "tests are lost")


@case
def python_reads_what_is_written():
    need_python("subunit", "testtools")
    draw = random.Random(SEED + 1)
    stream, tests = drawn(draw, 1_000)
    told = read_by(READER_OF_LINES, filtered("subunit-2to1", stream))
    check(len(told) == len(tests), f"Python reads {len(told)} tests, and not {len(tests)}")
    for found, (name, status, tags, lines) in zip(told, tests):
        check(found[:3] == [name, status, tags], f"{found[:3]}, and not {[name, status, tags]}")
        # A line of details that begins with a space and a bracket is read without the space, whoever wrote it.
        wanted = re.sub(rb"(?m)^ \]", b"]", lines + (b"" if lines[-1:] == b"\n" or not lines else b"\n"))
        check(found[4].encode("latin-1") == wanted, f"the text of {name} is {found[4]!r:.100}, and not {wanted!r:.100}")


@case
def python_writes_what_is_read():
    need_python("subunit", "testtools")
    stream, tests = drawn(random.Random(SEED + 2), 500)
    lines = subprocess.run(["/usr/bin/subunit-2to1"], input=stream, capture_output=True, timeout=LIMIT)
    need(lines.returncode in (0, 1) and lines.stdout, "Debian's subunit-2to1 is not installed")
    same(read_by(READER, filtered("subunit-1to2", lines.stdout)), with_last_times(read_by(READER, stream)))


@case
def a_chunk_of_many_bytes():
    given = bytes(range(256)) * 1_000
    lines = b"test: a\nfailure: a [ multipart\nContent-Type: a/b\nlog\n%X\r\n" % len(given) + given + b"0\r\n]\n"
    pieces = [given[start:start + 65_536] for start in range(0, len(given), 65_536)]
    name = text(b"a")
    wanted = streams.event(ID | RUNNABLE | IN_PROGRESS, name)
    for piece in pieces:
        wanted += streams.event(ID | RUNNABLE | TYPE | FILE, name + text(b"a/b") + text(b"log") + text(piece))
    wanted += streams.event(ID | RUNNABLE | FAIL, name)
    check(filtered("subunit-1to2", lines) == wanted, "the pieces differ")


@case
def the_most_bytes_of_a_line():
    name, kind = text(b"a"), text(b"text/plain;charset=utf8") + text(b"traceback")
    begun = streams.event(ID | RUNNABLE | IN_PROGRESS, name)
    rows = ((b" ]" + b"x" * 65_534, b"]" + b"x" * 65_534 + b"\n", b""), (b" ]" + b"x" * 65_535, b" ]" + b"x" * 65_534, b"x\n"))
    for line, piece, rest in rows:
        wanted = begun + streams.event(ID | RUNNABLE | TYPE | FILE, name + kind + text(piece))
        wanted += streams.event(ID | RUNNABLE | FAIL | TYPE | FILE, name + kind + text(rest)) if rest else streams.event(ID | RUNNABLE | FAIL, name)
        found = filtered("subunit-1to2", b"test: a\nfailure: a [\n" + line + b"\n]\n")
        check(found == wanted, f"a line of {len(line)} bytes gives {len(found)} bytes, and not these {len(wanted)}")


@case
def what_is_read_in_pieces_is_the_same():
    stream, _ = drawn(random.Random(SEED + 3), 200)
    lines = filtered("subunit-2to1", stream)
    whole = filtered("subunit-1to2", lines)
    filter = subprocess.Popen([PROGRAM, "subunit-1to2"], stdin=subprocess.PIPE, stdout=subprocess.PIPE)
    draw = random.Random(SEED + 4)
    with open(os.path.join(sys.argv[2], "pieces"), "wb") as kept:
        kept.write(lines)
    feed = subprocess.Popen([sys.executable, "-c", "import random, sys\ndraw = random.Random(%d)\ngiven = open(sys.argv[1], 'rb').read()\nwhile given:\n    count = draw.choice((1, 2, 7, 100, 5000))\n    sys.stdout.buffer.write(given[:count]); sys.stdout.buffer.flush(); given = given[count:]" % draw.randrange(1000), os.path.join(sys.argv[2], "pieces")], stdout=filter.stdin)
    filter.stdin.close()
    out = filter.stdout.read()
    check((feed.wait(LIMIT), filter.wait(LIMIT)) == (0, 0), "a filter fails")
    check(out == whole, "pieces give another stream")


main("version one", *sys.argv[3:])
PYTHON
