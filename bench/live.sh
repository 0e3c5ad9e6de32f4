#!/bin/sh
# Tries what is shown of a run while it goes on, with real workers: the lines of each kind on standard error, and the packets
# on standard output, of a load too; lines that come before a slow worker ends, on a pseudo-terminal too; an error stream that is closed,
# or whose reader has gone; an output that is full.
# usage: bench/live.sh [CASE..]: by default all cases.
set -eu

root=$(CDPATH='' cd -- "$(dirname -- "$0")/.." && pwd -P)
. "$root/bench/prepare.sh"

PYTHONDONTWRITEBYTECODE=1 PYTHONPATH=$root/bench python3 - "$program" "$work" "$@" <<'PYTHON'
import os
import pty
import select
import subprocess
import sys
import time

from cases import LIMIT, PROGRAM, WORK, case, check, main, need, run, write
from project import check_answer, check_clean, project, report

KINDS = ("none", "tests", "failures", "dots")
TOLD = b"{0} a ... ok\n{0} b ... ok\n{0} c ... FAILED\n"
REPORT = report([(b"c", b"")], 3, 0)

# Each of its tests comes when the file of its name is there.
SLOW = """#!/bin/sh
[ "${1-}" != --list ] || exec cat packets/listing
for name in a b c; do
    while [ ! -e "go-$name" ]; do sleep 0.01; done
    cat "packets/$name"
done
"""


def filter_of(name, given, *words):
    done = run(WORK, *words, given=given, program=[PROGRAM, name])
    return done[1]


def traced(folder, kind):
    """What `subunit-trace` prints of the last run."""
    status, stored, err = run(folder, "last", "--subunit")
    check((status, err) == (0, b""), f"last answers {status}, {err!r}")
    return b"" if kind == "none" else filter_of("subunit-trace", stored, f"--live={kind}", "--no-summary")


@case
def lines_of_each_kind():
    for kind in KINDS:
        folder = project()
        done = run(folder, "run", f"--live={kind}")
        check_answer(done, 1, REPORT, f"run --live={kind}", traced(folder, kind))
        check_clean(folder)
    folder = project()
    check_answer(run(folder, "run", "--live=tests"), 1, REPORT, "run --live=tests", TOLD)
    check_answer(run(project(), "run", "--live=dots"), 1, REPORT, "run --live=dots", b"..F\n")
    check_answer(run(project(), "run"), 1, REPORT, "run", b"")
    check(run(project(), "run", "--live=loud")[0] == 2, "an unknown kind is taken")


@case
def lines_of_two_workers():
    for kind in KINDS:
        folder = project()
        status, out, err = run(folder, "run", "--parallel", "--concurrency=2", f"--live={kind}")
        check((status, out) == (1, REPORT), f"the run answers {status}, {out!r}")
        check(err == traced(folder, kind), f"{kind}: {err!r} is not {traced(folder, kind)!r}")


@case
def packets_on_the_output():
    folder = project()
    status, out, err = run(folder, "run", "--subunit")
    check((status, err) == (0, b""), f"run --subunit answers {status}, {err!r}")
    check(out == run(folder, "last", "--subunit")[1], "these are not the packets of the run")
    status, out, err = run(folder, "run", "--subunit", "--live=tests", "--parallel", "--concurrency=2")
    check((status, out) == (0, run(folder, "last", "--subunit")[1]), f"the run answers {status}")
    check(err == traced(folder, "tests"), f"beside the packets there is {err!r}")
    status, out, err = run(folder, "last")
    check((status, out) == (1, report([(b"c", b"")], 3, 1)), f"last answers {status}, {out!r}")


@case
def output_that_is_full():
    need(os.path.exists("/dev/full"), "want of /dev/full")
    folder = project()
    with open("/dev/full", "wb") as full:
        status, _, err = run(folder, "run", "--subunit", stdout=full)
    check(status == 4 and err.startswith(b"testr: fault writing output\n"), f"the run answers {status}, {err!r}")
    check(run(folder, "last")[:2] == (1, REPORT), "the run is not kept")


@case
def errors_that_nobody_reads():
    for kind in KINDS:
        folder = project()
        ours, theirs = os.pipe()
        os.close(ours)
        status, out, _ = run(folder, "run", f"--live={kind}", stderr=theirs)
        os.close(theirs)
        check((status, out) == (1, REPORT), f"the run answers {status}, {out!r}")
        check(run(folder, "last")[:2] == (1, REPORT), "the run is not kept")
        folder = project()
        done = subprocess.run(["sh", "-c", '"$0" testr run "$1" 2>&-', PROGRAM, f"--live={kind}"], cwd=folder, stdout=subprocess.PIPE, timeout=LIMIT)
        check((done.returncode, done.stdout) == (1, REPORT), f"the run answers {done.returncode}, {done.stdout!r}")


def read_until(file, wanted, text):
    """What is read of the file until these bytes are in it."""
    got, end = b"", time.monotonic() + 20
    while wanted not in got:
        ready, _, _ = select.select([file], [], [], max(0, end - time.monotonic()))
        check(ready, f"{text}: only {got!r} came")
        more = os.read(file, 65536)
        check(more, f"{text}: it ended behind {got!r}")
        got += more
    return got


def go(folder, name):
    write(folder, f"go-{name}", b"")


@case
def lines_before_the_end():
    folder = project(worker=SLOW)
    child = subprocess.Popen([PROGRAM, "testr", "run", "--live=tests"], cwd=folder, stdout=subprocess.PIPE, stderr=subprocess.PIPE)
    for name in ("a", "b"):
        go(folder, name)
        read_until(child.stderr.fileno(), b"{0} %s ... ok\n" % name.encode(), "a line")
    check(child.poll() is None, "it has ended before its worker")
    go(folder, "c")
    out, err = child.communicate(timeout=LIMIT)
    check((child.returncode, out) == (1, REPORT), f"the run answers {child.returncode}, {out!r}, {err!r}")


@case
def lines_on_a_terminal():
    folder = project(worker=SLOW)
    ours, theirs = pty.openpty()
    child = subprocess.Popen([PROGRAM, "testr", "run"], cwd=folder, stdout=subprocess.PIPE, stderr=theirs)
    os.close(theirs)
    go(folder, "a")
    read_until(ours, b"{0} a ... ok\r\n", "the terminal")
    check(child.poll() is None, "it has ended before its worker")
    go(folder, "b")
    go(folder, "c")
    out, _ = child.communicate(timeout=LIMIT)
    check((child.returncode, out) == (1, REPORT), f"the run answers {child.returncode}, {out!r}")
    os.close(ours)
    for words in (["run", "--live=none"], ["run", "-q"]):
        folder = project()
        ours, theirs = pty.openpty()
        done = subprocess.run([PROGRAM, "testr", *words], cwd=folder, stdout=subprocess.PIPE, stderr=theirs, timeout=LIMIT)
        os.close(theirs)
        ready, _, _ = select.select([ours], [], [], 0.2)
        try:
            shown = os.read(ours, 65536) if ready else b""
        except OSError:
            shown = b""
        os.close(ours)
        check((done.returncode, shown) == (1, b""), f"{words} shows {shown!r}")


def stream_of(folder):
    """The packets of a run of the project."""
    run(folder, "run", "-q")
    return run(folder, "last", "--subunit")[1]


@case
def lines_and_packets_of_a_load():
    folder = project()
    stream = stream_of(folder)
    for kind in KINDS:
        status, out, err = run(folder, "load", "-q", f"--live={kind}", given=stream)
        check((status, out, err) == (1, b"", traced(folder, kind)), f"load --live={kind} answers {status}, {out!r}, {err!r}")
    status, out, err = run(folder, "load", "--subunit", given=stream)
    check((status, out, err) == (0, run(folder, "last", "--subunit")[1], b""), f"load --subunit answers {status}, {err!r}")


@case
def a_load_on_a_terminal():
    folder = project()
    stream = stream_of(folder)
    ours, theirs = pty.openpty()
    status, out, _ = run(folder, "load", given=stream, stderr=theirs)
    os.close(theirs)
    shown = read_until(ours, b"{0} c ... FAILED\r\n", "the terminal")
    os.close(ours)
    check((status, shown) == (1, TOLD.replace(b"\n", b"\r\n")), f"the load answers {status}, {out!r}, and shows {shown!r}")


main("live", *sys.argv[3:])
PYTHON
