#!/bin/sh
# Tries `testr upgrade` on folders that Debian's `testr` and `stestr` make on the spot, where these are installed: suites of
# 300 tests of Python, of which seven fail, two workers, a run of few tests, an empty run, and a run that was removed. Behind
# the upgrade `failing`, `last` and `slowest` must say what theirs said. A damaged folder is refused and stays as it was. The
# program is killed at random moments, and each folder that is left must be one that Debian's `testr` opens, or the new one.
# Which refusals tell the way out of a project of stestr is tried without these programs.
# usage: bench/upgrade.sh [CASE..]: by default all cases. The variable KILLS says how often the program is killed: 100,
# unless it is set.
set -eu

root=$(CDPATH='' cd -- "$(dirname -- "$0")/.." && pwd -P)
. "$root/bench/prepare.sh"

PYTHONDONTWRITEBYTECODE=1 PYTHONPATH=$root/bench KILLS=${KILLS:-100} python3 - "$program" "$work" "$@" <<'PYTHON'
import os
import random
import re
import shutil
import subprocess
import sys
import time

from cases import LIMIT, PROGRAM, at, case, check, main, need, need_command, new_folder, run, write
from streams import FAIL, ID, RUNNABLE, SUCCESS, event, text

KILLS = int(os.environ["KILLS"])
PYTHON = "/usr/bin/python3"
TESTR, STESTR = "/usr/bin/testr", "/usr/bin/stestr"
SUITE = b'''import unittest


def test_of(number):
    def test(self):
        if number % 43 == 5:
            self.fail(f"not {number}\\n]\\nend")
    return test


class Drawn(unittest.TestCase):
    pass


for number in range(300):
    setattr(Drawn, f"test_{number:03}", test_of(number))
'''
CONF = f"""[DEFAULT]
test_command={PYTHON} -B -m subunit.run discover . $LISTOPT $IDOPTION
test_id_option=--load-list $IDFILE
test_list_option=--list
""".encode()
FAILING = sorted(f"test_drawn.Drawn.test_{number:03}" for number in range(300) if number % 43 == 5)
OLD, NEW = b"1\n", b"subunit-store 2\n"


def called(folder, *words, given=b""):
    done = subprocess.run(words, cwd=folder, capture_output=True, timeout=LIMIT, input=given)
    check(done.returncode in (0, 1), f"{words}: status {done.returncode}, {done.stderr[-400:]!r}")
    return done.stdout


def need_programs(*programs):
    for program in programs:
        need(os.path.exists(program), f"Debian's {os.path.basename(program)} is not installed")


def files_of(folder, name=".testrepository"):
    top = os.path.join(folder, name)
    found = {}
    for name in os.listdir(top):
        with open(os.path.join(top, name), "rb") as file:
            found[name] = file.read()
    return found


def suite():
    folder = new_folder()
    write(folder, "test_drawn.py", SUITE)
    return folder


MADE = {}


def folder_of_testr():
    """A folder of three runs of testr: a part of the tests, none, and all."""
    need_programs(TESTR)
    need_command("upgrade")
    if "testr" not in MADE:
        folder = suite()
        write(folder, ".testr.conf", CONF)
        called(folder, TESTR, "init")
        called(folder, TESTR, "run", "test_drawn.Drawn.test_00")
        called(folder, TESTR, "load")
        called(folder, TESTR, "run", "--parallel", "--concurrency=2")
        MADE["testr"] = folder
    folder = new_folder()
    shutil.copytree(MADE["testr"], folder, dirs_exist_ok=True)
    return folder


def folder_of_stestr():
    """A folder of two runs of stestr, of which the first was removed, in the place of one of testr."""
    need_programs(STESTR)
    need_command("upgrade")
    if "stestr" not in MADE:
        folder = suite()
        write(folder, ".stestr.conf", b"[DEFAULT]\ntest_path=.\n")
        called(folder, STESTR, "init")
        called(folder, STESTR, "run", "test_00")
        called(folder, STESTR, "run", "--concurrency=2")
        called(folder, STESTR, "history", "remove", "0")
        MADE["stestr"] = folder
    folder = new_folder()
    shutil.copytree(MADE["stestr"], folder, dirs_exist_ok=True)
    return folder


def upgraded(folder, count, *words):
    done = run(folder, "upgrade", *words)
    check(done == (0, f"upgraded {count} runs\n".encode(), b""), f"upgrade: {done!r}")


def failing_of(folder, program=None):
    words = [program] if program else None
    status, out, err = run(folder, "failing", "--list", program=words)
    check(status in (0, 1), f"failing: status {status}, {err!r}")
    return sorted(out.decode().split())


def check_kept(before, after):
    """The files of the old folder stand with their bytes, but for its format."""
    for name, bytes in before.items():
        check(name == "format" or after.get(name) == bytes, f"{name} is not as it was")
    check((before["format"], after["format"]) == (OLD, NEW), f"the format is {after['format']!r}")


@case
def a_folder_of_testr():
    folder = folder_of_testr()
    before = files_of(folder)
    theirs = called(folder, TESTR, "last").splitlines()[-2:]
    slowest = [line.split() for line in called(folder, TESTR, "slowest", "--all").decode().splitlines()[2:]]
    check(failing_of(folder, TESTR) == FAILING, "testr's own failing set is another")
    upgraded(folder, 3)
    check_kept(before, files_of(folder))
    check(failing_of(folder) == FAILING, f"failing says {failing_of(folder)}")
    status, out, err = run(folder, "last")
    check(status == 1 and err == b"", f"last: status {status}, errors {err!r}")
    ran = re.match(rb"Ran (\d+)", theirs[0])[1]
    check(out.splitlines()[-2].startswith(b"Ran %s tests" % ran), f"last says {out[-200:]!r}, and testr {theirs}")
    check(b"failures=7" in out.splitlines()[-1] and b"id=2" in out.splitlines()[-1], f"last says {out[-200:]!r}")
    ours = [line.split() for line in run(folder, "slowest", "--all")[1].decode().splitlines()]
    # Both round to a thousandth, and theirs keeps a time as a floating number.
    times = {words[0]: float(words[1]) for words in slowest}
    check({words[1] for words in ours} == set(times), "slowest has other tests")
    far = [words for words in ours if abs(float(words[0]) - times[words[1]]) > 0.0011]
    check(not far, f"slowest says {far[:3]}")
    done = run(folder, "upgrade")
    check(done == (3, b"", b"testr: nothing to upgrade\n"), f"a second upgrade: {done!r}")


@case
def a_folder_of_testr_goes_on():
    folder = folder_of_testr()
    upgraded(folder, 3)
    status, out, err = run(folder, "run", "--failing")
    check((status, err) == (1, b""), f"run --failing: status {status}, errors {err!r}")
    check(b"id=3, failures=7" in out.splitlines()[-1], f"the report is {out[-200:]!r}")
    check(failing_of(folder) == FAILING, "the failing set is another one")


@case
def a_folder_of_stestr():
    folder = folder_of_stestr()
    shutil.copytree(os.path.join(folder, ".stestr"), os.path.join(folder, ".testrepository"))
    before = files_of(folder)
    upgraded(folder, 2)
    after = files_of(folder)
    check_kept(before, after)
    check(after["0.part"] == b"" and "0" not in after, "the run that was removed is not empty")
    check(failing_of(folder) == FAILING, f"failing says {failing_of(folder)}")
    status, out, err = run(folder, "last")
    check(status == 1 and b"Ran 300 tests" in out and b"failures=7" in out, f"last says {out[-200:]!r}")


FROM_STESTR = "--from=.stestr"
WAY_OUT = b"testr: testr upgrade --from=.stestr takes over the runs of .stestr\n"


def check_copied(folder, before):
    """`.stestr` stands with its bytes, and so do the copies, but for their format."""
    check(files_of(folder, ".stestr") == before, "a file of .stestr is not as it was")
    copied = {name: bytes for name, bytes in before.items() if name in ("format", "next-stream", "failing") or name.isdigit()}
    check_kept(copied, files_of(folder))


@case
def a_folder_of_stestr_where_it_stands():
    folder = folder_of_stestr()
    before = files_of(folder, ".stestr")
    done = run(folder, "last")
    check(done == (3, b"", b"testr: no repository here\n" + WAY_OUT), f"last: {done!r}")
    upgraded(folder, 2, FROM_STESTR)
    check_copied(folder, before)
    after = files_of(folder)
    check(after["0.part"] == b"" and "0" not in after, "the run that was removed is not empty")
    check(failing_of(folder) == FAILING, f"failing says {failing_of(folder)}")
    check(failing_of(folder, STESTR) == FAILING, "stestr's own failing set is another")
    done = run(folder, "upgrade", FROM_STESTR)
    check(done == (3, b"", b"testr: a repository is already here\n"), f"a second upgrade: {done!r}")


@case
def a_way_out_is_told():
    folder = new_folder()
    os.mkdir(os.path.join(folder, ".stestr"))
    write(folder, ".stestr/format", OLD)
    for command in ("load", "last", "failing", "slowest", "stats", "upgrade"):
        done = run(folder, command)
        check(done == (3, b"", b"testr: no repository here\n" + WAY_OUT), f"{command}: {done!r}")
    done = run(folder, "run")
    check(done == (3, b"", b"testr: no .testr.conf or .stestr.conf\n" + WAY_OUT), f"run without a configuration: {done!r}")
    write(folder, ".testr.conf", CONF)
    done = run(folder, "run")
    check(done == (3, b"", b"testr: no repository here\n" + WAY_OUT), f"run: {done!r}")
    os.remove(os.path.join(folder, ".testr.conf"))
    done = run(folder, "list-tests")
    check(done == (3, b"", b"testr: no .testr.conf or .stestr.conf\n"), f"list-tests: {done!r}")
    done = run(folder, "upgrade", "--from=nothing")
    check(done == (3, b"", b"testr: no repository in nothing\n"), f"upgrade --from=nothing: {done!r}")
    done = run(folder, "nothing", program=[PROGRAM, "subunit-filter"])
    check(done == (3, b"", b"subunit-filter: no file nothing\n"), f"subunit-filter nothing: {done!r}")
    run(folder, "init")
    done = run(folder, "last")
    check(done == (3, b"", b"testr: no runs\n"), f"last: {done!r}")


@case
def a_repository_that_a_run_made_tells_what_is_not_in_it():
    left = b"the runs of .stestr are not in .testrepository; without that, %s upgrade --from=.stestr takes them over\n"
    for name, words in (("stestr", ["load"]), ("testr", ["load", "--force-init"])):
        folder = new_folder()
        os.mkdir(os.path.join(folder, ".stestr"))
        write(folder, ".stestr/format", OLD)
        line = name.encode() + b": " + left % name.encode()
        done = run(folder, *words, program=[PROGRAM, name])
        check(done[0] == 0 and done[2] == line, f"{name} {words}: {done!r}")
        done = run(folder, *words, program=[PROGRAM, name])
        check(done[0] == 0 and done[2] == b"", f"{name} {words}, once more: {done!r}")


DAMAGED = (
    ("0", b"test: a\nfailure: a [ multipart\n", b"testr: run 0 is damaged\n"),
    ("2", b"test: a\nfailure: a [ multipart\nContent-Type: text/plain\nlog\n5\r\nabc\n", b"testr: run 2 is damaged\n"),
    ("1", b"what a shell says\n", b"testr: run 1 is damaged\n"),
    ("failing", b"test: a\nfailure: a [ multipart\n", b"testr: the failing set is damaged\n"),
    ("next-stream", b"two\n", b"testr: next-stream is no number\n"),
    ("format", b"2\n", b"testr: unknown repository format\n"),
)


@case
def a_damaged_folder_is_refused():
    for name, bytes, line in DAMAGED:
        folder = folder_of_testr()
        with open(at(folder, name), "wb") as file:
            file.write(bytes)
        before = files_of(folder)
        done = run(folder, "upgrade")
        check(done == (3, b"", line), f"{name} of {bytes!r}: {done!r}")
        after = files_of(folder)
        check({name: after[name] for name in before} == before, f"{name} of {bytes!r}: a file is not as it was")
        # Its own lock, and converted runs, which the original does not look at.
        rest = {name for name in after if name not in before and name not in ("lock", "writer") and not name.endswith(".part")}
        check(not rest, f"{name} of {bytes!r}: there are {rest}")


@case
def a_stream_of_version_2_keeps_its_packets():
    folder = folder_of_testr()
    packets = event(ID | RUNNABLE | FAIL, text(b"two\nlines")) + event(ID | RUNNABLE | SUCCESS, text(b"b"))
    for name, bytes in (("3", packets), ("next-stream", b"4\n")):
        with open(at(folder, name), "wb") as file:
            file.write(bytes)
    upgraded(folder, 4)
    check(run(folder, "last", "--subunit") == (0, packets, b""), "last --subunit gives other packets")


def is_old(folder, before):
    """Debian's testr opens it, and it has what it had."""
    after = files_of(folder)
    check({name: after.get(name) for name in before} == before, "a file of the old folder is not as it was")
    check(failing_of(folder, TESTR) == FAILING, "testr does not find its failing set")


@case
def kills_at_random_moments():
    whole = folder_of_testr()
    begun = time.monotonic()
    upgraded(whole, 3)
    took = time.monotonic() - begun
    first = folder_of_testr()
    before = files_of(first)
    draw = random.Random(1)
    left = {"old": 0, "new": 0}
    for number in range(KILLS):
        folder = new_folder()
        shutil.copytree(first, folder, dirs_exist_ok=True)
        child = subprocess.Popen([PROGRAM, "testr", "upgrade"], cwd=folder, stdout=subprocess.DEVNULL, stderr=subprocess.DEVNULL)
        time.sleep(draw.uniform(0, took * 1.1))
        child.kill()
        child.wait()
        with open(at(folder, "format"), "rb") as file:
            is_new = file.read() == NEW
        left["new" if is_new else "old"] += 1
        if not is_new:
            is_old(folder, before)
            upgraded(folder, 3)
        check_kept(before, files_of(folder))
        check(failing_of(folder) == FAILING, f"kill {number}: failing says {failing_of(folder)}")
        shutil.rmtree(folder)
        os.mkdir(folder)
    print(f"         of {KILLS} kills {left['old']} left the old folder, and {left['new']} the new one")


def state_of(folder):
    """What stands in the folder here: no repository, an old one, or the new one."""
    try:
        with open(at(folder, "format"), "rb") as file:
            return {OLD: "old", NEW: "new"}[file.read()]
    except FileNotFoundError:
        return "none"


@case
def kills_of_a_copy_at_random_moments():
    whole = folder_of_stestr()
    begun = time.monotonic()
    upgraded(whole, 2, FROM_STESTR)
    took = time.monotonic() - begun
    before = files_of(whole, ".stestr")
    draw = random.Random(2)
    left = {"none": 0, "old": 0, "new": 0}
    for number in range(KILLS):
        folder = folder_of_stestr()
        child = subprocess.Popen([PROGRAM, "testr", "upgrade", FROM_STESTR], cwd=folder, stdout=subprocess.DEVNULL, stderr=subprocess.DEVNULL)
        time.sleep(draw.uniform(0, took * 1.1))
        child.kill()
        child.wait()
        state = state_of(folder)
        left[state] += 1
        if state == "none":
            upgraded(folder, 2, FROM_STESTR)
        elif state == "old":
            upgraded(folder, 2)
        check_copied(folder, before)
        check(failing_of(folder) == FAILING, f"kill {number}: failing says {failing_of(folder)}")
        shutil.rmtree(folder)
        os.mkdir(folder)
    print(f"         of {KILLS} kills {left['none']} left no repository, {left['old']} an old folder, and {left['new']} the new one")


main("upgrades", *sys.argv[3:])
PYTHON
