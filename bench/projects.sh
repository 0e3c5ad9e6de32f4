#!/bin/sh
# Tries `testr` in a small project, whose tests are a shell script that prints recorded packets: it is listed, run by one
# worker and by several, loaded from files, and its worker fails, is killed, prints much, or goes its own way. A suite of
# Python's own is listed and run too, and what is stored of it is read by Python, where `python3-subunit` and
# `python3-testtools` of Debian are installed, and as a project of stestr where `python3-stestr` is; else that case, as one
# of a command that the program does not have yet, is skipped with a word.
# usage: bench/projects.sh [CASE..]: by default all cases. The variable MEBIBYTES says how much the worker prints that
# prints much: 1024, unless it is set, and so much room is needed on the disk.
set -eu

root=$(CDPATH='' cd -- "$(dirname -- "$0")/.." && pwd -P)
. "$root/bench/prepare.sh"

PYTHONDONTWRITEBYTECODE=1 PYTHONPATH=$root/bench MEBIBYTES=${MEBIBYTES:-1024} \
    python3 - "$program" "$work" "$@" <<'PYTHON'
import os
import random
import shutil
import signal
import subprocess
import sys
import time

import streams
from caches import NAMES, Home, Said, events_of, found, remove
from cases import LIMIT, PROGRAM, at, bytes_of, case, check, main, need, need_command, new_folder, run, write
from project import CONF, LISTS, WORKER, check_answer, check_clean, kept, packet, project, report
from streams import FILE, RUNNABLE, SUCCESS, event, text

MUCH = int(os.environ["MEBIBYTES"]) << 20
# No command holds more than this, in KiB, however much a worker prints.
MOST_MEMORY = 65_536
TIME = "/usr/bin/time"


# Loading.

@case
def what_a_worker_printed_is_loaded():
    folder = project()
    given = subprocess.run(["sh", "-c", "./worker"], cwd=folder, capture_output=True, timeout=LIMIT, check=True).stdout
    check_answer(run(folder, "load", given=given), 1, report([(b"c", b"")], 3, 0), "load")
    check(bytes_of(folder, "0") == kept([b"a", b"b", b"c"]), "the run is wrong")
    check_answer(run(folder, "last"), 1, report([(b"c", b"")], 3, 0), "last")
    check_answer(run(folder, "failing"), 1, b"FAIL: c\nfailures=1\n", "failing")
    check_clean(folder)


@case
def two_files_are_loaded():
    need_command("load", "x")
    folder = project()
    both = report([(b"c", b"")], 2, 0)
    check_answer(run(folder, "load", "packets/a", "packets/c"), 1, both, "load of two files")
    check(bytes_of(folder, "0") == kept([b"a"], b"0") + kept([b"c"], b"1"), "the run of two files is wrong")
    check_answer(run(folder, "load", "--partial", "packets/b"), 0, report([], 1, 1), "load of one file")
    check(bytes_of(folder, "1.part") == kept([b"b"]), "the run of one file is wrong")


@case
def a_pipe_is_loaded_by_its_name():
    need_command("load", "x")
    folder = project()
    check_answer(run(folder, "load", "/dev/stdin", given=packet(b"a", SUCCESS)), 0, report([], 1, 0), "load of a pipe")
    check(bytes_of(folder, "0") == kept([b"a"]), "the run of a pipe is wrong")


@case
def a_missing_file_is_refused():
    need_command("load", "x")
    folder = project()
    check_answer(run(folder, "load", "packets/a", "missing"), 3, b"", "load of a missing file", b"testr: no file missing\n")
    check(not os.path.exists(os.path.join(folder, ".testrepository", "0")), "a refused load has a run")
    check_clean(folder)


@case
def a_folder_is_a_fault():
    need_command("load", "x")
    folder = project()
    status, out, err = run(folder, "load", "packets")
    check((status, out) == (4, b"") and err.startswith(b"testr: fault reading a file\n"), f"load of a folder: {status}, {err}")
    check(not os.path.exists(os.path.join(folder, ".testrepository", "0")), "a load that failed has a run")
    check_clean(folder)


# Listing.

@case
def tests_are_listed():
    need_command("list-tests")
    folder = project()
    check_answer(run(folder, "list-tests"), 0, b"a\nb\nc\n", "list-tests")
    check_answer(run(folder, "list-tests", "^[bc]"), 0, b"b\nc\n", "list-tests with a pattern")
    shutil.rmtree(os.path.join(folder, ".testrepository"))
    check_answer(run(folder, "list-tests"), 0, b"a\nb\nc\n", "list-tests without a repository")


@case
def a_listing_that_fails_is_refused():
    need_command("list-tests")
    folder = project(worker="#!/bin/sh\nexit 7\n")
    check_answer(run(folder, "list-tests"), 3, b"", "list-tests", b"testr: listing ended with 7\n")
    folder = project(conf="[DEFAULT]\ntest_command=./worker\n")
    check_answer(run(folder, "list-tests"), 3, b"", "list-tests", b"testr: .testr.conf: test_list_option is needed\n")


@case
def a_listing_that_fails_says_why():
    need_command("list-tests")
    folder = project(worker="#!/bin/sh\nprintf 'a line'\ncat why\nexit 2\n")
    why = b"No module named 'nothere'\n"
    write(folder, "why", event(FILE, text(b"import errors") + text(why)))
    told = b"a line\n--- import errors ---\n" + why + b"testr: listing ended with 2\n"
    check_answer(run(folder, "list-tests"), 3, b"", "list-tests", told)
    check_answer(run(folder, "run", "a"), 3, b"", "run", told)
    folder = project(conf=CONF + "test_run_concurrency=seq 20000\n")
    status, out, err = run(folder, "run", "--parallel")
    check((status, out) == (3, b""), f"a number of many lines: {status}, {out}")
    numbers = b"".join(b"%d\n" % number for number in range(1, 20001))
    told = b"...\n" + numbers[-65536:] + b"testr: test_run_concurrency gave no number\n"
    check(err == told, f"what is told has {len(err)} bytes: {err[:40]}")
    check_clean(folder)


# Running.

@case
def all_is_run():
    need_command("run")
    folder = project()
    check_answer(run(folder, "run"), 1, report([(b"c", b"")], 3, 0), "run")
    check(bytes_of(folder, "0") == kept([b"a", b"b", b"c"]), "the run is wrong")
    check_answer(run(folder, "last"), 1, report([(b"c", b"")], 3, 0), "last")
    check_answer(run(folder, "failing"), 1, b"FAIL: c\nfailures=1\n", "failing")
    check_clean(folder)


@case
def some_are_run():
    need_command("run")
    folder = project()
    run(folder, "run")
    check_answer(run(folder, "run", "--failing"), 1, report([(b"c", b"")], 1, 1), "run --failing")
    check(bytes_of(folder, "1.part") == kept([b"c"]), "the run of the failing tests is wrong")
    check_answer(run(folder, "run", "a|b"), 0, report([], 2, 2), "run with a pattern")
    write(folder, "list", b"b\n\n a\n")
    check_answer(run(folder, "run", "--load-list=list"), 0, report([], 2, 3), "run --load-list")
    check(bytes_of(folder, "3.part") == kept([b"b", b"a"]), "the run of a list is wrong")
    check_clean(folder)


@case
def tests_are_left_out_by_lists_with_comments():
    need_command("run")
    folder = project()
    write(folder, "out", b"# what fails today\n  c$ # not now\n\n\t\n")
    write(folder, "wanted", b"#b\n[bc] # two of them\n")
    check_answer(run(folder, "run", "--exclude-list=out"), 0, report([], 2, 0), "run --exclude-list")
    check(bytes_of(folder, "0.part") == kept([b"a", b"b"]), "the run without what a list leaves out is wrong")
    check_answer(run(folder, "run", "--include-list=wanted", "--exclude-regex=b"), 1, report([(b"c", b"")], 1, 1), "run --include-list")
    check_answer(run(folder, "list-tests", "--include-list=wanted"), 0, b"b\nc\n", "list-tests --include-list")
    check_answer(run(folder, "list-tests", "--exclude-list=out"), 0, b"a\nb\n", "list-tests --exclude-list")
    write(folder, "bad", b"a\n#(\n(\n")
    check_answer(run(folder, "run", "--exclude-list=bad"), 3, b"", "a bad list", b"testr: bad line 3: bad pattern: (\n")
    check_clean(folder)


@case
def a_run_may_print_no_report():
    need_command("run")
    folder = project()
    check_answer(run(folder, "run", "-q"), 1, b"", "run -q")
    check_answer(run(folder, "last", "--quiet"), 1, b"", "last --quiet")
    check_answer(run(folder, "last"), 1, report([(b"c", b"")], 3, 0), "last")
    said = b"testr: --concurrency: 64 workers at most\n"
    check_answer(run(folder, "run", "--concurrency=1000", "a"), 0, report([], 1, 1), "run --concurrency=1000", said)
    check_clean(folder)


@case
def several_workers_run():
    need_command("run")
    folder = project()
    check_answer(run(folder, "run", "--parallel", "--concurrency=2"), 1, report([(b"c", b"")], 3, 0), "run --parallel")
    # Without known times the first share has a and c, and the second b. The second may come at any place.
    first = [kept([name], b"0") for name in (b"a", b"c")]
    other = kept([b"b"], b"1")
    mixed = {b"".join(first[:place] + [other] + first[place:]) for place in range(3)}
    check(bytes_of(folder, "0") in mixed, "the run of two workers is wrong")
    check_clean(folder)


@case
def a_project_without_settings_is_refused():
    need_command("run")
    folder = project()
    os.remove(os.path.join(folder, ".testr.conf"))
    check_answer(run(folder, "run"), 3, b"", "run", b"testr: no .testr.conf or .stestr.conf\n")


def run_of(script, total, failed, status, number=0):
    """Runs a project of this worker alone."""
    folder = project(worker="#!/bin/sh\n" + script)
    check_answer(run(folder, "run"), status, report(failed, total, number), f"run of {script!r}")
    check_clean(folder)
    return folder


@case
def a_worker_fails():
    need_command("run")
    run_of("cat packets/a; exit 3\n", 2, [(b"process-returncode", b"returncode 3\n")], 1)
    run_of("exec ./no-such-program 2>/dev/null\n", 1, [(b"process-returncode", b"returncode 127\n")], 1)


@case
def a_worker_is_killed():
    need_command("run")
    folder = project(worker="#!/bin/sh\ncat packets/a\nkill -9 $$\n", conf=CONF.replace("./worker", "exec ./worker"))
    check_answer(run(folder, "run"), 1, report([(b"process-returncode", b"returncode -9\n")], 2, 0), "run")
    check_clean(folder)


@case
def a_worker_that_ends_early_loses_no_test():
    need_command("run")
    # It ends itself in b, without a word.
    ends = "#!/bin/sh\n" + LISTS + "while read -r id; do [ $id != b ] || exit 7; cat \"packets/$id\"; done < \"$2\"\n"
    folder = project(worker=ends)
    write(folder, "packets/c", packet(b"c", SUCCESS))
    status, out, err = run(folder, "run", ".")
    check((status, err) == (1, b""), f"a run that is cut answers {status}, {err}")
    check(b"Ran 4 tests\nFAILED (id=0, failures=3)\n" in out, f"the report of a run that is cut is {out}")
    check_answer(run(folder, "failing", "--list"), 1, b"b\nc\nprocess-returncode\n", "failing --list")
    status, out, err = run(folder, "run", "--find-causes", "[ac]|b")
    check(b"b: fails alone\n" in out and b"c: caused by b\n" in out, f"the causes are {out}")
    check_clean(folder)


@case
def a_worker_goes_its_own_way():
    need_command("run")
    # It has no input, and what it says on its errors is passed on.
    folder = project(worker=f"#!/bin/sh\n{LISTS}cat\necho a word >&2\ncat packets/a packets/b\n")
    check_answer(run(folder, "run", given=b"not for it"), 0, report([], 2, 0), "run", b"a word\n")
    # It is told to run one test, and runs others.
    missing = b"testr: 1 of 1 tests that were asked for did not run\n  c\n"
    check_answer(run(folder, "run", "c"), 0, report([], 2, 1), "run c", b"a word\n" + missing)
    check_clean(folder)
    # A program that writes to one that has gone is ended, as in any shell.
    run_of("yes | head -n 1 >/dev/null; cat packets/a\n", 1, [], 0)


@case
def a_worker_prints_much():
    need_command("run")
    folder = project(worker=f"#!/bin/sh\nexec head -c {MUCH} /dev/zero\n")
    said = os.path.join(folder, "memory")
    before = [TIME, "-f", "%M", "-o", said] if os.access(TIME, os.X_OK) else []
    check_answer(run(folder, "run", before=before, limit=5 * LIMIT), 0, report([], 0, 0), "run")
    piece = len(event(RUNNABLE | streams.FILE, text(b"stdout") + streams.number(65_536) + bytes(65_536), b"0"))
    size = os.path.getsize(os.path.join(folder, ".testrepository", "0"))
    check(size == MUCH // 65_536 * piece, f"the run has {size} bytes")
    if before:
        with open(said) as file:
            most = int(file.read().split()[-1])
        print(f"         {MUCH >> 20} MiB in {most} KiB of memory", flush=True)
        check(most <= MOST_MEMORY, f"{most} KiB were held")
    shutil.rmtree(folder)


@case
def a_planned_file_of_ids_is_not_written():
    need_command("run")
    folder = project()
    write(folder, "precious", b"mine")
    for make in (lambda path: os.symlink("precious", path), os.mkfifo, lambda path: write(folder, path, b"old\n")):
        make(os.path.join(folder, ".testr-ids.0"))
        found = run(folder, "run", "--partial", "a")
        check(found[0] == 0 and found[1].startswith(b"Ran 1 tests\n") and found[2] == b"", f"run answers {found}")
        check_clean(folder)
    with open(os.path.join(folder, "precious"), "rb") as file:
        check(file.read() == b"mine", "another's file is written")


@case
def a_file_of_ids_is_found_from_elsewhere():
    need_command("run")
    folder = project(conf="[DEFAULT]\ntest_command=cd src && sed 's,^,../packets/,' $IDFILE | xargs cat\n")
    os.mkdir(os.path.join(folder, "src"))
    write(folder, "wanted", b"b\na\n")
    check_answer(run(folder, "run", "--load-list=wanted"), 0, report([], 2, 0), "run behind cd")
    check_clean(folder)
    # A shell would read this path, so the file has its name alone.
    other = folder + " and more"
    os.rename(folder, other)
    write(other, ".testr.conf", b"[DEFAULT]\n  test_command=sed 's,^,packets/,' $IDFILE |\n    xargs cat\n")
    check_answer(run(other, "run", "--load-list=wanted"), 0, report([], 2, 1), "run in a folder with a blank")
    check_clean(other)


@case
def a_worker_runs_on_an_instance():
    """Each command leaves a line, so that their order is seen; the end of the instance is not well, and changes nothing."""
    need_command("run")
    folder = project(conf="[DEFAULT]\ntest_command=cat packets/a\ninstance_provision=echo make $INSTANCE_COUNT >> lines; echo box\ninstance_execute=echo on $INSTANCE_ID >> lines; $COMMAND\ninstance_dispose=echo drop $INSTANCE_IDS >> lines; exit 3\n")
    check_answer(run(folder, "run"), 0, report([], 1, 0), "run on an instance", b"testr: disposing ended with 3\n")
    with open(os.path.join(folder, "lines"), "rb") as file:
        check(file.read() == b"make 1\non box\ndrop box\n", "other commands were run")
    check_clean(folder)


@case
def ends_are_not_told():
    """Where the caller ignores SIGCHLD, the system forgets how a child has ended, and the wait fails."""
    need_command("run")
    folder = project(conf="[DEFAULT]\ntest_command=exec cat packets/a\n")
    found = run(folder, "run", preexec_fn=lambda: signal.signal(signal.SIGCHLD, signal.SIG_IGN))
    check_answer(found, 1, report([(b"process-returncode", b"read fault\n")], 2, 0), "run")


@case
def the_program_is_killed():
    need_command("run")
    folder = project(worker=f"#!/bin/sh\n{LISTS}cat packets/a\ntouch begun\nexec sleep 2\n")
    child = subprocess.Popen([PROGRAM, "testr", "run", "a"], cwd=folder, stdout=subprocess.DEVNULL)
    until = time.monotonic() + LIMIT
    while not os.path.exists(os.path.join(folder, "begun")) and time.monotonic() < until and child.poll() is None:
        time.sleep(0.01)
    child.send_signal(signal.SIGKILL)
    check(child.wait(LIMIT) == -signal.SIGKILL, "the program has ended before")
    write(folder, "worker", WORKER.encode())
    check_answer(run(folder, "run", "a"), 0, report([], 1, 0), "the next run")
    check_clean(folder)


# A repository made on the way.

def made_by_then(folder):
    """Which files a repository has by then, or none; the draft, the lock and the caches are not counted."""
    home = at(folder, "")
    return {name for name in os.listdir(home) if name not in ("draft", "lock", "writer", *NAMES)} if os.path.isdir(home) else set()


def kill_at_random(chance, folder, words, given, whole):
    """The files that a kill at some moment leaves; none of them, `format`, or `format` and the run, and each whole."""
    with open(given, "rb") as stream:
        child = subprocess.Popen([PROGRAM, "testr", *words, "--force-init"], cwd=folder, stdin=stream,
                                 stdout=subprocess.DEVNULL, stderr=subprocess.DEVNULL)
    time.sleep(chance.uniform(0, whole))
    child.kill()
    child.wait(LIMIT)
    made = made_by_then(folder)
    check(made in (set(), {"format"}, {"format", "0"}), f"a kill of {words} leaves {made}")
    check(not made or bytes_of(folder, "format") == b"subunit-store 1\n", f"a kill of {words} leaves another format")
    return made


def load_behind_a_kill(folder):
    """What `load` answers. A child that was made as its parent was killed holds the lock until it has become the worker."""
    for _ in range(50):
        answer = run(folder, "load", "--force-init", given=packet(b"a", SUCCESS))
        if b"another testr is at work" not in answer[2]:
            break
        time.sleep(0.1)
    return answer


def kill_often(words, folder_of, given, recorded):
    chance, seen = random.Random(1), []
    folder = folder_of()
    start = time.monotonic()
    check(run(folder, *words, "--force-init", stdin=open(given, "rb"))[0] <= 1, f"{words} fails")
    whole = time.monotonic() - start
    check(bytes_of(folder, "0") == recorded, f"the run of {words} is wrong")
    for _ in range(60):
        folder = folder_of()
        made = kill_at_random(chance, folder, words, given, whole)
        seen.append(len(made))
        check(len(made) < 2 or bytes_of(folder, "0") == recorded, f"a kill of {words} leaves a part of its run")
        number = 1 if "0" in made else 0
        check_answer(load_behind_a_kill(folder), 0, report([], 1, number), f"load behind {words}")
    check(len(set(seen)) > 1, f"all kills of {words} leave the same: {seen[0]} files")


@case
def a_repository_made_on_the_way_is_killed():
    given = os.path.join(new_folder(), "stream")
    with open(given, "wb") as stream:
        stream.write(b"".join(streams.small(100_000)))
    kill_often(["load"], new_folder, given, b"".join(streams.small(100_000, b"0")))


def bare_project():
    """A project without a repository."""
    folder = project()
    shutil.rmtree(at(folder, ""))
    return folder


@case
def a_repository_made_on_the_way_of_a_run_is_killed():
    need_command("run")
    kill_often(["run"], bare_project, os.devnull, kept([b"a", b"b", b"c"]))


# The face `stestr`.

STESTR = [PROGRAM, "stestr"]


@case
def stestr_does_by_default_what_testr_is_asked_for():
    folder = bare_project()
    check_answer(run(folder, "list", "^[bc]", program=STESTR), 0, b"b\nc\n", "stestr list")
    check(not os.path.exists(at(folder, "")), "stestr list makes a repository")
    check_answer(run(folder, "run", "--serial", program=STESTR), 1, report([(b"c", b"")], 3, 0), "stestr run --serial")
    check(bytes_of(folder, "0") == kept([b"a", b"b", b"c"]), "the run is wrong")
    status, out, err = run(folder, "run", "--concurrency=3", program=STESTR)
    check((status, err) == (1, b"") and out.endswith(b"Ran 3 tests\nFAILED (id=1, failures=1)\n"), f"stestr run answers {(status, out, err)}")
    check(len({route for route, name, status, moment in events_of(bytes_of(folder, "1")) if name}) == 3, "stestr run has other workers")
    check_answer(run(folder, "last", program=STESTR), 1, report([(b"c", b"")], 3, 1), "stestr last")
    check_answer(run(folder, "run", "--serial"), 2, b"", "testr run --serial", b"testr: wrong usage\n")
    check_answer(run(folder, "list"), 2, b"", "testr list", b"testr: wrong usage\n")
    check_clean(folder)


# The caches.

# A suite of Python's own, which `python3-subunit` and `python3-testtools` of Debian list and run.

PYTHON = "/usr/bin/python3"
SUITE_CONF = f"""[DEFAULT]
test_command={PYTHON} -B -m subunit.run discover . $LISTOPT $IDOPTION
test_id_option=--load-list $IDFILE
test_list_option=--list
"""
SUITE = b"""import unittest


class Small(unittest.TestCase):
    def test_fails(self):
        self.assertEqual(1, 2)

    def test_passes(self):
        pass

    def test_passes_too(self):
        pass

    @unittest.skip("not today")
    def test_skipped(self):
        pass
"""
SUITE_ENDS = {"test_fails": "fail", "test_passes": "success", "test_passes_too": "success", "test_skipped": "skip"}
# Reads a stream as the reference implementation does, and prints each test that ended and how.
SUITE_READER = """import subunit, sys, testtools
class Ends(testtools.StreamResult):
    def status(self, test_id=None, test_status=None, **rest):
        if test_status not in (None, "inprogress", "exists"):
            print(test_id, test_status)
subunit.ByteStreamToStreamResult(sys.stdin.buffer).run(Ends())
"""


def ends_read_by_python(folder):
    stored = run(folder, "last", "--subunit")
    check(stored[2] == b"", f"last --subunit says {stored[2]}")
    read = subprocess.run([PYTHON, "-c", SUITE_READER], input=stored[1], capture_output=True, timeout=LIMIT, check=True)
    return sorted(read.stdout.decode().splitlines())


def need_python():
    there = os.path.exists(PYTHON) and subprocess.run([PYTHON, "-c", "import subunit, testtools"], capture_output=True).returncode == 0
    need(there, "python3-subunit and python3-testtools are not installed")


def check_suite(answer, tests, ended, package=""):
    status, out, err = answer
    lines = out.decode().splitlines()
    check(status == 1 and err == b"" and lines[-1] == ended, f"the suite answers {answer}")
    check(lines[1] == f"FAIL: {package}test_small.Small.test_fails" and "AssertionError: 1 != 2" in lines, f"the report is {lines}")
    check(lines[-2].startswith(f"Ran {tests} tests in "), f"the count is {lines[-2]}")


@case
def a_suite_of_python_runs():
    need_command("run")
    need_python()
    folder = project(conf=SUITE_CONF)
    write(folder, "test_small.py", SUITE)
    ids = [f"test_small.Small.{name}" for name in SUITE_ENDS]
    check_answer(run(folder, "list-tests"), 0, "".join(f"{name}\n" for name in ids).encode(), "list-tests")
    ends = sorted(f"test_small.Small.{name} {end}" for name, end in SUITE_ENDS.items())
    check_suite(run(folder, "run"), 4, "FAILED (id=0, failures=1, skips=1)")
    check(ends_read_by_python(folder) == ends, "Python reads other ends of the run")
    check_answer(run(folder, "failing"), 1, b"FAIL: test_small.Small.test_fails\nfailures=1\n", "failing")
    check_suite(run(folder, "run", "--failing"), 1, "FAILED (id=1, failures=1)")
    check_suite(run(folder, "run", "--parallel", "--concurrency=2"), 4, "FAILED (id=2, failures=1, skips=1)")
    check(ends_read_by_python(folder) == ends, "Python reads other ends of the run of two workers")
    write(folder, "test_broken.py", b"import nothere\n")
    status, out, err = run(folder, "list-tests")
    check((status, out) == (3, b""), f"a broken import is listed: {status}, {out}")
    check(err.startswith(b"--- import errors ---\n") and err.endswith(b"testr: listing ended with 2\n"), f"the import says {err}")
    check(b"No module named 'nothere'" in err, f"the import says {err}")
    check_clean(folder)


# Projects of stestr, which runs their tests, and by itself lists the same.

STESTR_LINES = b"[DEFAULT]\ntest_path=./unit tests\ntop_dir=./unit tests\nparallel_class=True\n"
STESTR_TABLE = b"[project]\nname = 'small'\n\n[tool.stestr]\ntest_path = './unit'\nparallel_class = true\n"


def need_stestr():
    need_python()
    there = subprocess.run([PYTHON, "-c", "import stestr.subunit_runner.run"], capture_output=True).returncode == 0
    need(there, "python3-stestr is not installed")


def stestr_project(name, bytes, tests):
    folder = bare_project()
    os.remove(os.path.join(folder, ".testr.conf"))
    write(folder, name, bytes)
    os.mkdir(os.path.join(folder, tests))
    write(folder, f"{tests}/__init__.py", b"")
    write(folder, f"{tests}/test_small.py", SUITE)
    return folder


def check_stestr(folder, where, package=""):
    how = {"env": {**os.environ, "PYTHON": PYTHON}}
    ids = [f"{package}test_small.Small.{name}" for name in SUITE_ENDS]
    listed = "".join(f"{name}\n" for name in ids).encode()
    check_answer(run(folder, "list", program=STESTR, **how), 0, listed, f"stestr list of {where}")
    check_answer(run(folder, "list-tests", **how), 0, listed, f"list-tests of {where}")
    check_suite(run(folder, "run", "--concurrency=2", program=STESTR, **how), 4, "FAILED (id=0, failures=1, skips=1)", package)
    routes = {route for route, name, status, moment in events_of(bytes_of(folder, "0")) if name}
    check(routes == {b"0"}, f"the class of {where} is on the workers {routes}")
    check_clean(folder)
    return ids, how


@case
def projects_of_stestr_run():
    need_command("run")
    need_stestr()
    # Where no `top_dir` is set, modules are named from the project's folder on.
    check_stestr(stestr_project("pyproject.toml", STESTR_TABLE, "unit"), "pyproject.toml", "unit.")
    folder = stestr_project(".stestr.conf", STESTR_LINES, "unit tests")
    ids, how = check_stestr(folder, ".stestr.conf")
    for word in ("init", "list"):
        own = subprocess.run([PYTHON, "-B", "-m", "stestr", word], cwd=folder, capture_output=True, timeout=LIMIT, **how)
    check(sorted(own.stdout.decode().split()) == ids, f"stestr itself lists {own}")


@case
def words_behind_the_options_reach_the_worker():
    need_command("run", "--")
    folder = project(worker='#!/bin/sh\nprintf "%s|" "$@" > words\n')
    words = ["-v", "a b", "it's", "$HOME", "", "--", "*"]
    check_answer(run(folder, "run", "--", *words), 0, report([], 0, 0), "run --")
    with open(os.path.join(folder, "words"), "rb") as file:
        check(file.read().decode() == "".join(f"{word}|" for word in words), "the worker gets other words")
    check_clean(folder)


# A suite of 40 tests, of which one leaves what makes another one fail.
LETTERS = "abcdefghijklmnopqrstuvwxyz"
ORDERED = [*LETTERS, *(f"a{letter}" for letter in LETTERS[:14])]


def ordered_suite():
    lines = ["import unittest", "", "left = []", "", "", "class Order(unittest.TestCase):"]
    for name in ORDERED:
        body = {"b": "left.append('b')", "k": "self.assertEqual(left, [])"}.get(name, "pass")
        lines += [f"    def test_{name}(self):", f"        {body}", ""]
    return "\n".join(lines).encode()


@case
def a_cause_among_40_tests_of_python_is_named():
    need_command("run")
    need_python()
    folder = project(conf=SUITE_CONF)
    write(folder, "test_order.py", ordered_suite())
    status, out, err = run(folder, "run", "--find-causes")
    lines = out.decode().splitlines()
    check(status == 1 and err == b"", f"the run answers {(status, out, err)}")
    check(lines[-2] == "FAILED (id=0, failures=1)", f"the report ends with {lines[-2:]}")
    check(lines[-1] == "test_order.Order.test_k: caused by test_order.Order.test_b", f"the cause is {lines[-1]}")
    check_answer(run(folder, "stats"), 0, b"runs=1\n", "stats")
    check_clean(folder)


def drawn(seed, lanes, tests):
    """The summary of drawn outputs, by the rule of docs/FORMATS.md."""
    state, failed, skipped, millis = seed % 2**31, 0, 0, 0
    for _ in range(lanes * tests):
        state = (state * 1103515245 + 12345) % 2**31
        value = state // 65536
        failed += value % 7 == 0
        skipped += value % 7 == 1
        millis += value % 1000
    ended = f"failures={failed}, skips={skipped}" if failed else f"skips={skipped}"
    return f"Ran {lanes * tests} tests in {millis // 1000}.{millis % 1000:03}s\n{'FAILED' if failed else 'PASSED'} (id=0, {ended})\n".encode()


@case
def drawn_outputs_are_summed_up_the_same_each_time():
    need_command("selftest", "7", "1", "1")
    folder = project()
    check_answer(run(folder, "selftest", "7", "2", "2"), 0, b"Ran 4 tests in 2.912s\nPASSED (id=0, skips=1)\n", "selftest 7 2 2")
    for _ in range(2):
        check_answer(run(folder, "selftest", "7", "4", "1000"), 1, drawn(7, 4, 1000), "selftest 7 4 1000")


@case
def caches_hold_what_the_runs_say():
    home = Home(7)
    for _ in range(60):
        home.load_well()
        home.need_caches()
        home.check_failing()


@case
def caches_that_were_removed_come_back():
    """As those of a repository that an older program made."""
    home = Home(8)
    for gone in (("failing.set",), ("times.set",), ("failing.set", "times.set")):
        for _ in range(5):
            home.load_well()
            home.need_caches()
        for name in gone:
            os.remove(os.path.join(home.folder, ".testrepository", name))
        home.check_failing()
        home.load_well()
        home.check_failing()


@case
def caches_are_put_by_run_and_by_files():
    folder, said = project(), Said()
    steps = (("run",), ("load", "packets/a", "packets/c"), ("run", "--failing"), ("run", "--parallel", "--concurrency=2"),
             ("load", "--partial", "packets/b", "packets/a"), ("run", "c"))
    for number, words in enumerate(steps):
        status, _, err = run(folder, *words)
        check(status <= 1 and err == b"", f"{words} answers {status}, {err}")
        is_partial = os.path.exists(os.path.join(folder, ".testrepository", f"{number}.part"))
        said.take(bytes_of(folder, f"{number}.part" if is_partial else f"{number}"), is_partial)
        need(found(folder), "the program puts no caches yet")
        check(found(folder) == said.caches(), f"behind {words} the caches are {found(folder)}")
        check(run(folder, "failing", "--list") == (*said.listed(), b""), f"behind {words} failing is wrong")
    check_clean(folder)


@case
def questions_put_no_caches():
    home = Home(9)
    for _ in range(5):
        home.load_well()
    home.need_caches()
    remove(home.folder)
    for words in (("failing",), ("last",), ("slowest",), ("stats",)):
        check(run(home.folder, *words)[0] <= 1 and not found(home.folder), f"{words} fails or puts a cache")
    home.check_failing()


main("projects", *sys.argv[3:])
PYTHON
