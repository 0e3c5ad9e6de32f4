#!/bin/sh
# Tries `testr run --parallel` with real worker processes: 4 and 64 of them, workers that sleep side by side, one that is
# slow while another prints much, one that is killed in the middle, one that cannot be started; what each is told to run,
# on a first run and on one with known times; a disk that is full, also beside silent workers; an output or standard error
# that is closed; workers that end with a killed program, and files of ids that it left; and kills of the program at random
# moments.
# usage: bench/workers.sh [CASE..]: by default all cases. The variable KILLS says how often the program is killed: 100,
# unless it is set. MEBIBYTES says how much the worker prints that prints much: 1024, unless it is set, and so much room is
# needed on the disk.
set -eu

root=$(CDPATH='' cd -- "$(dirname -- "$0")/.." && pwd -P)
. "$root/bench/prepare.sh"

PYTHONDONTWRITEBYTECODE=1 PYTHONPATH=$root/bench MEBIBYTES=${MEBIBYTES:-1024} KILLS=${KILLS:-100} \
    python3 - "$program" "$work" "$@" <<'PYTHON'
import os
import random
import resource
import shutil
import signal
import subprocess
import sys
import time

import streams
from cases import LIMIT, PROGRAM, bytes_of, case, check, main, need, run, wait_until, write
from project import check_answer, check_clean, packet, project, report
from streams import FAIL, ID, RUNNABLE, SUCCESS, TIME, event, text

MUCH = int(os.environ["MEBIBYTES"]) << 20
KILLS = int(os.environ["KILLS"])
EXISTS, IN_PROGRESS = 1, 2

# It notes what it is told to run, and each id's packets are in a file of its own.
NOTES = """#!/bin/sh
[ "${1-}" != --list ] || exec cat packets/listing
cp "$2" "told/${2##*.}"
while read -r id; do cat "packets/$id"; done < "$2"
"""

# The same, where each worker does what stands in a file of its name, or else runs what it is told.
EACH = """#!/bin/sh
[ "${1-}" != --list ] || exec cat packets/listing
number=${2##*.}
[ ! -e "workers/$number" ] || exec sh "workers/$number" "$2"
while read -r id; do cat "packets/$id"; done < "$2"
"""

# The shell becomes the worker, so that it is the worker who is killed.
EXEC = b"""[DEFAULT]
test_command=exec ./worker $LISTOPT $IDOPTION
test_id_option=--ids $IDFILE
test_list_option=--list
"""


def name_of(place):
    return b"t%05d" % place


def timed(place, milliseconds):
    """A test that is in progress, and ends so much later."""
    seconds, rest = divmod(milliseconds, 1000)
    name = text(name_of(place))
    start = streams.struct.pack(">I", 1_700_000_000) + streams.number(0)
    end = streams.struct.pack(">I", 1_700_000_000 + seconds) + streams.number(rest * 1_000_000)
    return (event(TIME | ID | RUNNABLE | IN_PROGRESS, start + name) + event(TIME | ID | RUNNABLE | SUCCESS, end + name))


def many(count, worker=NOTES, milliseconds=None):
    """A project of so many tests, each of which passes, and takes so long where that is said."""
    folder = project(worker=worker)
    for place in range(count):
        took = packet(name_of(place), SUCCESS) if milliseconds is None else timed(place, milliseconds[place])
        write(folder, "packets/" + name_of(place).decode(), took)
    write(folder, "packets/listing", b"".join(packet(name_of(place), EXISTS) for place in range(count)))
    os.mkdir(os.path.join(folder, "told"))
    os.mkdir(os.path.join(folder, "workers"))
    return folder


def told(folder):
    """What each worker was told to run, by their numbers."""
    home = os.path.join(folder, "told")
    lists = {}
    for name in os.listdir(home):
        with open(os.path.join(home, name), "rb") as file:
            lists[int(name)] = file.read().splitlines()
        os.remove(os.path.join(home, name))
    return [lists[number] for number in sorted(lists)]


def routes(kept):
    """How many packets stand under each route, in a run of packets that each end with their route and their checksum."""
    counts, place = {}, 0
    while place < len(kept):
        check(kept[place] == 0xb3, f"byte {place} of the run is no packet's first")
        first = kept[place + 3]
        size = first & 63 if first < 64 else int.from_bytes(kept[place + 3:place + 3 + (first >> 6) + 1], "big") & ((1 << (8 * ((first >> 6) + 1) - 2)) - 1)
        whole = kept[place:place + size]
        route = whole[-5:-4] if whole[-6] == 1 else whole[-6:-4]
        counts[route] = counts.get(route, 0) + 1
        place += size
    return counts


@case
def four_workers_share_all():
    folder = many(200)
    check_answer(run(folder, "run", "--parallel", "--concurrency=4"), 0, report([], 200, 0), "run of four workers")
    lists = told(folder)
    check(len(lists) == 4, f"{len(lists)} workers were told")
    check(sorted(sum(lists, [])) == [name_of(place) for place in range(200)], "not each test was told once")
    check(routes(bytes_of(folder, "0")) == {b"%d" % lane: len(ids) for lane, ids in enumerate(lists)}, "routes are wrong")
    check_clean(folder)


@case
def chosen_tests_are_shared():
    folder = many(40)
    write(folder, "list", b"".join(b" %s\t\n\n" % name_of(place) for place in (30, 2, 17, 2, 39, 8)))
    check_answer(run(folder, "run", "--parallel", "--concurrency=2", "--load-list=list"), 0, report([], 5, 0), "a list")
    check(sorted(sum(told(folder), [])) == [name_of(place) for place in (2, 8, 17, 30, 39)], "the list was told otherwise")
    check_answer(run(folder, "run", "--parallel", "--concurrency=3", "t0000[1-7]"), 0, report([], 7, 1), "a pattern")
    lists = told(folder)
    check(sorted(sum(lists, [])) == [name_of(place) for place in range(1, 8)] and len(lists) == 3, "the pattern's are wrong")
    write(folder, "packets/t00004", packet(b"t00004", FAIL))
    check(run(folder, "run", "--parallel", "--concurrency=2")[0] == 1, "a failing test passes")
    told(folder)
    failed = report([(b"t00004", b"")], 1, 3)
    check_answer(run(folder, "run", "--parallel", "--concurrency=4", "--failing"), 1, failed, "run --failing")
    check(told(folder) == [[b"t00004"]], "more than the failing test was told")
    check_clean(folder)


@case
def a_second_run_is_shared_by_times():
    chance = random.Random(5)
    milliseconds = [chance.choice((1, 5, 20, 100, 900)) + chance.randrange(50) for _ in range(300)]
    folder = many(300, milliseconds=milliseconds)
    check(run(folder, "run", "--parallel", "--concurrency=4")[0] == 0, "the first run fails")
    told(folder)
    check(run(folder, "run", "--parallel", "--concurrency=4")[0] == 0, "the second run fails")
    shares = [sum(milliseconds[int(name[1:])] for name in ids) for ids in told(folder)]
    total, longest = sum(milliseconds), max(milliseconds)
    print(f"         the longest of {len(shares)} shares takes {max(shares)} ms, of {total} ms", flush=True)
    check(4 * max(shares) <= total + 3 * longest, f"shares of {shares} ms")


@case
def sixty_four_workers_run():
    folder = many(300)
    check_answer(run(folder, "run", "--parallel", "--concurrency=64"), 0, report([], 300, 0), "run of 64 workers")
    check(len(told(folder)) == 64, "not all workers were told")
    check_answer(run(folder, "run", "--parallel", "--concurrency=64", "t0000[123]"), 0, report([], 3, 1), "of three tests")
    check(len(told(folder)) == 3, "an empty share was started")
    check_clean(folder)


@case
def workers_run_side_by_side():
    folder = many(4, worker=NOTES.replace("while", "sleep 1\nwhile"))
    start = time.monotonic()
    check_answer(run(folder, "run", "--parallel", "--concurrency=4"), 0, report([], 4, 0), "run of four that sleep")
    took = time.monotonic() - start
    print(f"         four workers that sleep a second each took {took:.2f} s", flush=True)
    check(took < 2, "they ran one after another")


@case
def one_prints_much_while_another_is_slow():
    folder = many(2, worker=EACH)
    write(folder, "workers/0", b"exec head -c %d /dev/zero\n" % MUCH)
    write(folder, "workers/1", b"cat packets/t00000; sleep 2; cat packets/t00001\n")
    found = run(folder, "run", "--parallel", "--concurrency=2", limit=5 * LIMIT)
    check_answer(found, 0, report([], 2, 0), "run")
    shutil.rmtree(folder)


@case
def one_of_several_is_killed():
    folder = many(40, worker=EACH)
    write(folder, "workers/2", b"cat packets/t00000\nkill -9 $$\n")
    write(folder, ".testr.conf", EXEC)
    found = run(folder, "run", "--parallel", "--concurrency=4")
    # Its own tests, of which it said nothing, did not come to their ends.
    failed = [b"FAIL: process-returncode\n" + b"-" * 70 + b"\nreturncode -9\n"]
    failed += [b"UNFINISHED: t%05d\n" % number + b"-" * 70 + b"\n" for number in range(2, 40, 4)]
    told = b"".join(b"=" * 70 + b"\n" + block for block in failed)
    check_answer(found, 1, told + b"Ran 42 tests\nFAILED (id=0, failures=11)\n", "run")
    check_clean(folder)


def check_no_worker(folder):
    """No process goes on in the folder."""
    left = sleepers(folder)
    check(not left, f"{left} go on")


@case
def the_disk_is_full():
    """No file may have more than a megabyte. The workers are stopped, which would print for ever."""
    folder = many(2, worker=EACH)
    check_answer(run(folder, "run", "--parallel", "--concurrency=2"), 0, report([], 2, 0), "the first run")
    before = bytes_of(folder, "0")
    for number in (0, 1):
        write(folder, f"workers/{number}", b"cat /dev/zero && touch told/%d\n" % number)

    def limit():
        signal.signal(signal.SIGXFSZ, signal.SIG_IGN)
        resource.setrlimit(resource.RLIMIT_FSIZE, (1 << 20, 1 << 20))

    status, out, err = run(folder, "run", "--parallel", "--concurrency=2", preexec_fn=limit)
    check((status, out) == (4, b"") and err.startswith(b"testr: fault of the repository folder\n"), f"{status}, {out}, {err}")
    check_no_worker(folder)
    check(os.listdir(os.path.join(folder, "told")) == [], "a worker came to its end")
    check(not [name for name in os.listdir(folder) if name.startswith(".testr-ids")], "a file of ids is left")
    check(bytes_of(folder, "0") == before, "the earlier run has changed")
    os.remove(os.path.join(folder, "workers/0"))
    os.remove(os.path.join(folder, "workers/1"))
    check_answer(run(folder, "run", "--parallel", "--concurrency=2"), 0, report([], 2, 1), "the next run")
    check_clean(folder)


@case
def silent_workers_are_stopped_with_the_others():
    """One fills the disk, and the others print nothing: all are stopped at once."""
    folder = many(3, worker=EACH)
    write(folder, ".testr.conf", EXEC)
    write(folder, "workers/0", b"exec cat /dev/zero\n")
    for number in (1, 2):
        write(folder, f"workers/{number}", b"exec sleep 600\n")

    def limit():
        signal.signal(signal.SIGXFSZ, signal.SIG_IGN)
        resource.setrlimit(resource.RLIMIT_FSIZE, (1 << 20, 1 << 20))

    start = time.monotonic()
    status, out, err = run(folder, "run", "--parallel", "--concurrency=3", preexec_fn=limit)
    took = time.monotonic() - start
    check((status, out) == (4, b"") and err.startswith(b"testr: fault of the repository folder\n"), f"{status}, {out}, {err}")
    check(took < 10, f"they were waited for, {took:.0f} s")
    check_no_worker(folder)


@case
def the_output_is_closed():
    folder = many(4)
    status, _, err = run(folder, "run", "--parallel", "--concurrency=2", before=["sh", "-c", 'exec "$@" >&-', "sh"])
    check(status == 4 and err.startswith(b"testr: fault writing output\n"), f"{status}, {err}")
    check_answer(run(folder, "last"), 0, report([], 4, 0), "last")
    # Whoever reads has gone: the run is kept.
    with subprocess.Popen([PROGRAM, "testr", "run", "--parallel", "--concurrency=2"], cwd=folder,
                          stdout=subprocess.PIPE, stderr=subprocess.PIPE) as child:
        child.stdout.close()
        err = child.stderr.read()
    check(child.returncode == 4 and err.startswith(b"testr: fault writing output\n"), f"{child.returncode}, {err}")
    check_answer(run(folder, "last"), 0, report([], 4, 1), "last")
    check_clean(folder)


@case
def the_errors_are_closed():
    """A worker has the null device in their place, so that no file which it opens is taken for them."""
    says = "readlink /proc/$$/fd/2 > errors; echo said >&2\n"
    folder = many(4, worker=NOTES.replace("while", says + "while"))
    words, closed = ["run", "--parallel", "--concurrency=2"], ["sh", "-c", 'exec "$@" 2>&-', "sh"]
    status, out, _ = run(folder, *words, before=closed)
    check((status, out) == (0, report([], 4, 0)), f"{status}, {out}")
    with open(os.path.join(folder, "errors")) as file:
        found = file.read()
    check(found == "/dev/null\n", f"a worker has {found!r} as its standard error")
    # One that is open is the worker's, too.
    check(run(folder, *words) == (0, report([], 4, 1), b"said\nsaid\n"), "standard error is not the worker's")
    check_clean(folder)


@case
def left_files_of_ids_are_removed():
    """Those of a killed run with more workers, by a run that writes none. Other names stay, and so do other things."""
    folder = many(8, worker=EACH)
    for number in range(8):
        write(folder, f"workers/{number}", b"exec sleep 600\n")
    write(folder, ".testr.conf", EXEC)
    with subprocess.Popen([PROGRAM, "testr", "run", "--parallel", "--concurrency=8"], cwd=folder,
                          stdout=subprocess.DEVNULL, stderr=subprocess.DEVNULL) as child:
        wait_until(lambda: os.path.exists(os.path.join(folder, ".testr-ids.7")), "the eighth worker is not started")
        time.sleep(0.2)
        child.kill()
    end_sleepers(folder)
    names = [f".testr-ids.{number}" for number in range(8)]
    check([name for name in names if os.path.exists(os.path.join(folder, name))] == names, "the killed run left none")
    others = [".testr-ids.08", ".testr-ids.64", ".testr-ids.x", ".testr-ids."]
    for name in others:
        write(folder, name, b"mine")
    os.mkdir(os.path.join(folder, ".testr-ids.9"))
    os.symlink("worker", os.path.join(folder, ".testr-ids.10"))
    for number in range(8):
        os.remove(os.path.join(folder, f"workers/{number}"))
    # A listing holds no lock, and removes none.
    check(run(folder, "list-tests")[0] == 0 and os.path.exists(os.path.join(folder, ".testr-ids.7")), "a listing removes some")
    write(folder, ".testr.conf", b"[DEFAULT]\ntest_command=cat packets/t00000\n")
    check_answer(run(folder, "run"), 0, report([], 1, 0), "the next run")
    left = sorted(name for name in os.listdir(folder) if name.startswith(".testr-ids"))
    check(left == sorted([*others, ".testr-ids.9", ".testr-ids.10"]), f"{left} are left")


@case
def a_run_that_is_refused_removes_no_file_of_ids():
    """They are those of a run that is at work."""
    folder = many(2, worker=EACH)
    for number in range(2):
        write(folder, f"workers/{number}", b"until [ -e go ]; do sleep 0.01; done; while read -r id; do cat packets/$id; done < $1\n")
    words = ["run", "--parallel", "--concurrency=2"]
    with subprocess.Popen([PROGRAM, "testr", *words], cwd=folder, stdout=subprocess.PIPE, stderr=subprocess.PIPE) as first:
        wait_until(lambda: os.path.exists(os.path.join(folder, ".testr-ids.1")), "the second worker is not started")
        time.sleep(0.2)
        check(run(folder, *words)[0] == 4, "a second run is let in")
        write(folder, "go", b"")
        out, err = first.communicate(timeout=LIMIT)
    check((first.returncode, out, err) == (0, report([], 2, 0), b""), f"{first.returncode}, {out}, {err}")
    check_clean(folder)


def is_there(number):
    return os.path.exists(f"/proc/{number}")


def sleepers(folder):
    """The processes that go on in the folder."""
    found = []
    for number in filter(str.isdigit, os.listdir("/proc")):
        try:
            if os.path.samefile(f"/proc/{number}/cwd", folder):
                found.append(int(number))
        except OSError:
            continue
    return found


def end_sleepers(folder):
    for number in sleepers(folder):
        os.kill(number, signal.SIGKILL)
    wait_until(lambda: not sleepers(folder), "a worker goes on")


@case
def workers_end_with_a_killed_program():
    """Where their command asks the system for it, as USING says."""
    need(shutil.which("setpriv"), "want of setpriv")
    folder = many(2, worker=EACH)
    write(folder, ".testr.conf", EXEC.replace(b"exec ./worker", b"exec setpriv --pdeathsig KILL ./worker"))
    for number in range(2):
        write(folder, f"workers/{number}", b"echo $$ > told/%d; exec sleep 600\n" % number)
    with subprocess.Popen([PROGRAM, "testr", "run", "--parallel", "--concurrency=2"], cwd=folder,
                          stdout=subprocess.DEVNULL, stderr=subprocess.DEVNULL) as child:
        wait_until(lambda: len(os.listdir(os.path.join(folder, "told"))) == 2, "the workers are not started")
        time.sleep(0.2)
        check(len(sleepers(folder)) == 3, f"{sleepers(folder)} are at work")
        child.kill()
    wait_until(lambda: not sleepers(folder), "a worker goes on behind the program's end")
    check(run(folder, "stats")[1] == b"runs=0\n", "a run is there")


@case
def a_start_that_fails_leaves_no_worker():
    """The file of ids of the second worker has a name that a folder has. The first worker is ended, and its file goes."""
    folder = many(2, worker=EACH)
    write(folder, ".testr.conf", EXEC)
    write(folder, "workers/0", b"exec sleep 600\n")
    os.makedirs(os.path.join(folder, ".testr-ids.1/kept"))
    status, out, err = run(folder, "run", "--parallel", "--concurrency=2")
    check((status, out) == (4, b""), f"{status}, {out}, {err}")
    check_no_worker(folder)
    check(run(folder, "stats")[1] == b"runs=0\n", "a run is there")
    shutil.rmtree(os.path.join(folder, ".testr-ids.1"))
    check_clean(folder)


@case
def the_program_is_killed_at_random_moments():
    folder = many(400, worker=NOTES.replace("cp ", "echo $$ >> begun\ncp "))
    check(run(folder, "run", "--parallel", "--concurrency=4")[0] == 0, "the first run fails")
    start = time.monotonic()
    check(run(folder, "run", "--parallel", "--concurrency=4")[0] == 0, "the second run fails")
    whole = time.monotonic() - start
    kept_runs = [bytes_of(folder, "0"), bytes_of(folder, "1")]
    chance = random.Random(3)
    killed = ended = 0
    while killed < KILLS:
        check(ended <= 3 * KILLS, "it ends too often before its kill")
        open(os.path.join(folder, "begun"), "w").close()
        child = subprocess.Popen([PROGRAM, "testr", "run", "--parallel", "--concurrency=4"], cwd=folder,
                                 stdout=subprocess.DEVNULL, stderr=subprocess.DEVNULL)
        time.sleep(chance.uniform(0, 1.1 * whole))
        child.kill()
        if child.wait(LIMIT) == -signal.SIGKILL:
            killed += 1
        else:
            ended += 1
        # The workers find that nobody reads them, or have printed all.
        until = time.monotonic() + LIMIT
        with open(os.path.join(folder, "begun")) as file:
            workers = [int(line) for line in file.read().split()]
        while any(map(is_there, workers)) and time.monotonic() < until:
            time.sleep(0.01)
        check(not any(map(is_there, workers)), "a worker goes on behind the program's end")
        # One that was just being started holds the lock until it has become its own program.
        said = run(folder, "stats")
        while said[0] == 4 and time.monotonic() < until:
            time.sleep(0.01)
            said = run(folder, "stats")
        count = int(said[1].split(b"=")[1])
        check(len(kept_runs) <= count <= len(kept_runs) + 1, f"there are {count} runs after {len(kept_runs)}")
        for number, bytes in enumerate(kept_runs):
            check(bytes_of(folder, str(number)) == bytes, f"run {number} has changed")
        if count > len(kept_runs):
            new = bytes_of(folder, str(count - 1))
            check(sum(routes(new).values()) == 400, "the new run is there in part")
            kept_runs.append(new)
    print(f"         {killed} kills, {ended} runs that ended before, {len(kept_runs)} runs", flush=True)
    told(folder)
    check(run(folder, "run", "--parallel", "--concurrency=4")[0] == 0, "the last run fails")
    check_clean(folder)


main("workers", *sys.argv[3:])
PYTHON
