#!/bin/sh
# How long `testr run` takes beside what it is made of: one worker that prints a stream beside `testr load` of the stream;
# four workers that print a quarter each, side by side, beside that load and beside a `cat` of the four; 100,000 listed
# tests shared among 64 workers; how even the shares of 10,000 tests with known times are; `failing` and `load` where there
# are 100 and 10,000 small runs, with the caches and without; and the start to a line of usage.
# usage: bench/runs.sh [RUNS [PERCENT]]: by default each is run 3 times, at most 20, on 100 percent of the size, at most 1000.
# Times are in milliseconds: user and system time, of the workers too, and by the clock.
set -eu

root=$(CDPATH='' cd -- "$(dirname -- "$0")/.." && pwd -P)
. "$root/bench/prepare.sh"

PYTHONDONTWRITEBYTECODE=1 PYTHONPATH=$root/bench python3 - "$program" "$work" "${1:-3}" "${2:-100}" <<'PYTHON'
import os
import random
import resource
import shutil
import struct
import subprocess
import sys
import time

import streams
from caches import Said, found, remove

PROGRAM, WORK = sys.argv[1:3]
EVENTS, LISTED, TIMED = 1_000_000, 100_000, 10_000
# How many runs there are beside the caches, and how many tests ran in each.
SMALL_RUNS, STEPS = (100, 10_000), 10
EXISTS, IN_PROGRESS, SUCCESS = 1, 2, 3
LIMIT = 600
OF_TEST = streams.ID | streams.RUNNABLE
LISTED_CONF = """[DEFAULT]
test_command=%s $LISTOPT $IDOPTION
test_list_option=--list
test_id_option=--ids $IDFILE
"""


def number(word, most):
    if not word.isdigit() or not 1 <= int(word) <= most:
        sys.exit(f"runs: {word} is no number from 1 to {most}")
    return int(word)


RUNS, PERCENT = number(sys.argv[3], 20), number(sys.argv[4], 1000)


def write(folder, name, bytes, mode=0o644):
    path = os.path.join(folder, name)
    with open(path, "wb") as file:
        file.write(bytes)
    os.chmod(path, mode)


def project(conf):
    folder = os.path.join(WORK, "project")
    shutil.rmtree(folder, ignore_errors=True)
    os.mkdir(folder)
    write(folder, ".testr.conf", conf.encode())
    subprocess.run([PROGRAM, "testr", "init"], cwd=folder, check=True, timeout=LIMIT)
    return folder


def spent(words, folder, given=None):
    """The user and system time, and the time by the clock, in milliseconds; and the output."""
    before, start = resource.getrusage(resource.RUSAGE_CHILDREN), time.monotonic()
    with open(given or os.devnull, "rb") as source:
        done = subprocess.run(words, cwd=folder, stdin=source, stdout=subprocess.PIPE, timeout=LIMIT)
    clock, after = time.monotonic() - start, resource.getrusage(resource.RUSAGE_CHILDREN)
    if done.returncode > 1:
        sys.exit(f"runs: {' '.join(words)} answers {done.returncode}")
    return (1000 * (after.ru_utime - before.ru_utime + after.ru_stime - before.ru_stime), 1000 * clock, done.stdout)


def best(make):
    """The least times of some runs, each in a new project."""
    found = [make() for _ in range(RUNS)]
    return min(spent for spent, _, _ in found), min(clock for _, clock, _ in found), found[-1][2]


def tell(name, times):
    print(f"{name:44} {times[0]:8.0f} ms spent {times[1]:8.0f} ms by the clock", flush=True)


def streams_beside():
    whole = os.path.join(WORK, "whole")
    parts = [os.path.join(WORK, f"part-{lane}") for lane in range(4)]
    events = EVENTS * PERCENT // 100 // 8 * 8
    packets = list(streams.small(events))
    for lane, path in enumerate(parts):
        with open(path, "wb") as file:
            file.writelines(packets[lane * events // 4:(lane + 1) * events // 4])
    with open(whole, "wb") as file:
        file.writelines(packets)
    print(f"a stream of {os.path.getsize(whole)} bytes, {events} events")
    load = best(lambda: spent([PROGRAM, "testr", "load"], project(""), whole))
    tell("load", load)
    one = best(lambda: spent([PROGRAM, "testr", "run"], project(f"[DEFAULT]\ntest_command=exec cat {whole}\n")))
    tell("run of one worker", one)
    lanes = " ".join(f"{path}" for path in parts)
    tell("cat of four, through sh", best(lambda: spent(["sh", "-c", f"cat {lanes} >/dev/null"], WORK)))
    # The worker of each number prints that part: the last part of the name of its file of ids is its number.
    script = f"#!/bin/sh\n[ \"${{1-}}\" != --list ] || exec cat {WORK}/listing\nexec cat {WORK}/part-${{2##*.}}\n"
    write(WORK, "of-four", script.encode(), 0o755)
    with open(os.path.join(WORK, "listing"), "wb") as file:
        file.writelines(streams.event(OF_TEST | EXISTS, streams.text(b"t%d" % place)) for place in range(4))
    four = best(lambda: spent([PROGRAM, "testr", "run", "--parallel", "--concurrency=4"],
                              project(LISTED_CONF % f"{WORK}/of-four")))
    tell("run of four workers, side by side", four)
    for name, found in (("one", one), ("four", four)):
        print(f"run of {name} beside load: {found[0] / load[0]:.2f} times the time spent, "
              f"{found[1] / load[1]:.2f} by the clock")
    if not load[2] == one[2]:
        sys.exit("runs: the reports of load and run differ")


def many_listed():
    count = LISTED * PERCENT // 100
    with open(os.path.join(WORK, "listing"), "wb") as file:
        file.writelines(streams.event(OF_TEST | EXISTS, streams.text(streams.test_id(place))) for place in range(count))
    # All that a worker prints is made before.
    packets = [streams.event(OF_TEST | SUCCESS, streams.text(streams.test_id(place))) for place in range(count)]
    for lane in range(64):
        with open(os.path.join(WORK, f"part-{lane}"), "wb") as file:
            file.writelines(packets[lane::64])
    list_tests = best(lambda: spent([PROGRAM, "testr", "list-tests"], project(LISTED_CONF % f"{WORK}/of-four")))
    tell(f"list-tests of {count}", list_tests)
    shared = best(lambda: spent([PROGRAM, "testr", "run", "--parallel", "--concurrency=64"],
                                project(LISTED_CONF % f"{WORK}/of-four")))
    tell(f"run of {count} listed, by 64 workers", shared)


def shares():
    chance = random.Random(11)
    took = [int(chance.expovariate(1 / 200)) + 1 for _ in range(TIMED)]
    packets = []
    for place, milliseconds in enumerate(took):
        name = streams.text(streams.test_id(place))
        seconds, rest = divmod(milliseconds, 1000)
        for status, moment, part in ((IN_PROGRESS, 0, 0), (SUCCESS, seconds, rest * 1_000_000)):
            stamp = struct.pack(">I", 1_700_000_000 + moment) + streams.number(part)
            packets.append(streams.event(streams.TIME | OF_TEST | status, stamp + name))
    write(WORK, "known", b"".join(packets))
    with open(os.path.join(WORK, "listing"), "wb") as file:
        file.writelines(streams.event(OF_TEST | EXISTS, streams.text(streams.test_id(place))) for place in range(TIMED))
    script = f"#!/bin/sh\n[ \"${{1-}}\" != --list ] || exec cat {WORK}/listing\ncp \"$2\" {WORK}/told-${{2##*.}}\n"
    write(WORK, "telling", script.encode(), 0o755)
    folder = project(LISTED_CONF % f"{WORK}/telling")
    spent([PROGRAM, "testr", "load"], folder, os.path.join(WORK, "known"))
    for workers in (4, 16, 64):
        spent([PROGRAM, "testr", "run", "--parallel", f"--concurrency={workers}"], folder)
        found = []
        for lane in range(workers):
            with open(os.path.join(WORK, f"told-{lane}"), "rb") as file:
                found.append(sum(took[int(line.rsplit(b"_", 1)[1])] for line in file.read().splitlines()))
        print(f"{TIMED} tests with known times, {workers} workers: the longest share {max(found)} ms, "
              f"the total divided by the workers {sum(took) / workers:.0f} ms")


def small_run(number):
    """What is kept of some tests, most of which ran before. Each takes a second or less, and now and then one fails."""
    kept = []
    for place in range(STEPS):
        test = (number * 7 + place) % 500
        status = streams.FAIL if (number + place) % 37 == 0 else SUCCESS
        for moment, ended in ((2 * place, IN_PROGRESS), (2 * place + number % 50, status)):
            body = streams.time(moment) + streams.text(streams.test_id(test))
            kept.append(streams.event(streams.TIME | OF_TEST | ended, body, b"0"))
    return b"".join(kept)


def beside_caches(count):
    """The first run is full and all others are partial, so that without a cache each of them is read."""
    folder, said = project(""), Said()
    for number in range(count):
        kept = small_run(number)
        write(os.path.join(folder, ".testrepository"), f"{number}.part" if number else "0", kept)
        said.take(kept, number > 0)
    given = os.path.join(WORK, "small-run")
    write(WORK, "small-run", small_run(count))
    failing, load = ([PROGRAM, "testr", *words] for words in (["failing", "--list"], ["load", "--partial"]))
    asked = best(lambda: spent(failing, folder))
    if asked[2] != said.listed()[1]:
        sys.exit("runs: failing is wrong")
    tell(f"failing of {count} small runs, without caches", asked)

    def anew():
        remove(folder)
        return spent(load, folder, given)

    tell("load beside them, without caches", best(anew))
    if not found(folder):
        print("the program puts no caches yet")
        return
    tell(f"failing of {count} small runs, with caches", best(lambda: spent(failing, folder)))
    tell("load beside them, with caches", best(lambda: spent(load, folder, given)))


streams_beside()
many_listed()
shares()
for runs in SMALL_RUNS:
    beside_caches(max(1, runs * PERCENT // 100))
tell("a line of usage", best(lambda: spent(["sh", "-c", f'"{PROGRAM}" testr 2>/dev/null || true'], WORK)))
PYTHON
