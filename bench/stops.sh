#!/bin/sh
# Kills `testr load` of a large stream at random moments, and looks what each kill left in the repository: the earlier
# runs byte for byte, the new one wholly or not at all, and caches of some of the first runs. This tries kills, and no
# power cuts. A load that ends before its kill must have kept its run, and is tried again, at most three times as often as
# there are kills. Fewer kills than asked for are a failure. Before that as many small loads are killed, one behind another
# in one repository.
# usage: bench/stops.sh [KILLS [EVENTS [SEED]]]: by default 200 kills of the load of 650000 events, which are 50 MB.
set -eu

root=$(CDPATH='' cd -- "$(dirname -- "$0")/.." && pwd -P)
. "$root/bench/prepare.sh"

PYTHONDONTWRITEBYTECODE=1 PYTHONPATH=$root/bench \
    python3 - "$program" "$work" "${1:-200}" "${2:-650000}" "${3:-1}" <<'PYTHON'
import os
import random
import shutil
import subprocess
import sys
import time

import streams
from caches import NAMES, Home, Said, drawn, found
from cases import Wrong, at

# A load that takes longer, in seconds, is an error, and none is begun once all together have taken longer.
ONE_LOAD, ALL_LOADS = 120, 3600
FORMAT = b"subunit-store 1\n"
KILLED = -9


def stream_of(count):
    return b"".join(streams.small(count))


def recorded(count):
    """What is kept of that stream: each event in its shortest form, under the route 0."""
    return b"".join(streams.small(count, b"0"))


EARLIER, LATER = [recorded(10), recorded(2000)], recorded(4)


def fail(text):
    sys.exit(f"stops: {text}")


def run(program, folder, words, given=b""):
    command = [program, "testr", *words]
    done = subprocess.run(command, cwd=folder, input=given, capture_output=True, timeout=ONE_LOAD)
    return done.returncode, done.stdout, done.stderr


def published(folder):
    """The files of the repository. The draft, the lock and the caches are none."""
    home = os.path.join(folder, ".testrepository")
    return {name: os.path.join(home, name) for name in os.listdir(home) if name not in ("draft", "lock", "writer", *NAMES)}


def holds(path, wanted):
    if os.path.getsize(path) != len(wanted):
        return False
    with open(path, "rb") as file:
        return file.read() == wanted


def make_repository(program, folder):
    """A repository with two runs, made by the program."""
    os.mkdir(folder)
    if run(program, folder, ["init"])[0] != 0:
        fail("init failed")
    for count in (10, 2000):
        if run(program, folder, ["load"], stream_of(count))[0] > 1:
            fail("a load failed")
    files = published(folder)
    if not all(holds(files[str(place)], bytes) for place, bytes in enumerate(EARLIER)):
        fail("the first runs are wrong")


class Load:
    """The load of the large stream."""

    def __init__(self, program, folder, stream):
        home = os.path.join(folder, ".testrepository")
        self.draft, self.run = os.path.join(home, "draft"), os.path.join(home, "2")
        with open(stream, "rb") as given:
            self.child = subprocess.Popen(
                [program, "testr", "load"], cwd=folder, stdin=given,
                stdout=subprocess.DEVNULL, stderr=subprocess.DEVNULL)
        self.start = time.monotonic()

    def wait_for(self, path):
        """Until this file is there, or the program has ended."""
        while self.child.poll() is None and not os.path.exists(path):
            if time.monotonic() - self.start > ONE_LOAD:
                self.kill()
                fail("a load took too long")
            time.sleep(0.0002)

    def wait_at_random(self, kind, chance, whole, tail, rest):
        """Until some moment of the load. Few of them would fall into the short time in which the run is being kept, or
        into that between its publish and the end, in which the caches are put, so these are two kinds of their own."""
        if kind == 0:
            time.sleep(chance.uniform(0, whole))
        elif kind == 1:
            self.wait_for(self.draft)
            time.sleep(chance.uniform(0, tail))
        else:
            self.wait_for(self.run)
            time.sleep(chance.uniform(0, max(0.002, rest)))

    def age(self):
        return time.monotonic() - self.start

    def kill(self):
        """The status of its end, which is that of the kill where the load had not ended before."""
        self.child.kill()
        return self.child.wait()


class Sayings:
    """What the first runs say together, without the large one and with it, and then with the later one too."""

    def __init__(self, large):
        self.moments = {}
        for is_there in (False, True):
            said = Said()
            moments = [(said.caches(), said.listed())]
            for kept in [*EARLIER, *([large] if is_there else []), LATER]:
                said.take(kept)
                moments.append((said.caches(), said.listed()))
            self.moments[is_there] = moments

    def sound(self, folder, is_there):
        """Whether each cache is that of some of the first runs."""
        moments = self.moments[is_there][:-1]
        return all(any(cache == caches[name] for caches, _ in moments) for name, cache in found(folder).items())

    def right(self, folder, is_there):
        """Whether the caches are those of all runs. Some programs put none."""
        return found(folder) in ({}, self.moments[is_there][-1][0])

    def failing(self, is_there):
        return self.moments[is_there][-2][1]


def look(program, folder, large, sayings):
    """What is there after a kill: whether the new run is, and whether anything is damaged. The program opens the
    repository again, tells the failing set and adds a run."""
    files = published(folder)
    is_there = "2" in files
    sound = set(files) == {"format", "0", "1"} | ({"2"} if is_there else set()) and sayings.sound(folder, is_there)
    sound = sound and run(program, folder, ["failing", "--list"])[:2] == sayings.failing(is_there)
    status, out, _ = run(program, folder, ["load"], stream_of(4))
    number = 3 if is_there else 2
    files = published(folder)
    wanted = {"format": FORMAT, "0": EARLIER[0], "1": EARLIER[1], str(number): LATER}
    if is_there:
        wanted["2"] = large
    sound = sound and status <= 1 and b"id=%d" % number in out and set(files) == set(wanted)
    sound = sound and sayings.right(folder, is_there)
    return is_there, sound and all(holds(files[name], bytes) for name, bytes in wanted.items())


def times_of(program, first, work, stream, large, sayings):
    """How long a load takes: whole, behind the first sight of its draft, and behind that of its run."""
    times = []
    for place in range(3):
        folder = os.path.join(work, f"timed-{place}")
        shutil.copytree(first, folder)
        load = Load(program, folder, stream)
        load.wait_for(load.draft)
        begun = load.age()
        load.wait_for(load.run)
        kept = load.age()
        if load.child.wait(ONE_LOAD) > 1 or look(program, folder, large, sayings) != (True, True):
            fail("a load that was not killed is wrong")
        whole = load.age()
        times.append((whole, whole - begun, whole - kept))
        shutil.rmtree(folder)
    return [sorted(kind)[1] for kind in zip(*times)]


def live_on(program, kills, chance):
    """Small loads into one repository, each killed at a random moment. What a kill leaves, the next load goes on from."""
    home = Home(chance.randrange(1000))
    begun = time.monotonic()
    home.load_well()
    whole, killed = time.monotonic() - begun, 0
    for place in range(kills):
        is_partial, (given, kept) = chance.random() < 0.5, drawn(home.chance)
        name, path = home.next_name(is_partial), os.path.join(home.folder, "given")
        with open(path, "wb") as file:
            file.write(given)
        with open(path, "rb") as file:
            words = ["load", "--partial"] if is_partial else ["load"]
            child = subprocess.Popen([program, "testr", *words], cwd=home.folder, stdin=file,
                                     stdout=subprocess.DEVNULL, stderr=subprocess.DEVNULL)
        time.sleep(chance.uniform(0, whole))
        child.kill()
        end, is_there = child.wait(), os.path.exists(at(home.folder, name))
        killed += end == KILLED
        if end != KILLED and not is_there:
            fail(f"a small load ends with {end}, and its run is not there")
        if is_there:
            home.took(kept, is_partial)
        home.check_runs(also=["draft"])
        home.check_sound()
        home.check_failing()
        if place % 10 == 9:
            home.load_well()
    print(f"{kills} small loads: {killed} were killed, {home.said.runs} runs are kept, each whole; the caches and what"
          " `failing` says were right behind each", flush=True)


def main(program, work, kills, events, seed):
    kills, events = min(int(kills), 10_000), min(int(events), 2_000_000)
    chance = random.Random(int(seed))
    stream, first, large = os.path.join(work, "stream"), os.path.join(work, "first"), recorded(events)
    with open(stream, "wb") as file:
        streams.write(file, streams.small(events))
    try:
        live_on(program, kills, chance)
    except Wrong as why:
        fail(why)
    make_repository(program, first)
    sayings = Sayings(large)
    whole, tail, rest = times_of(program, first, work, stream, large, sayings)
    size = os.path.getsize(stream)
    print(f"{size} bytes; a load takes {whole:.2f} s, {tail:.3f} s of it from its draft on, {rest:.3f} s"
          " behind its run", flush=True)
    counts = dict.fromkeys(("ended first", "killed", "before", "after", "damaged", "failed"), 0)
    begun = time.monotonic()
    for place in range(4 * kills):
        if counts["killed"] == kills or time.monotonic() - begun > ALL_LOADS:
            break
        folder = os.path.join(work, "killed")
        shutil.copytree(first, folder)
        load = Load(program, folder, stream)
        load.wait_at_random(place % 3, chance, whole, tail, rest)
        end = load.kill()
        is_there, is_sound = look(program, folder, large, sayings)
        counts["damaged"] += not is_sound
        if end == KILLED:
            counts["killed"] += 1
            counts["after" if is_there else "before"] += 1
        else:
            counts["ended first"] += 1
            counts["failed"] += not (end in (0, 1) and is_there)
        shutil.rmtree(folder)
    print("{killed} kills: {before} before the publish (new run absent), {after} after it (new run whole);"
          " {ended first} loads ended first, {failed} of them failed; {damaged} damaged".format(**counts))
    if counts["killed"] < kills:
        fail(f"{kills} kills were asked for")
    sys.exit(1 if counts["damaged"] or counts["failed"] else 0)


main(*sys.argv[1:])
PYTHON
