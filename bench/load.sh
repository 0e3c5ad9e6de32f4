#!/bin/sh
# How long `testr load` takes, and how much memory, on streams: small events, events with tags and routes, texts, log lines
# between events, events of 64 routes in turn, and heads of packets that nest in one another and are none, of which the
# checksum alone tells, or that have many tags.
# usage: bench/load.sh [RUNS [PERCENT [KIND..]]]: by default each stream is loaded 3 times, at most 20, and has 100
# percent of its size, at most 1000.
# Where the variable YARDSTICK names another program that keeps runs in the same way by `YARDSTICK testr load`, it is
# measured in turn with ours, and what both keep and print is compared.
# Where the variable STREAMS names a folder, its files are measured in place of the streams that are made; a folder in it
# is one stream, its files one behind another.
set -eu

root=$(CDPATH='' cd -- "$(dirname -- "$0")/.." && pwd -P)
. "$root/bench/prepare.sh"

PYTHONDONTWRITEBYTECODE=1 PYTHONPATH=$root/bench YARDSTICK=${YARDSTICK:-} STREAMS=${STREAMS:-} \
    python3 - "$program" "$work" "$@" <<'PYTHON'
import filecmp
import os
import resource
import shutil
import subprocess
import sys

import streams

SIZES = {"small": 1_000_000, "tagged": 1_000_000, "texts": 50_000, "logs": 1_000_000, "lanes": 640_000, "sums": 8_000_000,
         "tags": 8_000_000}
LIMIT = 600
TIME = "/usr/bin/time"


def number(word, most):
    if not word.isdigit() or not 1 <= int(word) <= most:
        sys.exit(f"load: {word} is no number from 1 to {most}")
    return int(word)


def load(words, folder, stream):
    """Loads the stream into a new repository: seconds of user and of system time, the exit status, and the output."""
    shutil.copytree(os.path.join(os.path.dirname(folder), "made"), folder)
    before = resource.getrusage(resource.RUSAGE_CHILDREN)
    with open(stream, "rb") as given:
        done = subprocess.run(words, stdin=given, cwd=folder, stdout=subprocess.PIPE, timeout=LIMIT)
    after = resource.getrusage(resource.RUSAGE_CHILDREN)
    return after.ru_utime - before.ru_utime, after.ru_stime - before.ru_stime, done.returncode, done.stdout


def memory_of(words, folder, stream):
    """The most memory that the program had at a time, in KiB."""
    if not os.access(TIME, os.X_OK):
        return "unknown"
    said = folder + ".memory"
    load([TIME, "-f", "%M", "-o", said, *words], folder, stream)
    shutil.rmtree(folder)
    with open(said) as file:
        return file.read().split()[-1]


class Measured:
    """One program on one stream."""

    def __init__(self, name, path, folder):
        self.name, self.words, self.folder, self.times = name, [path, "testr", "load"], folder, []

    def measure(self, stream):
        shutil.rmtree(self.folder, ignore_errors=True)
        user, system, self.status, self.out = load(self.words, self.folder, stream)
        self.times.append((user + system, user, system))

    def kept(self):
        return os.path.join(self.folder, ".testrepository", "0")

    def tell(self, kind, size, stream):
        both, user, system = sorted(self.times)[len(self.times) // 2]
        memory = memory_of(self.words, self.folder + "-memory", stream)
        speed = f"{size / max(both, 1e-6) / 1e6:9.1f} {user:8.3f} {system:8.3f} {both:8.3f}"
        print(f"{kind:6} {self.name:9} {speed} {memory:>10} {self.status:6}", flush=True)
        return both


def measure(kind, stream, runs, programs, work):
    both = [Measured(name, path, os.path.join(work, f"{kind}-{name}")) for name, path in programs]
    for _ in range(runs):
        for one in both:
            one.measure(stream)
    times = [one.tell(kind, os.path.getsize(stream), stream) for one in both]
    if len(both) == 2:
        same = filecmp.cmp(both[0].kept(), both[1].kept(), False) and both[0].out == both[1].out
        told = "the same kept and printed" if same else "OTHER BYTES kept or printed"
        print(f"{kind:6} {times[0] / max(times[1], 1e-6):.2f} times the yardstick; {told}", flush=True)
    for one in both:
        shutil.rmtree(one.folder)


def found(folder, work, wanted):
    """Each stream in the folder in turn: its name and its file."""
    for kind, path, is_tap in streams.found(folder, work, wanted):
        if not is_tap:
            yield kind, path


def main(program, work, runs="3", percent="100", *wanted):
    runs, percent, folder = number(runs, 20), number(percent, 1000), os.environ["STREAMS"]
    kinds = list(SIZES) if not folder else os.listdir(folder)
    if not set(kinds).issuperset(wanted):
        sys.exit(f"load: the streams are {', '.join(sorted(kinds))}")
    programs = [("testr", program)]
    if os.environ["YARDSTICK"]:
        programs.append(("yardstick", os.path.abspath(os.environ["YARDSTICK"])))
    made_folder = os.path.join(work, "made")
    os.mkdir(made_folder)
    subprocess.run([program, "testr", "init"], cwd=made_folder, check=True, timeout=LIMIT)
    print("stream program        MB/s     user   system     both  peak KiB  status")
    for kind, stream in found(folder, work, wanted) if folder else streams.made(SIZES, work, percent, wanted):
        measure(kind, stream, runs, programs, work)


main(*sys.argv[1:])
PYTHON
