#!/bin/sh
# How long each filter takes, and how much memory, on streams and on lines of TAP: small events, events with tags and
# routes, texts, log lines between events, events of 64 routes in turn, and heads of packets that are none; lines of TAP,
# the same with blocks of comment lines, and one line of 8,000,000 bytes. `subunit-1to2` reads what `subunit-2to1` writes of
# each stream.
# usage: bench/filters.sh [RUNS [PERCENT [WORD..]]]: by default each filter is run 3 times on each input with each list of
# options, at most 20, and the input has 100 percent of its size, at most 1000. A word is the name of an input or of a filter, and only these are measured.
# Where the variable YARDSTICK names another program with these filters, called as `YARDSTICK subunit-ls`, it is measured in
# turn with ours, and what both write is compared. It reads no patterns, but plain text.
# Where the variable STREAMS names a folder, its files are measured in place of the inputs that are made; a folder in it
# is one input, its files one behind another. A name that ends in `.tap` is one of TAP.
set -eu

root=$(CDPATH='' cd -- "$(dirname -- "$0")/.." && pwd -P)
. "$root/bench/prepare.sh"

PYTHONDONTWRITEBYTECODE=1 PYTHONPATH=$root/bench YARDSTICK=${YARDSTICK:-} STREAMS=${STREAMS:-} \
    python3 - "$program" "$work" "$@" <<'PYTHON'
import filecmp
import os
import resource
import shutil
import subprocess
import sys

import streams

SIZES = {"small": 1_000_000, "tagged": 1_000_000, "texts": 50_000, "logs": 1_000_000, "lanes": 640_000, "sums": 8_000_000,
         "tags": 8_000_000, "ids": 8_000_000, "tap": 1_000_000, "blocks": 1_000_000, "line": 8_000_000}
OF_TAP = ("tap", "blocks", "line")
# Each filter with the lists of options that it is measured with.
FILTERS = {
    "subunit-stats": [[]],
    "subunit-ls": [["--times"]],
    "subunit-filter": [["--success", "--with-id=parser"], ["--success"], []],
    "subunit-tags": [["added", "-removed"]],
    "subunit2tap": [[]],
    "subunit-trace": [[], ["--live=dots"], ["--live=failures", "--no-summary"]],
    "subunit2csv": [[]],
    "subunit2junitxml": [[]],
    "subunit-2to1": [[]],
}
FROM_TAP = {"tap2subunit": [[]]}
# The reader of version 1, and the filter that writes its input.
READER, WRITER = "subunit-1to2", "subunit-2to1"
LIMIT = 600
TIME = "/usr/bin/time"


def number(word, most):
    if not word.isdigit() or not 1 <= int(word) <= most:
        sys.exit(f"filters: {word} is no number from 1 to {most}")
    return int(word)


def is_there(path, name):
    """Whether the program has this filter: one that has not answers wrong usage."""
    return subprocess.run([path, name], stdin=subprocess.DEVNULL, capture_output=True, timeout=LIMIT).returncode <= 1


def run(words, given, taken):
    """Seconds of user and of system time, and the exit status."""
    before = resource.getrusage(resource.RUSAGE_CHILDREN)
    with open(given, "rb") as source, open(taken, "wb") as sink:
        status = subprocess.run(words, stdin=source, stdout=sink, timeout=LIMIT).returncode
    after = resource.getrusage(resource.RUSAGE_CHILDREN)
    return after.ru_utime - before.ru_utime, after.ru_stime - before.ru_stime, status


def memory_of(words, given, work):
    """The most memory that the program had at a time, in KiB."""
    if not os.access(TIME, os.X_OK):
        return "unknown"
    said = os.path.join(work, "memory")
    run([TIME, "-f", "%M", "-o", said, *words], given, os.devnull)
    with open(said) as file:
        return file.read().split()[-1]


class Measured:
    """One program as one filter on one input."""

    def __init__(self, name, path, words, work):
        self.name, self.words, self.times = name, [path, *words], []
        self.taken = os.path.join(work, f"taken-{name}")

    def measure(self, given):
        user, system, self.status = run(self.words, given, self.taken)
        self.times.append((user + system, user, system))

    def tell(self, kind, given, work):
        both, user, system = sorted(self.times)[len(self.times) // 2]
        memory = memory_of(self.words, given, work)
        speed = os.path.getsize(given) / max(both, 1e-6) / 1e6
        name = os.path.basename(self.words[1])
        print(f"{kind:8} {name:14} {self.name:9} {speed:8.1f} {user:8.3f} {system:8.3f} {both:8.3f} {memory:>9} {self.status:6}",
              flush=True)
        return both


def measure(kind, given, name, words, runs, programs, work):
    both = [Measured(called, path, [name, *words], work) for called, path in programs if is_there(path, name)]
    if not both or both[0].name != "ours":
        print(f"{kind:8} {name:14} left out: the program has no such filter yet", flush=True)
        return
    for _ in range(runs):
        for one in both:
            one.measure(given)
    times = [one.tell(kind, given, work) for one in both]
    if len(both) == 2:
        same = filecmp.cmp(both[0].taken, both[1].taken, False) and both[0].status == both[1].status
        told = "the same written" if same else "OTHER BYTES written, or another status"
        asked = " ".join([name, *words])
        print(f"{kind:8} {asked}: {times[0] / max(times[1], 1e-6):.2f} times the yardstick; {told}", flush=True)
    for one in both:
        os.remove(one.taken)


def made(work, percent, wanted):
    """Each input in turn: its name, its file, and whether it is one of TAP."""
    for kind, path in streams.made(SIZES, work, percent, wanted):
        yield kind, path, kind in OF_TAP


def main(program, work, runs="3", percent="100", *words):
    runs, percent, folder = number(runs, 20), number(percent, 1000), os.environ["STREAMS"]
    kinds = list(SIZES) if not folder else os.listdir(folder)
    known = {*kinds, *FILTERS, *FROM_TAP, READER}
    if not known.issuperset(words):
        sys.exit(f"filters: the words are {', '.join(sorted(known))}")
    programs = [("ours", program)]
    if os.environ["YARDSTICK"]:
        programs.append(("yardstick", os.path.abspath(os.environ["YARDSTICK"])))
    wanted = [word for word in words if word in kinds]
    asked = [word for word in words if word not in kinds]
    print("input    filter         program       MB/s     user   system     both  peak KiB status")
    for kind, path, is_tap in streams.found(folder, work, wanted) if folder else made(work, percent, wanted):
        for name, lists in (FROM_TAP if is_tap else FILTERS).items():
            if not asked or name in asked:
                for options in lists:
                    measure(kind, path, name, options, runs, programs, work)
        if not is_tap and (not asked or READER in asked) and is_there(program, WRITER):
            lines = os.path.join(work, "lines")
            run([program, WRITER], path, lines)
            measure(kind, lines, READER, [], runs, programs, work)
            os.remove(lines)


main(*sys.argv[1:])
PYTHON
