#!/bin/sh
# Looks by `strace` in which order `init` and `load` make, write, sync and name their files. Where there is no `strace`, it
# says so and does nothing.
# usage: bench/syncs.sh
set -eu

root=$(CDPATH='' cd -- "$(dirname -- "$0")/.." && pwd -P)
if ! command -v strace >/dev/null; then
    echo 'syncs: skipped, for want of strace'
    exit 0
fi
. "$root/bench/prepare.sh"

PYTHONDONTWRITEBYTECODE=1 PYTHONPATH=$root/bench python3 - "$program" "$work" <<'PYTHON'
import os
import re
import subprocess
import sys

import caches
import streams

LIMIT = 120
CALLS = "mkdir,mkdirat,openat,write,pwrite64,fsync,fdatasync,link,linkat,rename,renameat,renameat2,unlink,unlinkat,flock"
LINE = re.compile(r"(\w+)\((.*)\) += (-?\d+)")
PATH = re.compile(r'"([^"]*)"|\d+<([^>]*)>')

# What must be brought to the disk before what: a file before it gets its name, and the name before the program ends. The
# folder that the repository stands in is brought there, too, since the repository is a name in it.
INIT = ["mkdir .testrepository", "make lock", "flock lock", "make draft", "write draft", "sync draft",
        "link draft format", "unlink draft", "sync .testrepository", "sync ."]
LOAD = ["flock lock", "sync .testrepository", "sync .", "make draft", "write draft", "sync draft",
        "link draft NUMBER", "unlink draft", "sync .testrepository"]
CACHE = ["make draft", "write draft", "sync draft", "rename draft NAME", "sync .testrepository"]
ASK = ["share lock", "sync .testrepository", "sync .", "write output"]


def short(path, folder):
    path = os.path.relpath(os.path.join(folder, path), folder) if not path.startswith("pipe:") else "output"
    return path.removeprefix(".testrepository/")


def step(line, folder):
    """What a line of the trace says that was done: nothing where the call failed, or was none of interest."""
    match = LINE.match(line)
    if not match or match[3].startswith("-"):
        return None
    call, words = match[1].removesuffix("at").replace("renameat2", "rename"), match[2]
    names = [short(given or held, folder) for given, held in PATH.findall(words) if (given or held) != "AT_FDCWD"]
    names = [name for name in names if name != "." or call in ("fsync", "fdatasync")]
    if call == "open":
        return f"make {names[-1]}" if "O_CREAT" in words or "O_TRUNC" in words else None
    if call in ("fsync", "fdatasync"):
        return f"sync {names[0]}"
    if call in ("write", "pwrite64"):
        return f"write {names[0]}"
    if call == "flock" and "LOCK_SH" in words:
        return f"share {names[0]}"
    return f"{call} {' '.join(names)}"


def steps_of(program, folder, words, given=b""):
    """The steps of the program on these words. One write behind another to the same file is one step."""
    trace = folder + ".trace"
    before = ["strace", "-y", "-o", trace, "-e", f"trace={CALLS}"]
    done = subprocess.run([*before, program, "testr", *words], cwd=folder, input=given, capture_output=True, timeout=LIMIT)
    if done.returncode > 1:
        sys.exit(f"syncs: {' '.join(words)} answers {done.returncode}: {done.stderr.decode()}")
    steps = []
    with open(trace) as file:
        for line in file:
            now = step(line, folder)
            if now and not (now.startswith("write ") and steps[-1:] == [now]):
                steps.append(now)
    return steps


def compare(found, wanted, text):
    if found != wanted:
        sys.exit(f"syncs: {text} does\n  " + "\n  ".join(found) + "\nand must do\n  " + "\n  ".join(wanted))


def main(program, work):
    folder = os.path.join(os.path.realpath(work), "traced")
    os.mkdir(folder)
    compare(steps_of(program, folder, ["init"]), INIT, "init")
    for words, count, name in ((["load"], 2, "0"), (["load"], 4000, "1"), (["load", "--partial"], 2, "2.part")):
        found = steps_of(program, folder, words, b"".join(streams.small(count)))
        wanted = [step.replace("NUMBER", name) for step in LOAD]
        # Some programs put no caches.
        for cache in caches.found(folder):
            wanted += [step.replace("NAME", cache) for step in CACHE]
        compare(found, [*wanted, "write output"], " ".join(words))
    for words in (["last"], ["failing"], ["stats"]):
        compare(steps_of(program, folder, words), ASK, " ".join(words))
    print("syncs: init, load and the questions make, write, sync and name their files in the right order")


main(*sys.argv[1:])
PYTHON
