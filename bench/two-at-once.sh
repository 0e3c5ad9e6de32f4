#!/bin/sh
# Tries two programs, and then many, at once on one repository: all but one are refused, and nothing is lost.
# usage: bench/two-at-once.sh [ROUNDS]: by default 20 rounds.
set -eu

root=$(CDPATH='' cd -- "$(dirname -- "$0")/.." && pwd -P)
. "$root/bench/prepare.sh"

PYTHONDONTWRITEBYTECODE=1 PYTHONPATH=$root/bench \
    python3 - "$program" "$work" "${1:-20}" <<'PYTHON'
import os
import subprocess
import sys

import caches
import streams

LIMIT, AT_ONCE = 120, 8
FORMAT = b"subunit-store 1\n"
REFUSED, INIT_REFUSED = ((4, b"", b"testr: fault of the repository folder\n"
                          b"testr: cause: lock .testrepository/%s: another testr is at work in this repository;"
                          b" try again when it has ended\n" % name) for name in (b"writer", b"lock"))


def stream(count):
    return b"".join(streams.small(count))


def start(program, folder, word):
    pipe = subprocess.PIPE
    return subprocess.Popen([program, "testr", word], cwd=folder, stdin=pipe, stdout=pipe, stderr=pipe)


def run(program, folder, word, given=b""):
    child = start(program, folder, word)
    out, err = child.communicate(given, LIMIT)
    return child.returncode, out, err


def check(holds, text):
    if not holds:
        sys.exit(f"two-at-once: {text}")


def check_files(folder, sizes):
    """The runs have so many events, each run every byte."""
    home = os.path.join(folder, ".testrepository")
    wanted = {str(place): b"".join(streams.small(count, b"0")) for place, count in enumerate(sizes)}
    wanted["format"] = FORMAT
    names = set(os.listdir(home)) - {"lock", "writer", "draft", *caches.NAMES}
    check(names == set(wanted), f"the files are {sorted(names)}")
    for name, bytes in wanted.items():
        with open(os.path.join(home, name), "rb") as file:
            check(file.read() == bytes, f"{name} is damaged")
    said = caches.Said()
    for place in range(len(sizes)):
        said.take(wanted[str(place)])
    # Some programs put no caches.
    check(caches.found(folder) in ({}, said.caches()), "the caches are wrong")


def one_waits(program, folder):
    """A load has read a part of its input, more than a pipe holds, and waits for the rest. Meanwhile all others that write
    are refused, and a question is answered."""
    check(run(program, folder, "init")[0] == 0, "init failed")
    check(run(program, folder, "load", stream(2))[0] == 0, "the first load failed")
    slow, given = start(program, folder, "load"), stream(8000)
    slow.stdin.write(given[:500_001])
    slow.stdin.flush()
    check(run(program, folder, "load", stream(4)) == REFUSED, "a second load was not refused")
    check(run(program, folder, "init") == INIT_REFUSED, "a second init was not refused")
    check(run(program, folder, "stats") == (0, b"runs=1\n", b""), "a question was refused")
    out, _ = slow.communicate(given[500_001:], LIMIT)
    check(slow.returncode <= 1 and b"id=1" in out, "the slow load failed")
    check(run(program, folder, "load", stream(6))[0] == 0, "the last load failed")
    check_files(folder, [2, 8000, 6])


def all_hurry(program, folder):
    """Many make the repository at once, and then many load into it. How many loads were kept."""
    children = [start(program, folder, "init") for _ in range(AT_ONCE)]
    ends = [child.communicate(timeout=LIMIT) and child.returncode for child in children]
    check(ends.count(0) == 1 and set(ends) <= {0, 3, 4}, f"the statuses of init are {ends}")
    check_files(folder, [])
    children = [(start(program, folder, "load"), 2 * place + 2) for place in range(AT_ONCE)]
    kept = {}
    for child, count in children:
        try:
            child.stdin.write(stream(count))
            child.stdin.close()
        except BrokenPipeError:
            pass
    for child, count in children:
        out, err = child.stdout.read(), child.stderr.read()
        if child.wait(LIMIT) == 4:
            check((4, out, err) == REFUSED, "a refusal is not the lock's")
        else:
            check(child.returncode <= 1, f"a load ended with {child.returncode}")
            kept[int(out.rsplit(b"id=", 1)[1].split(b",")[0].rstrip(b")\n"))] = count
    check(sorted(kept) == list(range(len(kept))) and kept, "two loads were told one number")
    check_files(folder, [kept[place] for place in sorted(kept)])
    return len(kept)


def main(program, work, rounds):
    rounds, kept = min(int(rounds), 1000), 0
    for place in range(rounds):
        for kind in ("wait", "hurry"):
            os.mkdir(os.path.join(work, f"{kind}-{place}"))
        one_waits(program, os.path.join(work, f"wait-{place}"))
        kept += all_hurry(program, os.path.join(work, f"hurry-{place}"))
    print(f"{rounds} rounds: {2 * rounds} commands refused while a slow load waited;"
          f" of {AT_ONCE * rounds} loads at once {kept} were kept, all others refused; nothing lost")


main(*sys.argv[1:])
PYTHON
