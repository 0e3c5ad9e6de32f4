"""Measures what the gate takes, and says which parts and functions are dear.

usage: bench/gate.sh [--rows FILE] [CRATE..]   runs `rt ci --anew`, or `rt ci --anew CRATE..`, and measures it
       bench/gate.sh [--rows FILE] --attach PID   measures an `rt ci` that runs already, from now to its end
       bench/gate.sh [--rows FILE] --rows-of FILE   prints the tables of rows that were kept
       bench/gate.sh --functions CRATE..   checks each crate from nothing, at one job, and times its functions

A part is the proof of a crate, that of its tests, the proof that its edits begin with, one edit, or the making of its program.
The times are of processors, as the system counts them for each process: every half second the processes below `rt` are read
from /proc. What a process takes after it was last read is in the sum that the system keeps for `rt` of its ended children, and is
given to the parts that ended meanwhile. So the whole is exact, and a part is wrong by less than half a second.

--rows FILE writes a line for each part: its crate, its kind, the edit, and its processor seconds, its seconds by the clock, and the
most memory that it held in MB, with a tab between each.
"""
import collections
import copy
import os
import re
import resource
import shutil
import subprocess
import sys
import time

EACH = 0.5
PROCESSORS = len(os.sched_getaffinity(0))
TICKS = os.sysconf("SC_CLK_TCK")
PAGE = os.sysconf("SC_PAGE_SIZE")
MOST = 10
PROOFS, TESTS, BASES, EDITS, MAKING, REST, BEFORE = "proofs", "tests", "bases", "edits", "programs", "rest", "before"
KINDS = {
    PROOFS: "of crates",
    TESTS: "of tests",
    BASES: "that edits begin with",
    EDITS: "tries of edits",
    MAKING: "programs, compiled after their proof",
    REST: "rt itself, layouts, links, runs of programs and tests",
    BEFORE: "what had ended when this was begun",
}


class Process:
    """What /proc says of a process at one moment."""

    def __init__(self, pid):
        with open(f"/proc/{pid}/stat", encoding="utf-8", errors="replace") as it:
            words = it.read().rpartition(")")[2].split()
        self.pid, self.parent, self.born = pid, int(words[1]), int(words[19])
        self.own = (int(words[11]) + int(words[12])) / TICKS
        self.ended = (int(words[13]) + int(words[14])) / TICKS
        self.memory = int(words[21]) * PAGE


def below(root):
    """Returns the process of that number, or None, and each that descends from it by the number of its parent."""
    children, top = collections.defaultdict(list), None
    for name in os.listdir("/proc"):
        if name.isdigit():
            try:
                one = Process(int(name))
            except (OSError, IndexError, ValueError):
                continue
            children[one.parent].append(one)
            top = one if one.pid == root else top
    return top, children


def family(one, children):
    yield one
    for child in children.get(one.pid, ()):
        yield from family(child, children)


def words_of(pid):
    try:
        with open(f"/proc/{pid}/cmdline", "rb") as it:
            words = it.read().decode(errors="replace").split("\0")[:-1]
        return words, os.readlink(f"/proc/{pid}/cwd")
    except OSError:
        return [], ""


def edit_of(root, crate, number):
    """Returns the name of a crate's edit by its place among them, as rt counts."""
    try:
        names = sorted(it for it in os.listdir(f"{root}/crates/{crate}/must-fail") if it.endswith(".edit"))
        return names[int(number)]
    except (OSError, IndexError):
        return number


def part_of(words, folder, root):
    """Returns the crate, the kind and the edit that a command of rt works on, or None where it is no check and no build."""
    if len(words) < 3 or os.path.basename(words[0]) != "rattle" or words[1] not in ("check", "build") or "--crate-name" not in words:
        return None
    crate = words[words.index("--crate-name") + 1]
    if os.path.basename(folder).startswith("rt-edit-"):
        over = words[words.index("--incremental") + 1] if "--incremental" in words else ""
        number = os.path.basename(over)
        if number == "seed":
            return crate, BASES, ""
        return crate, EDITS, edit_of(root, crate, number) if number.isdigit() else "from nothing"
    if "--crate-checked" in words:
        return crate, MAKING, ""
    return crate, TESTS if "--test" in words else PROOFS, ""


class Child:
    """A process that rt started, with what it and those below it took so far."""

    def __init__(self, now):
        self.part, self.took, self.memory, self.begun, self.seen = None, 0.0, 0, now, now

    def count(self, rows):
        row = rows[self.part or ("", REST, "links, layouts, runs")]
        row.took += self.took
        row.clock += self.seen - self.begun
        row.memory = max(row.memory, self.memory)


class Row:
    """What a part took: seconds of processors, seconds by the clock, and the most bytes that it held."""

    def __init__(self):
        self.took, self.clock, self.memory = 0.0, 0.0, 0


class Watch:
    """Counts what the processes below rt take, until it ends."""

    def __init__(self, pid):
        self.pid, self.rows, self.children, self.begun = pid, collections.defaultdict(Row), {}, time.time()
        self.ended = None
        self.root = words_of(pid)[1]

    def look(self):
        """Reads all processes once, and returns whether rt is there."""
        now, (top, children) = time.time(), below(self.pid)
        if top is None:
            return False
        # (for crates that are named, rt goes on in a copy)
        self.root = words_of(self.pid)[1] or self.root
        here = {}
        for one in children.get(self.pid, ()):
            child = here[one.pid, one.born] = self.children.get((one.pid, one.born)) or Child(now)
            if child.part is None:
                child.part = part_of(*words_of(one.pid), self.root)
            group = [*family(one, children)]
            child.took = max(child.took, sum(it.own + it.ended for it in group))
            child.memory = max(child.memory, sum(it.memory for it in group))
            child.seen = now
        gone = [it for key, it in self.children.items() if key not in here]
        if self.ended is not None:
            self.share(gone, top.ended - self.ended - sum(it.took for it in gone), now)
        else:
            # (what ended before it was watched)
            self.rows["", BEFORE, ""].took += top.ended
        for child in gone:
            child.count(self.rows)
        self.children, self.ended = here, top.ended
        self.rows["", REST, "rt itself"].took = top.own
        return True

    def share(self, gone, left, now):
        """Gives what was taken since the last look to the parts that ended, as far as they can have taken it, and else to rt's short commands."""
        parts = [it for it in gone if it.part]
        for number, child in enumerate(parts):
            more = max(0.0, min(left / (len(parts) - number), PROCESSORS * (now - child.seen)))
            child.took, left = child.took + more, left - more
        self.rows["", REST, "short commands"].took += max(0.0, left)

    def so_far(self):
        """Returns the rows, with what runs."""
        rows = copy.deepcopy(self.rows)
        for child in self.children.values():
            child.count(rows)
        return rows


def follow(pid, is_there, file):
    """Watches until rt ends, and writes the rows each minute and at the end."""
    watch, written = Watch(pid), time.time()
    while is_there() and watch.look():
        if file and time.time() - written > 60:
            written = time.time()
            write_rows(watch.so_far(), file)
        time.sleep(EACH)
    watch.rows = watch.so_far()
    return watch


def write_rows(rows, file):
    with open(file, "w", encoding="utf-8") as it:
        for (crate, kind, edit), row in sorted(rows.items()):
            print(crate, kind, edit, f"{row.took:.1f}", f"{row.clock:.0f}", row.memory >> 20, sep="\t", file=it)


def read_rows(file):
    rows = collections.defaultdict(Row)
    with open(file, encoding="utf-8") as it:
        for line in it:
            crate, kind, edit, took, clock, memory = line.rstrip("\n").split("\t")
            row = rows[crate, kind, edit]
            row.took, row.clock, row.memory = float(took), float(clock), int(memory) << 20
    return rows


def named(part):
    crate, kind, edit = part
    return {PROOFS: crate, TESTS: f"{crate}: its tests", BASES: f"{crate}: the proof that edits begin with", MAKING: f"{crate}: the program made"}.get(kind, f"{crate}: {edit}" if crate else edit)


def minutes(seconds):
    return f"{seconds / 60:.1f}"


def tell(rows, clock=None):
    sums, parts = collections.Counter(), collections.Counter()
    for (crate, kind, _), row in rows.items():
        sums[kind] += row.took
        parts[kind] += bool(crate)
    whole = sum(sums.values())
    by_clock = f", {minutes(clock)} by the clock" if clock else ""
    print(f"\ngate: {minutes(whole)} processor minutes{by_clock}, on {PROCESSORS} processors\n")
    print("| What | Minutes | Parts |\n|---|---|---|")
    for kind, what in KINDS.items():
        if kind == BEFORE and sums[kind] < 1:
            continue
        print(f"| {kind}: {what} | {minutes(sums[kind])} | {parts[kind] or ''} |")
    print(f"\n| The {MOST} dearest parts | Minutes | GB |\n|---|---|---|")
    dear = sorted((it for it in rows.items() if it[0][0]), key=lambda it: -it[1].took)
    for part, row in dear[:MOST]:
        print(f"| {named(part)} | {minutes(row.took)} | {row.memory / 1e9:.1f} |")
    print("\n| Crate | Proof | Tests | Base | Edits | GB |\n|---|---|---|---|---|---|")
    crates = collections.defaultdict(collections.Counter)
    most = collections.Counter()
    for (crate, kind, _), row in rows.items():
        if crate:
            crates[crate][kind] += row.took
            most[crate] = max(most[crate], row.memory)
    for crate, of in sorted(crates.items(), key=lambda it: -sum(it[1].values())):
        print(f"| {crate} | {' | '.join(minutes(of[it]) for it in (PROOFS, TESTS, BASES, EDITS))} | {most[crate] / 1e9:.1f} |")
    sys.stdout.flush()


def kit():
    found = shutil.which("rt")
    if not found:
        sys.exit("gate: there is no rt on the path")
    return os.path.dirname(os.path.realpath(found))


def functions(root, name):
    """Checks a crate from nothing, and prints its dearest functions. The libraries below are built first. A function's time is that
    from the line of the one before it to its own, so it has the lemmas that no function before it needed."""
    folder = f"{root}/crates/{name}"
    if not os.path.isdir(folder):
        sys.exit(f"gate: there is no crate {name}")
    first = subprocess.run(["rt", "check", "--jobs", "1", "--only", ""], cwd=folder, stdout=subprocess.PIPE, stderr=subprocess.STDOUT, text=True, errors="replace", stdin=subprocess.DEVNULL)
    if first.returncode:
        sys.exit(f"{first.stdout}\ngate: {name} cannot be checked")
    sys.dont_write_bytecode = True
    sys.path.insert(0, kit())
    import rtlib

    crate = rtlib.Crate(folder, root, {})
    words = [rtlib.RATTLE, "check", *crate.words(["--jobs", "1"], keeps=False), "--progress"]
    ran = subprocess.Popen(words, cwd=folder, stdin=subprocess.DEVNULL, stdout=subprocess.PIPE, stderr=subprocess.STDOUT, text=True, errors="replace")
    found, before, first = [], 0.0, ("", 0.0)
    for line in ran.stdout:
        at = re.match(r"checked (\S+), \d+ of \d+", line)
        if at:
            try:
                now = Process(ran.pid).own
            except (OSError, IndexError, ValueError):
                now = before
            if before:
                found.append((now - before, at[1]))
            else:
                first = at[1], now
            before = now
    _, status, used = os.wait4(ran.pid, 0)
    whole = used.ru_utime + used.ru_stime
    ends = "NOT PROVED" if status else f"{whole - before:.0f} s after the last"
    print(f"\n{name}: {minutes(whole)} processor minutes, {used.ru_maxrss / 1e6:.1f} GB, {len(found) + 1} functions")
    print(f"{first[1]:.0f} s until the first one, {first[0]}, was checked, with all that is loaded before it; {ends}\n")
    print(f"| The {MOST} dearest functions of {name} | Seconds |\n|---|---|")
    for took, what in sorted(found, reverse=True)[:MOST]:
        print(f"| {what} | {took:.1f} |")
    sys.stdout.flush()


def main(words):
    root = os.path.dirname(os.path.dirname(os.path.realpath(__file__)))
    rows = None
    if words[:1] == ["--rows"] and len(words) > 1:
        rows, words = words[1], words[2:]
    if words[:1] == ["--functions"] and len(words) > 1:
        for name in words[1:]:
            functions(root, name)
        return 0
    if words[:1] == ["--rows-of"] and len(words) == 2:
        tell(read_rows(words[1]))
        return 0
    status = 0
    if words[:1] == ["--attach"] and len(words) == 2 and words[1].isdigit():
        pid = int(words[1])
        watch = follow(pid, lambda: True, rows)
    elif not any(it.startswith("-") for it in words):
        ran = subprocess.Popen(["rt", "ci", "--anew", *words], cwd=root, stdin=subprocess.DEVNULL)
        try:
            watch = follow(ran.pid, lambda: ran.poll() is None, rows)
        except KeyboardInterrupt:
            ran.wait()
            return 130
        status = ran.returncode
        # (what the last look did not see)
        used = resource.getrusage(resource.RUSAGE_CHILDREN)
        seen = sum(row.took for row in watch.rows.values())
        watch.rows["", REST, "after the last look"].took = max(0.0, used.ru_utime + used.ru_stime - seen)
    else:
        sys.exit(__doc__.partition("\n\n")[2].partition("\n\n")[0])
    if rows:
        write_rows(watch.rows, rows)
    tell(watch.rows, time.time() - watch.begun)
    return status


sys.exit(main(sys.argv[1:]))
