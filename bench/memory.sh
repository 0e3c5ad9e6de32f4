#!/bin/sh
# Refuses the program one allocation at a time. Each command runs once for each of its allocations, which a `malloc` that is
# loaded before that of the C library refuses, until a run asks for fewer. It must end with 5, with 4 where it was a fault of
# an object of the outside, or as without the refusal; standard error names the cause, and standard output is a first part
# of what is printed without. Behind `load`, and `run` of two workers, the repository opens with its run, or with the new one
# too, and both are whole; the caches are those of first runs, and no file of ids and no draft is left. Instances that were
# provisioned are disposed of, once.
# usage: bench/memory.sh [CASE..]: by default all cases. Where there is no `cc`, nothing is tried, and the status is 0.
set -eu

root=$(CDPATH='' cd -- "$(dirname -- "$0")/.." && pwd -P)
command -v cc >/dev/null || { echo 'memory: skipped: there is no cc'; exit 0; }
. "$root/bench/prepare.sh"

# The allocation whose number REFUSE has, counted from 1, is refused, and the file MARK made. Children are left alone.
cc -O1 -shared -fPIC -o "$work/refuse.so" -x c - <<'C'
#include <errno.h>
#include <fcntl.h>
#include <stdatomic.h>
#include <stdlib.h>
#include <unistd.h>

void *__libc_malloc(size_t);
void *__libc_calloc(size_t, size_t);
void *__libc_realloc(void *, size_t);
void *__libc_memalign(size_t, size_t);

static atomic_long asked;
static long chosen;
static const char *mark;

__attribute__((constructor)) static void begin(void) {
    const char *number = getenv("REFUSE");
    mark = getenv("MARK");
    unsetenv("LD_PRELOAD");
    if (number && mark) {
        chosen = atol(number);
    }
}

static int refuses(void) {
    if (chosen == 0 || atomic_fetch_add(&asked, 1) + 1 != chosen) {
        return 0;
    }
    int file = open(mark, O_CREAT | O_WRONLY | O_CLOEXEC, 0600);
    if (file >= 0) {
        close(file);
    }
    errno = ENOMEM;
    return 1;
}

void *malloc(size_t size) { return refuses() ? NULL : __libc_malloc(size); }
void *calloc(size_t count, size_t size) { return refuses() ? NULL : __libc_calloc(count, size); }
void *realloc(void *old, size_t size) { return refuses() ? NULL : __libc_realloc(old, size); }
void *aligned_alloc(size_t place, size_t size) { return refuses() ? NULL : __libc_memalign(place, size); }

int posix_memalign(void **found, size_t place, size_t size) {
    void *made = refuses() ? NULL : __libc_memalign(place, size);
    if (made == NULL) {
        return ENOMEM;
    }
    *found = made;
    return 0;
}
C
mkdir "$work/cases"

PYTHONDONTWRITEBYTECODE=1 PYTHONPATH=$root/bench python3 - "$program" "$work/cases" "$work/refuse.so" "$@" <<'PYTHON'
import os
import shutil
import sys

import streams
from caches import NAMES, Said, found
from cases import PROGRAM, Wrong, bytes_of, check, init, new_folder, run, write
from project import CONF, kept, project
from streams import FAIL, FILE, ID, IN_PROGRESS, RUNNABLE, SKIP, SUCCESS, TAGS, TIME, TYPE, number, text

PRELOADED = sys.argv[3]
FAULTS = ("of the repository folder", "reading standard input", "reading a file", "starting a program", "reading a program",
          "writing output")
# A run with more than one thread may ask for fewer once by chance: it is over when so many in a row asked for fewer.
IN_A_ROW = 3
KINDS = ("out of memory", "a fault", "as without")


def packets(route=b""):
    """Some tests with times, tags and texts, of which one fails and one does not end, and bytes that are no packet."""
    texts = [text(b"text/plain") + text(b"traceback") + text(b"line %d\n" % place * 40) for place in range(3)]
    yield streams.event(TIME | ID | RUNNABLE | IN_PROGRESS, streams.time(1) + text(b"a"), route)
    yield streams.event(ID | RUNNABLE | TYPE | FILE, text(b"a") + texts[0], route)
    tags = number(2) + text(b"t") + text(b"s")
    yield streams.event(TIME | ID | RUNNABLE | TAGS | SUCCESS, streams.time(7) + text(b"a") + tags, route)
    yield streams.event(RUNNABLE | FILE, text(b"stdout") + text(b"noise\n"), route) if route else b"noise\n"
    for place in range(12):
        name, status = text(b"b%d" % place), FAIL if place == 5 else SKIP if place == 6 else SUCCESS
        yield streams.event(TIME | ID | RUNNABLE | IN_PROGRESS, streams.time(10 + place) + name, route)
        ended = streams.time(40 + place) + name + texts[place % 3]
        yield streams.event(TIME | ID | RUNNABLE | TYPE | FILE | status, ended, route)
    yield streams.event(ID | RUNNABLE | IN_PROGRESS, text(b"open"), route)


GIVEN, KEPT = b"".join(packets()), b"".join(packets(b"0"))
EARLIER = streams.event(ID | RUNNABLE | FAIL, text(b"a"), b"0")
TAP = b"1..3\nok 1 - adds # SKIP no\n# why\nnot ok 3 divides\nother\n"
LINES = b"time: 2026-01-01 00:00:00Z\ntest: a\ntags: x y\nfailure: a [\nwhy\n]\nnoise\ntest: b\nsuccess: b [ multipart\n" \
        b"Content-Type: text/plain\nlog\n3\r\nabc0\r\n]\ntest: c\n"


class Command:
    """A command that is tried: its words, what it is given, and a folder of which it runs in a copy, or none."""

    def __init__(self, words, given=b"", name="testr", made=None):
        self.words, self.given, self.name, self.made = words, given, name, made
        self.tried, self.told, self.wrongs = 0, dict.fromkeys(KINDS, 0), 0

    def folder(self):
        folder = new_folder()
        if self.made:
            shutil.copytree(self.made, folder, dirs_exist_ok=True)
        return folder

    def call(self, folder, **how):
        return run(folder, *self.words, given=self.given, program=[PROGRAM, self.name], **how)

    def refused(self, place, **others):
        """What it answers where that allocation is refused, in a new folder; and whether it asked for so many."""
        folder, mark = self.folder(), os.path.join(os.path.dirname(PRELOADED), "mark")
        given = {"LD_PRELOAD": PRELOADED, "REFUSE": str(place), "MARK": mark, **others}
        answer = self.call(folder, env={**os.environ, **given})
        was_refused = os.path.exists(mark)
        if was_refused:
            os.remove(mark)
        return folder, answer, was_refused

    def kind_of(self, answer):
        """Which of the three answers it is."""
        (status, out, err), name = answer, self.name.encode()
        if answer == self.whole:
            return "as without"
        check(self.whole[1].startswith(out), f"it prints {out[-200:]!r}")
        if status == 5:
            # Before the words are read nobody knows the name.
            check(err in (name + b": out of memory\n", b"testr: out of memory\n"), f"status 5 with {err!r}")
            return "out of memory"
        lines = err.splitlines(True)
        named = lines[:1] in ([b"%s: fault %s\n" % (name, what.encode())] for what in FAULTS)
        check(status == 4 and named and len(lines) <= 2, f"status {status} with {err!r}")
        check(all(line.startswith(name + b": cause: ") for line in lines[1:]), f"the cause is {lines[1:]}")
        return "a fault"

    def begin(self):
        """What it answers where nothing is refused. Answers the folder."""
        folder = self.folder()
        self.whole = self.call(folder)
        check(self.whole[0] <= 1 and self.whole[2] == b"", f"without a refusal it answers {self.whole}")
        return folder

    def look(self, folder, place, status):
        """Whether the folder is as it may be."""

    def try_all(self):
        self.begin()
        fewer, place = 0, 0
        while fewer < IN_A_ROW:
            place += 1
            folder, answer, was_refused = self.refused(place)
            fewer = 0 if was_refused else fewer + 1
            try:
                kind = self.kind_of(answer)
                check(was_refused or kind == "as without", f"nothing was refused, and the status is {answer[0]}")
                self.look(folder, place, answer[0])
                self.told[kind] += was_refused
            except Wrong as why:
                self.wrongs += 1
                print(f"WRONG    {self.name} {' '.join(self.words)}, allocation {place}: {why}", flush=True)
            self.tried += was_refused
            shutil.rmtree(folder)


class Init(Command):
    """`init`, in a folder without a repository."""

    def look(self, folder, place, status):
        home = os.path.join(folder, ".testrepository")
        names = set(os.listdir(home)) if os.path.exists(home) else set()
        check(names <= {"format", "lock", "writer"}, f"the files are {sorted(names)}")
        is_made = (0, b"runs=0\n", b"")
        wanted = [is_made] if status == 0 else [is_made, (3, b"", b"testr: no repository here\n")]
        answer = run(folder, "stats")
        check(answer in wanted and (answer == is_made) == ("format" in names), f"stats answers {answer}")


class OverRun(Command):
    """A command over a repository of one run. It may add a run of one of these bytes, or none."""

    def __init__(self, words, made, given=b"", wholes=()):
        super().__init__(words, given, made=made)
        self.wholes = wholes

    def begin(self):
        self.last = {1: run(self.made, "last")}
        folder = super().begin()
        if self.wholes:
            self.last[2] = run(folder, "last")

    def look(self, folder, place, status):
        names = set(os.listdir(os.path.join(folder, ".testrepository")))
        runs = sorted(names - {"format", "lock", "writer", *NAMES})
        check(runs == ["0"] or self.wholes and runs == ["0", "1"], f"the files are {sorted(names)}")
        check(bytes_of(folder, "0") == EARLIER, "run 0 is damaged")
        check(len(runs) == 2 or status > 1 or not self.wholes, f"status {status}, and no run 1")
        said = Said().take(EARLIER)
        moments = [Said().caches(), said.caches()]
        if len(runs) == 2:
            new = bytes_of(folder, "1")
            check(new in self.wholes, "run 1 is not whole")
            moments.append(said.take(new).caches())
        for name, cache in found(folder).items():
            check(cache in [moment[name] for moment in moments], f"{name} is {cache[:200]!r}")
        check(run(folder, "stats") == (0, b"runs=%d\n" % len(runs), b""), "stats is wrong")
        check(run(folder, "last") == self.last[len(runs)], "last is wrong")
        check(run(folder, "failing", "--list") == (*said.listed(), b""), "failing is wrong")
        left = [name for name in os.listdir(folder) if name.startswith(".testr-ids")]
        check(not left, f"{left} are left")


# Instances of a project, which say in files what they were asked for. Their names are known, and the output is closed,
# before it says so.
MACHINES = b"""#!/bin/sh
case $1 in
provision) echo two one; exec >&-; [ -z "${SLOW-}" ] || sleep "$SLOW"; echo "$2" >> provisioned ;;
execute) shift 2; echo >> executed; exec "$@" ;;
*) shift; echo "$@" >> disposed ;;
esac
"""
ON_MACHINES = CONF + """instance_provision=exec ./machines provision $INSTANCE_COUNT
instance_execute=exec ./machines execute $INSTANCE_ID $COMMAND
instance_dispose=exec ./machines dispose $INSTANCE_IDS
"""


def said_in(folder, name):
    """What instances said in a file, nothing where there is none."""
    try:
        with open(os.path.join(folder, name)) as file:
            return file.read()
    except FileNotFoundError:
        return ""


class OnInstances(OverRun):
    """A run on two instances. Where their provisioning has ended, they are disposed of, once."""

    def kind_of(self, answer):
        # Where the memory is wanting for the disposal, run and status stay, and its fault is told behind all else.
        lines = answer[2].splitlines(True)
        is_told = lines[:1] == [b"testr: fault starting a program\n"] and len(lines) <= 2
        self.is_kept = answer[:2] == self.whole[:2] and is_told
        return "a fault" if self.is_kept else super().kind_of(answer)

    def look(self, folder, place, status):
        super().look(folder, place, status)
        made, used, given = (said_in(folder, name) for name in ("provisioned", "executed", "disposed"))
        check(made in ("", "2\n") and given in ("", "\n", "one two\n"), f"provisioned {made!r}, disposed {given!r}")
        check(made or not used and not given, "instances were not provisioned, and used all the same")
        if made and not given and not self.is_kept:
            # Their provisioning was stopped before its end, which is seen where it takes its time to end.
            check(not used and status == 5, f"status {status}, and no disposal")
            slow, _, _ = self.refused(place, SLOW="2")
            check(not said_in(slow, "provisioned"), "instances are kept")
            shutil.rmtree(slow)


def store(folder=None):
    """A folder with a repository of one run: a new one, or that of a project, which has a repository."""
    if folder is None:
        folder = new_folder()
        init(folder)
    given = streams.event(ID | RUNNABLE | FAIL, text(b"a"))
    check(run(folder, "load", given=given)[0] == 1 and bytes_of(folder, "0") == EARLIER, "the first load is wrong")
    write(folder, "one", GIVEN)
    write(folder, "two", GIVEN)
    return folder


def commands():
    # A stop ends the shell alone, so the worker takes its place.
    made, suite = store(), store(project(conf=CONF.replace("=./worker", "=exec ./worker")))
    machines = project(conf=ON_MACHINES)
    write(machines, "machines", MACHINES)
    os.chmod(os.path.join(machines, "machines"), 0o755)
    store(machines)
    ones, twos = kept((b"a", b"c")), kept((b"b",), b"1")
    middle = len(ones) // 2
    merges = (ones + twos, twos + ones, ones[:middle] + twos + ones[middle:])
    yield "init", Init(["init"])
    yield "load", OverRun(["load"], made, GIVEN, (KEPT,))
    yield "load", OverRun(["load", "one", "two"], made, wholes=(KEPT + b"".join(packets(b"1")),))
    yield "run", OverRun(["run", "--parallel", "--concurrency=2"], suite, wholes=merges)
    yield "instances", OnInstances(["run", "--parallel", "--concurrency=2"], machines, wholes=merges)
    yield "run", OverRun(["run", "--find-causes"], suite, wholes=(kept((b"a", b"b", b"c")),))
    yield "list-tests", OverRun(["list-tests", "a|b"], suite)
    for words in (["last"], ["last", "--subunit"], ["failing"], ["slowest"], ["stats"]):
        yield words[0], OverRun(words, made)
    yield "stats", OverRun(["-d", ".", "stats"], made)
    yield "selftest", Command(["selftest", "7", "2", "5"])
    yield "subunit-filter", Command(["--success", "--with-id=a|b"], GIVEN, "subunit-filter")
    yield "subunit-tags", Command(["x", "-t"], GIVEN, "subunit-tags")
    for name in ("subunit-stats", "subunit-2to1", "subunit-ls", "subunit2tap", "subunit2csv", "subunit2junitxml"):
        yield name, Command([], GIVEN, name)
    yield "tap2subunit", Command([], TAP, "tap2subunit")
    yield "subunit-1to2", Command([], LINES, "subunit-1to2")
    yield "subunit-output", Command(["--fail=a", "--tag=t", "--attach-file=-"], GIVEN, "subunit-output")
    yield "subunit-output", Command(["--fail=a", "--attach-file=one"], name="subunit-output", made=made)


def main(*wanted):
    tried = wrongs = 0
    for name, command in commands():
        if wanted and name not in wanted:
            continue
        command.try_all()
        tried, wrongs = tried + command.tried, wrongs + command.wrongs
        kinds = ", ".join(f"{count} {kind}" for kind, count in command.told.items() if count)
        words = " ".join([command.name, *command.words])
        print(f"{'WRONG' if command.wrongs else 'ok':8} {words}: {command.tried} allocations: {kinds}", flush=True)
    print(f"memory: {tried} allocations tried, {wrongs} wrong")
    sys.exit(1 if wrongs or not tried else 0)


main(*sys.argv[4:])
PYTHON
