#!/bin/sh
# Tries the program where something outside is wrong: links, pipes and folders in place of files, closed descriptors, a
# full disk, a limit on files, a file system without some call, modes, several users, a removed lock, two at once, killed
# programs, caches that are damaged or cannot be put, a folder to work in that is none, a filter's output that becomes no file,
# a build that fails, the names of the program, and its installation.
# What cannot be tried here is skipped with a word: some cases want to be run by root, some want `strace`.
# usage: bench/faults.sh [CASE..]: by default all cases.
set -eu

root=$(CDPATH='' cd -- "$(dirname -- "$0")/.." && pwd -P)
. "$root/bench/prepare.sh"

# A copy where other users may run it, too.
chmod 755 "$work"
cp "$program" "$work/program"
PYTHONDONTWRITEBYTECODE=1 PYTHONPATH=$root/bench \
    python3 - "$work/program" "$work" "$root/bin/testr" "$@" <<'PYTHON'
import os
import shutil
import stat
import subprocess
import sys
import threading
import time

import caches
import streams
from caches import Home, found
from cases import (FOLDER_FAULT, LIMIT, PROGRAM, USAGE, WORK, at, bytes_of, case, check, check_refused, init, main, need,
                   new_folder, run, wait_until, write)

LAUNCHER = sys.argv[3]
NOBODY = 65534
IS_ROOT = os.geteuid() == 0
HAS_STRACE = shutil.which("strace") is not None
FORMAT = b"subunit-store 1\n"
INPUT_FAULT = b"testr: fault reading standard input\n"
OUTPUT_FAULT = b"testr: fault writing output\n"


def stream(count):
    return b"".join(streams.small(count))


def kept(count):
    """What is kept of that stream: each event in its shortest form, under the route 0."""
    return b"".join(streams.small(count, b"0"))


def start(folder, *words, before=(), **how):
    pipe = subprocess.PIPE
    how = {"stdin": pipe, "stdout": pipe, "stderr": pipe, **how}
    return subprocess.Popen([*before, PROGRAM, "testr", *words], cwd=folder, **how)


def shell(folder, script, given=b"", **how):
    """Runs a line of shell, in which $T is the program."""
    done = subprocess.run(["sh", "-c", script], cwd=folder, input=given, capture_output=True, timeout=LIMIT,
                          env={**os.environ, "T": f"{PROGRAM} testr"}, **how)
    return done.returncode, done.stdout, done.stderr


def new_repository(*counts):
    """A folder with a repository that has runs of so many events."""
    folder = new_folder()
    init(folder)
    for count in counts:
        check(run(folder, "load", given=stream(count))[0] <= 1, "a load fails")
    return folder


def check_runs(folder, *counts):
    """The runs have so many events, each is whole, and no draft is left."""
    files = set(os.listdir(os.path.join(folder, ".testrepository"))) - {"lock", "writer", *caches.NAMES}
    wanted = {"format", *(str(place) for place in range(len(counts)))}
    check(files == wanted, f"the files are {sorted(files)}, not {sorted(wanted)}")
    check(bytes_of(folder, "format") == FORMAT, "format is damaged")
    for place, count in enumerate(counts):
        check(bytes_of(folder, str(place)) == kept(count), f"run {place} is damaged")
    check(os.path.getsize(at(folder, "lock")) == 0, "the lock's file is not empty")


def loads(folder, count, number, **how):
    status, out, err = run(folder, "load", given=stream(count), **how)
    check(status <= 1 and b"id=%d" % number in out, f"a load answers {status}, {out!r}, {err!r}")


def mode_of(path):
    return stat.S_IMODE(os.stat(path).st_mode)


def slow_load(folder, given):
    """A load that has read a part of its input, more than a pipe holds, and waits for the rest."""
    slow = start(folder, "load")
    slow.stdin.write(given[:500_001])
    slow.stdin.flush()
    return slow


# What stands at the draft's name.

@case
def draft_is_a_link():
    folder = new_repository(2)
    with open(os.path.join(folder, "dotfile"), "wb") as file:
        file.write(b"mine\n")
    os.symlink("../dotfile", at(folder, "draft"))
    loads(folder, 4, 1)
    with open(os.path.join(folder, "dotfile"), "rb") as file:
        check(file.read() == b"mine\n", "a file elsewhere is overwritten")
    check_runs(folder, 2, 4)


@case
def draft_is_a_run():
    folder = new_repository(2)
    os.link(at(folder, "0"), at(folder, "draft"))
    loads(folder, 4, 1)
    check_runs(folder, 2, 4)


@case
def draft_is_a_pipe():
    folder = new_repository(2)
    os.mkfifo(at(folder, "draft"))
    loads(folder, 4, 1, limit=10)
    check_runs(folder, 2, 4)


@case
def draft_is_a_folder():
    folder = new_repository(2)
    os.mkdir(at(folder, "draft"))
    check_refused(run(folder, "load", given=stream(4)), FOLDER_FAULT, b"remove .testrepository/draft: ")


@case
def draft_is_another_users():
    need(IS_ROOT, "want of root")
    folder = new_folder()
    os.chown(folder, NOBODY, NOBODY)
    user = {"user": NOBODY, "group": NOBODY, "extra_groups": ()}
    check(run(folder, "init", **user)[0] == 0, "init fails")
    with open(at(folder, "draft"), "wb"):
        os.chmod(at(folder, "draft"), 0o600)
    loads(folder, 4, 0, **user)
    check_runs(folder, 4)


@case
def draft_is_open_elsewhere():
    folder = new_repository()
    with open(at(folder, "draft"), "wb", buffering=0) as file:
        os.chmod(at(folder, "draft"), 0o4777)
        loads(folder, 4, 0, umask=0o022)
        file.write(b"more")
    check_runs(folder, 4)
    check(mode_of(at(folder, "0")) == 0o644, f"the run's mode is {mode_of(at(folder, '0')):o}")


# Descriptors that are closed.

@case
def output_is_closed():
    folder = new_repository()
    done = shell(folder, "$T load >&-", stream(2))
    check_refused(done, OUTPUT_FAULT, b"write standard output: ")
    check_runs(folder, 2)


@case
def errors_are_closed():
    folder = new_repository()
    check(shell(folder, "$T last 2>&-")[0] == 3, "a refusal has another status")
    check(shell(folder, "$T load --list 2>&-")[0] == 2, "wrong usage has another status")
    check_runs(folder)


@case
def input_is_closed():
    folder = new_repository()
    check_refused(shell(folder, "$T load <&-"), INPUT_FAULT, b"read standard input: ")
    check_runs(folder)


@case
def all_is_closed():
    folder = new_repository(2)
    check(shell(folder, "$T load <&- >&- 2>&-")[0] == 4, "a load has another status")
    check(shell(folder, "$T last <&- >&- 2>&-")[0] == 4, "last has another status")
    check_runs(folder, 2)


# Runs and names.

@case
def run_is_a_link_to_nothing():
    folder = new_repository()
    os.symlink("/nonexistent", at(folder, "0"))
    for words in (["last"], ["last", "--subunit"], ["failing"], ["slowest"]):
        check_refused(run(folder, *words), FOLDER_FAULT, b"read .testrepository/0: ")
    # A load stores its run. Then the caches want the run that cannot be read.
    done = run(folder, "load", given=stream(2))
    check(bytes_of(folder, "1") == kept(2), "the new run is not stored")
    if done[0] > 1:
        check_refused(done, FOLDER_FAULT, b"read .testrepository/0: ")


@case
def run_is_a_link_to_a_file():
    folder = new_repository(2, 4)
    os.rename(at(folder, "0"), os.path.join(folder, "moved"))
    os.symlink("../moved", at(folder, "0"))
    loads(folder, 6, 2)
    check_runs(folder, 2, 4, 6)


@case
def run_cannot_be_read():
    need(IS_ROOT, "want of root")
    folder = new_folder()
    os.chown(folder, NOBODY, NOBODY)
    user = {"user": NOBODY, "group": NOBODY, "extra_groups": ()}
    check(run(folder, "init", **user)[0] == 0, "init fails")
    loads(folder, 2, 0, **user)
    os.chmod(at(folder, "0"), 0)
    for size in (os.path.getsize(at(folder, "0")), 0):
        os.truncate(at(folder, "0"), size)
        check_refused(run(folder, "last", **user), FOLDER_FAULT, b"read .testrepository/0: Permission denied")


@case
def a_run_is_what_reads_find():
    """A file of which the system says that it is empty, and that is not."""
    need(os.path.exists("/proc/version") and os.path.getsize("/proc/version") == 0, "want of such a file")
    folder = new_repository()
    os.symlink("/proc/version", at(folder, "0"))
    with open("/proc/version", "rb") as file:
        found = file.read()
    # Neither asks for a length: both read to the end. The report finds no packet.
    check(run(folder, "last", "--subunit") == (0, found, b""), "last does not give what reads find")
    check(run(folder, "last") == (0, b"Ran 0 tests\nPASSED (id=0)\n", b""), "last does not read to the end")


@case
def a_run_is_copied_into_itself():
    """It is read to the end that it had when it was opened. It is longer than a read."""
    folder = new_repository(3000)
    before = bytes_of(folder, "0")
    check(len(before) > 2 * 65536, "the run is short")
    done = shell(folder, "$T last --subunit >> .testrepository/0")
    check(done == (0, b"", b""), f"last answers {done}")
    check(bytes_of(folder, "0") == 2 * before, "the run has other bytes")


@case
def names_of_other_things():
    folder = new_repository(2)
    os.mkdir(at(folder, "1"))
    os.mkfifo(at(folder, "2"))
    os.symlink("..", at(folder, "3"))
    check(run(folder, "stats") == (0, b"runs=1\n", b""), "stats counts what is no run")
    check(run(folder, "last", "--subunit") == (0, kept(2), b""), "last does not tell of run 0")
    check_refused(run(folder, "load", given=stream(4)), FOLDER_FAULT, b"make .testrepository/1: File exists")
    check(not os.path.lexists(at(folder, "draft")), "a draft is left")


# The lock.

@case
def lock_is_no_file():
    for name, make in (("a pipe", os.mkfifo), ("a folder", os.mkdir),
                       ("a link", lambda path: os.symlink("../elsewhere", path)),
                       ("a link to a file", lambda path: os.symlink("format", path))):
        folder = new_repository(2)
        os.remove(at(folder, "lock"))
        make(at(folder, "lock"))
        for words in (["stats"], ["load"], ["init"]):
            check_refused(run(folder, *words, given=stream(2), limit=10), FOLDER_FAULT,
                          b"lock .testrepository/lock: it is no regular file")
        check(not os.path.lexists(os.path.join(folder, "elsewhere")), f"{name} makes a file elsewhere")


@case
def lock_is_removed():
    folder, given = new_repository(), stream(8000)
    slow = slow_load(folder, given)
    wait_until(lambda: os.path.exists(at(folder, "lock")), "a load takes no lock")
    for name in ("lock", "writer"):
        os.remove(at(folder, name))
    loads(folder, 4, 0)
    out, err = slow.communicate(given[500_001:], LIMIT)
    check_refused((slow.returncode, out, err), FOLDER_FAULT, b"lock .testrepository/lock: it was removed or replaced")
    check_runs(folder, 4)


@case
def lock_is_removed_again_and_again():
    """Some load one run after another, and the lock's file is removed all the while. Each run that was told as kept is
    there, no number was told twice, and each other run is that of a load that was refused behind it, at the caches."""
    folder, end, told, refused = new_repository(), time.monotonic() + 3, [], {}

    def load_on(first):
        count = first
        while time.monotonic() < end:
            count += 12
            status, out, _ = run(folder, "load", given=stream(count))
            if status <= 1:
                told.append((int(out.rsplit(b"id=", 1)[1].split(b",")[0].rstrip(b")\n")), count))
            else:
                refused[kept(count)] = count

    loaders = [threading.Thread(target=load_on, args=(2 * place,)) for place in range(6)]
    for loader in loaders:
        loader.start()
    while time.monotonic() < end:
        if os.path.exists(at(folder, "lock")):
            os.remove(at(folder, "lock"))
        time.sleep(0.0005)
    for loader in loaders:
        loader.join()
    counts = dict(told)
    check(told and len(counts) == len(told), "a number was told twice, or none at all")
    number = 0
    while os.path.exists(at(folder, str(number))):
        counts.setdefault(number, refused.get(bytes_of(folder, str(number))))
        check(counts[number] is not None, f"run {number} is no load's")
        number += 1
    check(number == len(counts), f"of {len(counts)} runs {number} are there")
    loads(folder, 2, number)
    check_runs(folder, *(counts[place] for place in range(number)), 2)


@case
def lock_is_held():
    folder, given = new_repository(2), stream(8000)
    slow = slow_load(folder, given)
    for words, name in ((["load"], b"writer"), (["init"], b"lock"), (["upgrade"], b"lock")):
        check_refused(run(folder, *words, given=stream(2)), FOLDER_FAULT,
                      b"lock .testrepository/%s: another testr is at work in this repository" % name)
    check(run(folder, "stats") == (0, b"runs=1\n", b""), "stats is refused beside a load")
    check(run(folder, "last", "--subunit") == (0, kept(2), b""), "last is refused beside a load")
    out, _ = slow.communicate(given[500_001:], LIMIT)
    check(slow.returncode <= 1 and b"id=1" in out, "the slow load fails")
    check_runs(folder, 2, 8000)


@case
def questions_share_the_lock():
    """One question waits for its output to be read. Another one is answered, and a load is kept, but no init."""
    folder = new_repository(8000)
    slow = start(folder, "last", "--subunit", bufsize=0)
    check(slow.stdout.read(1) == kept(1)[:1], "last prints nothing")
    check(run(folder, "stats") == (0, b"runs=1\n", b""), "a second question is refused")
    check_refused(run(folder, "init"), FOLDER_FAULT, b"another testr is at work")
    loads(folder, 2, 1)
    out, _ = slow.communicate(timeout=LIMIT)
    check(slow.returncode == 0 and out == kept(8000)[1:], "the slow question fails")
    check_runs(folder, 8000, 2)


@case
def lock_is_of_root():
    """Root looks first, in an old repository without a lock. Its owner works on."""
    need(IS_ROOT, "want of root")
    folder = new_folder()
    os.chown(folder, NOBODY, NOBODY)
    user = {"user": NOBODY, "group": NOBODY, "extra_groups": ()}
    check(run(folder, "init", **user)[0] == 0, "init fails")
    os.remove(at(folder, "lock"))
    check(run(folder, "stats", umask=0o022)[0] == 0, "stats fails")
    check(os.stat(at(folder, "lock")).st_uid == 0, "the lock is not of root")
    loads(folder, 2, 0, **user)
    check_runs(folder, 2)


# Two at once.

def overtake(folder, slow, cause):
    """Makes the repository and loads a run while a slow program waits. That one is refused then, with this cause, and the
    run stays. Answers the inode of `format`, as it was before the slow program went on."""
    check(run(folder, "init") == (0, b"", b""), "the init that overtakes is refused")
    first = os.stat(at(folder, "format")).st_ino
    loads(folder, 4, 0)
    out, err = slow.communicate(timeout=LIMIT)
    check_refused((slow.returncode, out, err), FOLDER_FAULT, cause)
    check_runs(folder, 4)
    return first


@case
def two_make_the_folder():
    """The first `init` is slow between making the folder and taking the lock. Meanwhile another one makes the repository,
    and a run is loaded."""
    need(HAS_STRACE, "want of strace")
    folder = new_folder()
    delay = ["strace", "-o", "/dev/null", "-e", "trace=mkdir,mkdirat", "-e", "inject=mkdir,mkdirat:delay_exit=2000000"]
    slow = start(folder, "init", before=delay)
    wait_until(lambda: os.path.exists(os.path.join(folder, ".testrepository")), "init makes no folder")
    first = overtake(folder, slow, b"lock .testrepository/lock: ")
    check(os.stat(at(folder, "format")).st_ino == first, "format is replaced")


@case
def folder_comes_later():
    """A question finds no folder, and is slow then. Meanwhile another program makes the repository, whose names this one
    never brought to the disk."""
    need(HAS_STRACE, "want of strace")
    folder = new_folder()
    delay = ["strace", "-o", "/dev/null", "-P", ".testrepository/lock", "-e", "trace=openat",
             "-e", "inject=openat:delay_exit=2000000:when=1"]
    slow = start(folder, "stats", before=delay)
    time.sleep(1)
    overtake(folder, slow, b"lock .testrepository/lock: the folder was made by another")


# Disks and limits.

def on_small_disk(size, do):
    """Does this in a folder on a disk of this size."""
    need(IS_ROOT, "want of root")
    folder = new_folder()
    mount = ["mount", "-t", "tmpfs", "-o", f"size={size},mode=755", "testr", folder]
    need(subprocess.run(mount, capture_output=True).returncode == 0, "want of a small tmpfs")
    try:
        do(folder)
    finally:
        subprocess.run(["umount", folder])


def fill(folder):
    init(folder)
    loads(folder, 100, 0)
    check_refused(run(folder, "load", given=stream(20_000)), FOLDER_FAULT, b".testrepository/draft: No space left")
    check_runs(folder, 100)
    loads(folder, 100, 1)
    check_runs(folder, 100, 100)


@case
def disk_is_full():
    on_small_disk("1m", fill)


@case
def files_are_limited():
    """A limit on a file's size, of 64 blocks of 512 or 1024 bytes. The launcher has the system answer an error in place of
    the signal that would end the program."""
    folder = new_repository(2)
    with open(os.path.join(folder, "given"), "wb") as file:
        file.write(stream(20_000))
    done = shell(folder, f"ulimit -f 64; exec '{LAUNCHER}' load < given")
    check_refused(done, FOLDER_FAULT, b"write .testrepository/draft: File too large")
    check_runs(folder, 2)
    loads(folder, 4, 1)


def befalling(call, what, when=None):
    """The words before the program, where this befalls the call of the system, or its call of that number alone."""
    need(HAS_STRACE, "want of strace")
    inject = f"inject={call}:{what}" + (f":when={when}" if when else "")
    return ["strace", "-o", "/dev/null", "-e", f"trace={call}", "-e", inject]


def with_error(call, error, folder, *words, given=b"", when=None):
    """Runs the program where this call of the system fails."""
    return run(folder, *words, given=given, before=befalling(call, f"error={error}", when))


@case
def syncs_fail():
    """Of the syncs of a load the first two are of the folder and of the one above it, then come the draft and the
    folder again. After the last of them the run may be kept or not."""
    for when, names in ((1, b"sync .testrepository: "), (2, b"sync .: "), (3, b"sync .testrepository/draft: "),
                        (4, b"sync .testrepository: ")):
        folder = new_repository(2)
        check_refused(with_error("fsync", "EIO", folder, "load", given=stream(4), when=when), FOLDER_FAULT,
                      names, b"Input/output error")
        check_runs(folder, 2, *([4] if when == 4 else []))


@case
def there_are_no_hard_links():
    for error in ("EPERM", "ENOSYS", "EOPNOTSUPP"):
        folder = new_repository(2)
        status, out, _ = with_error("link,linkat", error, folder, "load", given=stream(4))
        check(status <= 1 and b"id=1" in out, "a load fails where there are no hard links")
        check_runs(folder, 2, 4)


@case
def there_are_no_locks():
    folder = new_repository(2)
    check_refused(with_error("flock", "ENOLCK", folder, "load", given=stream(4)), FOLDER_FAULT,
                  b"lock .testrepository/lock: No locks available")
    check_runs(folder, 2)


@case
def folder_cannot_be_written():
    """Root made the folder, and another user asks and loads."""
    need(IS_ROOT, "want of root")
    folder = new_repository(2)
    user = {"user": NOBODY, "group": NOBODY, "extra_groups": ()}
    check(run(folder, "stats", **user) == (0, b"runs=1\n", b""), "stats is refused")
    check(run(folder, "last", "--subunit", **user) == (0, kept(2), b""), "last is refused")
    check_refused(run(folder, "load", given=stream(4), **user), FOLDER_FAULT, b"make .testrepository/draft: ",
                  b"Permission denied")
    os.remove(at(folder, "writer"))
    check_refused(run(folder, "load", given=stream(4), **user), FOLDER_FAULT,
                  b"lock .testrepository/writer: Permission denied")
    os.remove(at(folder, "lock"))
    check_refused(run(folder, "stats", **user), FOLDER_FAULT, b"lock .testrepository/lock: Permission denied")


@case
def folder_cannot_be_listed():
    need(IS_ROOT, "want of root")
    folder = new_repository(2)
    os.chmod(os.path.join(folder, ".testrepository"), 0o711)
    user = {"user": NOBODY, "group": NOBODY, "extra_groups": ()}
    check_refused(run(folder, "stats", **user), FOLDER_FAULT, b"sync .testrepository: Permission denied")


def protect(folder):
    init(folder)
    loads(folder, 2, 0)
    need(subprocess.run(["mount", "-o", "remount,ro", folder], capture_output=True).returncode == 0,
         "want of a read only tmpfs")
    check(run(folder, "stats") == (0, b"runs=1\n", b""), "stats is refused")
    check(run(folder, "failing") == (0, b"failures=0\n", b""), "failing is refused")
    check_refused(run(folder, "load", given=stream(2)), FOLDER_FAULT, b"Read-only file system")
    check_runs(folder, 2)


@case
def file_system_is_read_only():
    on_small_disk("1m", protect)


# Caches.

def home_of(count, seed=1, folder=None):
    """A repository with so many drawn runs and their caches."""
    home = Home(seed, folder)
    for _ in range(count):
        home.load_well()
    home.need_caches()
    return home


def put(home, name, bytes):
    with open(at(home.folder, name), "wb") as file:
        file.write(bytes)


def damaged(cache, other):
    """Files that are no cache, made of a cache and of that of the other kind."""
    title, rest = cache.split(b"\n", 1)
    yield from (b"", b"\0", b"garbage\n", title, title + b"\n", cache[:-1] if cache[-1:] == b"\0" else cache[:-3], other)
    yield title.replace(b" 1", b" 2") + b"\n" + rest
    for number in (b"", b"01", b"-1", b"1x", b"18446744073709551616", b"9" * 100):
        yield title + b"\n" + number + b"\n" + rest.split(b"\n", 1)[1]
    yield cache + b"z"
    yield cache + b"\xff\0" + (b"1\0" if b"times" in title else b"")
    # Out of order, and twice.
    for ids in ((b"y", b"x"), (b"x", b"x")):
        yield title + b"\n1\n" + b"".join(id + (b"\0" + b"1\0" if b"times" in title else b"\0") for id in ids)


@case
def cache_is_garbage():
    home = home_of(4)
    for name in caches.NAMES:
        other = caches.NAMES[name == caches.NAMES[0]]
        for bytes in list(damaged(home.moments[-1][name], home.moments[-1][other])) + [os.urandom(100_000), b"\0" * (1 << 20)]:
            put(home, name, bytes)
            home.check_failing()
            home.load_well()
            home.check_failing()


@case
def cache_covers_more_runs_than_there_are():
    home = home_of(4)
    more = home_of(12, seed=2)
    for _ in range(5):
        for name, cache in found(more.folder).items():
            put(home, name, cache)
        home.check_failing()
        home.load_well()
        home.check_failing()


@case
def last_run_was_removed_by_hand():
    """So the caches cover one run more than there are, and after the next load as many."""
    for seed in range(10):
        home = home_of(5, seed)
        home.remove_last()
        home.check_failing()
        home.load_well()
        home.check_failing()


@case
def cache_is_another_folders():
    """It cannot be told from an own one. No run is harmed, and without it all is right again."""
    home, other = home_of(8), home_of(4, seed=2)
    for _ in range(5):
        for name, cache in found(other.folder).items():
            put(home, name, cache)
        check(run(home.folder, "failing")[0] <= 1, "failing fails")
        check(home.load()[0] <= 1, "a load fails")
        home.check_runs()
        caches.remove(home.folder)
        home.check_failing()
        home.load_well()


def strangers():
    return (("a folder", os.mkdir), ("a pipe", os.mkfifo),
            ("a link to nothing", lambda path: os.symlink("/nonexistent", path)))


@case
def cache_is_no_file():
    """Where it is looked at or cannot be put, the load has stored its run, and fails. Else it gives way."""
    for name in caches.NAMES:
        for text, make in strangers():
            for is_partial in (True, False):
                home = home_of(3)
                os.remove(at(home.folder, name))
                make(at(home.folder, name))
                if name == "failing.set":
                    check_refused(run(home.folder, "failing", limit=10), FOLDER_FAULT, b"read .testrepository/failing.set: ")
                else:
                    home.check_failing()
                found_then = home.load(is_partial, limit=10)
                home.check_runs()
                if found_then[0] > 1:
                    check_refused(found_then, FOLDER_FAULT, b".testrepository/%s: " % name.encode())
                    os.rmdir(at(home.folder, name)) if text == "a folder" else os.remove(at(home.folder, name))
                    home.load_well()
                home.check_caches()
                home.check_failing()


@case
def cache_is_a_link_to_a_file():
    """It is read, and then gives way to a file. What it led to stays as it was."""
    home = home_of(3)
    for name in caches.NAMES:
        for is_partial in (True, False):
            moved = os.path.join(home.folder, "moved")
            os.rename(at(home.folder, name), moved)
            os.symlink("../moved", at(home.folder, name))
            home.check_failing()
            home.load_well(is_partial=is_partial)
            home.check_failing()
            check(not os.path.islink(at(home.folder, name)), f"{name} is a link still")
            with open(moved, "rb") as file:
                check(file.read() == home.moments[-2][name], "what the link led to has changed")


@case
def cache_cannot_be_read():
    need(IS_ROOT, "want of root")
    user = {"user": NOBODY, "group": NOBODY, "extra_groups": ()}
    for name in caches.NAMES:
        home = home_of(3)
        os.chmod(at(home.folder, name), 0)
        for path in (home.folder, os.path.join(home.folder, ".testrepository")):
            os.chown(path, NOBODY, NOBODY)
        for entry in os.listdir(os.path.join(home.folder, ".testrepository")):
            os.chown(at(home.folder, entry), NOBODY, NOBODY)
        if name == "failing.set":
            check_refused(run(home.folder, "failing", **user), FOLDER_FAULT, b"failing.set: Permission denied")
        check_refused(home.load(True, **user), FOLDER_FAULT, b"read .testrepository/%s: Permission denied" % name.encode())
        home.check_runs()
        os.remove(at(home.folder, name))
        home.load_well(**user)
        home.check_failing()


def big_first(home):
    """Loads a run of 2000 tests, so that the cache of the times is large, and each next run is small."""
    home.load_well(is_partial=False, pair=(stream(4000), kept(4000)))
    home.need_caches()


def after_fault(home):
    """The run is stored, the caches are right as far as they are there, and the next load puts them right."""
    home.check_runs()
    home.check_sound()
    home.check_failing()


def fill_with_a_cache(folder):
    home = Home(3, folder)
    big_first(home)
    disk = os.statvfs(folder)
    with open(os.path.join(folder, "filler"), "wb") as file:
        file.write(bytes(disk.f_bavail * disk.f_frsize - 80_000))
    check_refused(home.load(True), FOLDER_FAULT, b"write .testrepository/draft: No space left")
    after_fault(home)
    os.remove(os.path.join(folder, "filler"))
    home.load_well()
    home.check_failing()


@case
def disk_is_full_of_a_cache():
    on_small_disk("2m", fill_with_a_cache)


@case
def files_are_limited_and_a_cache_is_larger():
    home = Home(3)
    big_first(home)
    limited = ["sh", "-c", f"ulimit -f 64; exec '{LAUNCHER}' \"$@\"", "sh"]
    check_refused(home.load(True, program=limited), FOLDER_FAULT, b"write .testrepository/draft: File too large")
    after_fault(home)
    home.load_well()


@case
def caches_cannot_be_synced_or_named():
    """The first four syncs of a load are those of its run."""
    for call, whens in (("fsync", range(5, 9)), ("rename,renameat,renameat2", range(1, 3))):
        for when in whens:
            for is_partial in (True, False):
                home = home_of(2)
                before = befalling(call, "error=EIO", when)
                check_refused(home.load(is_partial, before=before), FOLDER_FAULT, b"Input/output error")
                after_fault(home)
                home.load_well()
                home.check_failing()


@case
def a_load_is_killed_at_each_step():
    """The program is killed where it syncs a file or the folder, and where it gives a file its name."""
    for call, count in (("fsync", 8), ("link,linkat", 1), ("unlink,unlinkat", 1), ("rename,renameat,renameat2", 2)):
        for when in range(1, count + 1):
            home = home_of(2)
            pair, is_partial = caches.drawn(home.chance), bool(when % 2)
            name = home.next_name(is_partial)
            words = ["load", "--partial"] if is_partial else ["load"]
            run(home.folder, *words, given=pair[0], before=befalling(call, "signal=KILL", when))
            if os.path.exists(at(home.folder, name)):
                home.took(pair[1], is_partial)
            home.check_sound()
            home.check_failing()
            home.load_well()
            home.check_failing()


# Modes and users.

@case
def modes_follow_the_umask():
    for umask in (0o022, 0o002, 0o077):
        folder = new_folder()
        check(run(folder, "init", umask=umask)[0] == 0, "init fails")
        loads(folder, 2, 0, umask=umask)
        home = os.path.join(folder, ".testrepository")
        check(mode_of(home) == 0o777 & ~umask, f"the folder's mode is {mode_of(home):o} under {umask:o}")
        for name in ("format", "0", "lock", "writer", *found(folder)):
            check(mode_of(at(folder, name)) == 0o666 & ~umask, f"{name} is {mode_of(at(folder, name)):o} under {umask:o}")


@case
def a_group_shares_the_folder():
    need(IS_ROOT, "want of root")
    folder, group = new_folder(0o2775), 12345
    os.chown(folder, 1001, group)
    os.chmod(folder, 0o2775)
    first, second = ({"user": user, "group": group, "extra_groups": (), "umask": 0o002} for user in (1001, 1002))
    check(run(folder, "init", **first)[0] == 0, "init fails")
    loads(folder, 2, 0, **first)
    check(run(folder, "stats", **second) == (0, b"runs=1\n", b""), "the second user's stats fails")
    loads(folder, 4, 1, **second)
    loads(folder, 6, 2, **first)
    check_runs(folder, 2, 4, 6)


# Pipes and ends.

@case
def nobody_reads_the_output():
    folder = new_repository(8000)
    end, begin = os.pipe()
    os.close(end)
    status, _, err = run(folder, "last", "--subunit", stdout=begin)
    check_refused((status, b"", err), OUTPUT_FAULT, b"write standard output: Broken pipe")
    os.close(begin)
    check_runs(folder, 8000)
    loads(folder, 2, 1)


@case
def loads_are_killed():
    """A load is killed when its draft is there. The next one is as ever."""
    folder, killed = new_repository(2), 0
    given = os.path.join(folder, "given")
    with open(given, "wb") as file:
        file.write(stream(100_000))
    for _ in range(20):
        with open(given, "rb") as file:
            load = start(folder, "load", stdin=file)
            while load.poll() is None and not os.path.exists(at(folder, "draft")):
                time.sleep(0.0001)
            load.kill()
            load.communicate()
            killed += load.returncode == -9
        if os.path.exists(at(folder, "1")):
            os.remove(at(folder, "1"))
    check(killed > 0, "no load was killed")
    loads(folder, 4, 1)
    check_runs(folder, 2, 4)


@case
def the_writer_is_killed():
    """The program that gives the stream is killed in a packet. What came is a run, and its end is foreign bytes."""
    folder = new_repository()
    text = "import sys, time; sys.stdout.buffer.write(sys.stdin.buffer.read()); sys.stdout.flush(); time.sleep(60)"
    writer = subprocess.Popen([sys.executable, "-c", text], stdin=subprocess.PIPE, stdout=subprocess.PIPE)
    load = start(folder, "load", stdin=writer.stdout)
    writer.stdout.close()
    writer.stdin.write(stream(4) + stream(1)[:7])
    writer.stdin.close()
    time.sleep(0.5)
    writer.kill()
    writer.wait(LIMIT)
    out, _ = load.communicate(timeout=LIMIT)
    check(load.returncode <= 1 and b"id=0" in out, "the load fails")
    check(bytes_of(folder, "0").startswith(kept(4)), "what came is not kept")


@case
def input_does_not_wait():
    """Standard input answers at once that nothing is there yet."""
    folder = new_repository()
    end, begin = os.pipe()
    os.set_blocking(end, False)
    check_refused(run(folder, "load", stdin=end), INPUT_FAULT, b"read standard input: Resource temporarily unavailable")
    os.close(end)
    os.close(begin)
    check_runs(folder)


# The folder to work in.

@case
def a_folder_is_named():
    folder = new_folder()
    os.mkdir(os.path.join(folder, "a b"))
    os.mkdir(os.path.join(folder, "-d"))
    write(folder, "stream", stream(2))
    check(run(folder, "-d", "a b", "init") == (0, b"", b""), "init fails")
    check(os.path.exists(at(os.path.join(folder, "a b"), "format")), "the repository is elsewhere")
    loaded = run(folder, "load", "-d", "a b", "../stream")
    check(loaded[0] <= 1 and bytes_of(os.path.join(folder, "a b"), "0") == kept(2), f"load answers {loaded}")
    one = (0, b"runs=1\n", b"")
    for words in (["stats", "-d", "a b"], ["-d", "nowhere", "stats", "-d", "a b"], ["-d", os.path.join(folder, "a b"), "stats"]):
        check(run(folder, *words) == one, f"{words} answers {run(folder, *words)}")
    check(run(folder, "-d", "-d", "init")[0] == 0 and os.path.exists(at(os.path.join(folder, "-d"), "format")),
          "a folder called -d is not entered")
    check(not os.path.exists(os.path.join(folder, ".testrepository")), "the caller's folder has a repository")


@case
def a_folder_is_refused():
    folder = new_folder()
    write(folder, "file", b"")
    os.symlink("nowhere", os.path.join(folder, "link"))
    for name in ("nowhere", "", "file/behind", "a\nb"):
        for words in (["-d", name, "init"], ["loads", "-d", name]):
            done = run(folder, *words)
            check(done == (3, b"", b"testr: no folder %s\n" % name.encode()), f"{words} answers {done}")
    for name in ("file", "link"):
        done = run(folder, "init", "-d", name)
        check_refused(done, b"testr: fault of the folder to work in\n", b"enter " + name.encode())
    for words in (["init", "-d"], ["init", "--", "-d", "file"], ["init", "-dfile"], ["init", "-d=file"]):
        check(run(folder, *words) == (2, b"", USAGE), f"{words} is no wrong usage")
    # Help needs no folder, and filters have none.
    check(run(folder, "-d", "nowhere", "--help") == run(folder, "--help"), "help enters the folder")
    check(run(folder, "load", "--help", "-d", "nowhere") == run(folder, "load", "--help"), "help of load enters it")
    tagged = run(folder, "-d", "nowhere", program=[PROGRAM, "subunit-tags"])
    check(tagged == (0, b"", b""), f"a filter answers {tagged}")
    check(sorted(os.listdir(folder)) == ["file", "link"], "files are made")


@case
def a_folder_may_not_be_entered():
    need(IS_ROOT, "want of root")
    folder = new_folder()
    os.mkdir(os.path.join(folder, "closed"), 0o700)
    user = {"user": NOBODY, "group": NOBODY, "extra_groups": ()}
    done = run(folder, "-d", "closed", "last", **user)
    check_refused(done, b"testr: fault of the folder to work in\n", b"enter closed: Permission denied")


# A filter's output as a file.

def listed(folder, *words, given=b"", name="subunit-ls", **how):
    return run(folder, *words, given=given, program=[PROGRAM, name], **how)


def check_no_file(done, folder, names, *words):
    """A fault of the output: its line and its cause. The folder has these names alone."""
    status, out, err = done
    lines = err.splitlines(True)
    check((status, out, lines[:1]) == (4, b"", [b"subunit-ls: fault writing output\n"]), f"it answers {done}")
    check(len(lines) == 2 and lines[1].startswith(b"subunit-ls: cause: "), f"the cause is {lines[1:]}")
    for word in words:
        check(word in lines[1], f"the cause is {lines[1]!r}, without {word!r}")
    check(sorted(os.listdir(folder)) == sorted(names), f"the folder has {os.listdir(folder)}")


def holds(folder, name, bytes):
    with open(os.path.join(folder, name), "rb") as file:
        return file.read() == bytes


@case
def an_output_becomes_a_file():
    """With each way to write the option; in place of an older file; and of the file that is read."""
    folder = new_folder()
    given = stream(1000)
    status, text, err = listed(folder, given=given)
    check(text.count(b"\n") > 100 and err == b"", "nothing is listed")
    for words in (["-o", "a b"], ["-oa b"], ["--output-to=a b"], ["--output-to", "a b"], ["-o", "other", "-o", "a b"]):
        check(listed(folder, *words, given=given) == (status, b"", b""), f"{words} is no such option")
        check(holds(folder, "a b", text) and os.listdir(folder) == ["a b"], f"{words} leaves {os.listdir(folder)}")
        write(folder, "a b", b"old")
    write(folder, "stream", given)
    check(listed(folder, "stream", "-o", "stream") == (status, b"", b"") and holds(folder, "stream", text), "the file that is read is not replaced")
    deep = os.path.join(folder, "deep")
    os.mkdir(deep)
    check(listed(folder, "-o", "deep/x", given=given)[0] == status and holds(deep, "x", text), "a path is no file")
    tagged = listed(folder, "-o", "x", given=given, name="subunit-tags")
    check(tagged[0] == 0 and tagged[1] != b"" and not os.path.exists(os.path.join(folder, "x")), "subunit-tags has the option")


@case
def an_output_is_no_file():
    folder = new_folder()
    write(folder, "old", b"old")
    os.mkdir(os.path.join(folder, "folder"))
    os.mkfifo(os.path.join(folder, "pipe"))
    os.symlink("old", os.path.join(folder, "link"))
    names = ["old", "folder", "pipe", "link"]
    for name in ("folder", "pipe", "link", "/dev/null"):
        check_no_file(listed(folder, "-o", name, given=stream(10)), folder, names, b"make " + name.encode() + b": it is no regular file")
    check_no_file(listed(folder, "-o", "nowhere/x", given=stream(10)), folder, names, b"make nowhere/x.0.new: No such file")
    check_no_file(listed(folder, "-o", "", given=stream(10)), folder, names, b"make : it has no name")
    check(stat.S_ISCHR(os.stat("/dev/null").st_mode), "the null device is replaced")
    check(listed(folder, "-o", "old", "--unknown") == (2, b"", b"subunit-ls: wrong usage\n"), "wrong usage makes a file")
    check(listed(folder, "-o") == (2, b"", b"subunit-ls: wrong usage\n"), "an option without a value is taken")
    check(listed(folder, "-o", "old", "absent") == (3, b"", b"subunit-ls: no file absent\n"), "an absent file makes a file")
    status, out, err = listed(folder, "-o", "old", "folder")
    check((status, out) == (4, b"") and err.startswith(b"subunit-ls: fault reading a file\n"), f"a folder is read: {err!r}")
    check(holds(folder, "old", b"old") and sorted(os.listdir(folder)) == sorted(names), "a refusal replaces the file")


def fill_with_an_output(folder):
    write(folder, "old", b"old")
    given = stream(200_000)
    check_no_file(listed(folder, "-o", "old", given=given), folder, ["old"], b"No space left")
    check_no_file(listed(folder, "-o", "new", given=given), folder, ["old"], b"No space left")
    check(holds(folder, "old", b"old"), "a full disk replaces the file")
    check(listed(folder, "-o", "old", given=stream(100))[2] == b"" and not holds(folder, "old", b"old"), "the disk stays full")


@case
def disk_is_full_of_an_output():
    on_small_disk("1m", fill_with_an_output)


@case
def a_filter_is_killed():
    """The name holds what it did, and the next call takes another draft."""
    folder = new_folder()
    write(folder, "old", b"old")
    draft = os.path.join(folder, "old.0.new")
    pipe = subprocess.PIPE
    filter = subprocess.Popen([PROGRAM, "subunit-ls", "-o", "old"], cwd=folder, stdin=pipe, stdout=pipe, stderr=pipe)
    filter.stdin.write(stream(50_000))
    filter.stdin.flush()
    wait_until(lambda: os.path.exists(draft) and os.stat(draft).st_size > 0, "nothing is written")
    check(holds(folder, "old", b"old"), "the file is replaced before the end")
    filter.kill()
    filter.communicate()
    check(holds(folder, "old", b"old") and sorted(os.listdir(folder)) == ["old", "old.0.new"], f"the folder has {os.listdir(folder)}")
    text = listed(folder, given=stream(100))[1]
    check(listed(folder, "-o", "old", given=stream(100))[1:] == (b"", b"") and holds(folder, "old", text), "the next call fails")
    check(sorted(os.listdir(folder)) == ["old", "old.0.new"], f"the folder has {os.listdir(folder)}")


# What the program tells of itself, and the launcher.

@case
def help_is_told():
    folder = new_folder()
    for words in (["--help"], ["--version"], ["load", "--help"], ["stats", "--help"]):
        status, out, err = run(folder, *words)
        check(status == 0 and out.endswith(b"\n") and err == b"", f"{words} answers {status}")
    for name in NAMES[1:]:
        status, out, err = run(folder, "--help", program=[PROGRAM, name])
        # The help of `stestr` is that of `testr`.
        told = "testr" if name == "stestr" else name
        check(status == 0 and out.startswith(f"usage: {told}".encode()) and err == b"", f"{name} --help answers {status}")
    check(run(folder) == (2, b"", USAGE), "no words are no wrong usage")
    check(run(folder, "unknown", "--help") == (2, b"", USAGE), "an unknown command has help")
    check(run(folder, "load", "--help", "--help") == (2, b"", USAGE), "two words are help")
    check(os.listdir(folder) == [], "help makes files")


# What the build in the launcher needs of the system, beside `rt`.
TOOLS = ("sh", "dirname", "readlink", "sed", "awk", "cat", "cp", "cut", "date", "find", "getconf", "grep", "mkdir", "mv", "nproc", "rm",
         "sleep", "sort", "wc")

# An `rt` that proves in no time. `rt lib` makes a library where those below it are made, and `rt run` a program.
PRETENDED_RT = """
name=${PWD##*/}
case $1 in
lib)
    for other in ../*/; do
        other=${other%/}
        [ "../$name" = "$other" ] || [ -f "$other/out/rlib/stamp" ] || exit 1
    done
    mkdir -p out/rlib out/incremental && : >out/rlib/stamp
    ;;
run)
    mkdir -p out && printf '%s\\n' '#!/bin/sh' "printf '<%s>' \\"\\$@\\"" >out/testr_prog && chmod +x out/testr_prog
    ;;
esac
"""


def unbuilt(rt):
    """A top folder with the launchers and three crates, and the path of tools that has this `rt`, if any."""
    top = os.path.join(new_folder(), "a top")
    for name in ("low", "middle", "testr_prog"):
        os.makedirs(os.path.join(top, "crates", name, "src"))
    write(top, "crates.txt", b"middle: low\ntestr_prog: middle\nlow:\n")
    write(top, "VERSION", b"1.2.3\n")
    os.mkdir(os.path.join(top, ".git"))
    shutil.copytree(os.path.dirname(LAUNCHER), os.path.join(top, "bin"), symlinks=True)
    tools = os.path.join(top, "tools")
    os.mkdir(tools)
    for name in (*TOOLS, "chmod"):
        os.symlink(shutil.which(name), os.path.join(tools, name))
    if rt is not None:
        write(tools, "rt", b"#!/bin/sh\n" + rt.encode())
        os.chmod(os.path.join(tools, "rt"), 0o755)
    return top, {"PATH": tools}


def check_cleared(top):
    """Nothing is left of a build but its log and what it made."""
    check(os.listdir(os.path.join(top, ".git")) == [], "small checkouts are left")
    check("building" not in os.listdir(os.path.join(top, "crates", "testr_prog", "out")), "the build's lock is left")


@case
def the_build_fails():
    for rt, text in (("exit 1", "a failed build"), ("case $1 in run) ;; *) mkdir -p out/rlib && : >out/rlib/stamp ;; esac", "no program"),
                     ("kill -9 $$", "a killed build"), (None, "no `rt`")):
        top, env = unbuilt(rt)
        status, out, err = run(top, "stats", program=[os.path.join(top, "bin", "testr")], env=env)
        check((status, out) == (4, b""), f"{text} answers {status}")
        check(err.endswith(b"testr: the build failed\n"), f"{text} says {err!r}")
        if rt is not None:
            check_cleared(top)
            log = os.path.join(top, "crates", "testr_prog", "out", "build.log")
            check(rt.startswith("case") or f"; {log} says why\n".encode() in err, f"{text} says {err!r}")


@case
def it_is_built():
    top, env = unbuilt(PRETENDED_RT)
    status, out, err = run(top, "a", "b c", program=[os.path.join(top, "bin", "subunit-ls")], env=env)
    check((status, out) == (0, b"<subunit-ls><a><b c>"), f"the build answers {status}, {out!r}, {err!r}")
    check(err.startswith(b"subunit-ls: building the program") and err.endswith(b"\nsubunit-ls: built\n"), f"it says {err!r}")
    check_cleared(top)
    check(run(top, "a", program=[os.path.join(top, "bin", "testr")], env=env) == (0, b"<testr><a>", b""), "it is built again")


@case
def two_build_at_once():
    top, env = unbuilt(PRETENDED_RT.replace("run)", "run)\n    sleep 1"))
    command = [os.path.join(top, "bin", "testr"), "a"]
    both = [subprocess.Popen(command, env=env, stdin=subprocess.DEVNULL, stdout=subprocess.PIPE, stderr=subprocess.PIPE) for _ in range(2)]
    said = [one.communicate(timeout=LIMIT) for one in both]
    check([it for it, _ in said] == [b"<testr><a>"] * 2, f"two builds answer {said}")
    check(sum(b"another one builds" in it for _, it in said) == 1, f"two builds say {said}")


@case
def a_build_is_stopped():
    # What `rt` started ends with it, as the kit's does.
    top, env = unbuilt("echo $$ >>../../started; exec sleep 600")
    first = os.path.join(top, ".git", "first-build", "low", "started")
    one = subprocess.Popen([os.path.join(top, "bin", "testr"), "a"], env=env, stdin=subprocess.DEVNULL, stdout=subprocess.PIPE, stderr=subprocess.PIPE)
    wait_until(lambda: os.path.exists(first) and os.path.getsize(first), "no build begins")
    with open(first) as file:
        started = int(file.read())
    one.terminate()
    one.communicate(timeout=LIMIT)
    check(one.returncode == 143, f"a stopped build answers {one.returncode}")
    check(not os.path.exists(f"/proc/{started}"), "a stopped build goes on")
    check_cleared(top)


@case
def a_version_is_told():
    top = pretended()
    prefix = new_folder()
    write(top, "VERSION", b"1.2.3\n")
    check(install(top, prefix)[0] == 0, "it is not installed")
    for path in (os.path.join(top, "bin", "testr"), os.path.join(prefix, "bin", "testr")):
        check(run(top, "--version", program=[path]) == (0, b"testr 1.2.3, <testr><--version>\n", b""), f"{path} tells another version")
        check(run(top, "--version", "a", program=[path]) == (0, b"<testr><--version><a>", b""), f"{path} tells one word too many")


def git(top, *words):
    settings = ("-c", "user.name=a", "-c", "user.email=a@b", "-c", "commit.gpgsign=false")
    return subprocess.run(["git", "-C", top, *settings, *words], check=True, capture_output=True, text=True).stdout.strip()


@case
def a_release_is_made():
    need(shutil.which("git"), "there is no git")
    top, env = unbuilt(PRETENDED_RT)
    env = {**os.environ, "PATH": f"{env['PATH']}:{os.environ['PATH']}"}
    os.rmdir(os.path.join(top, ".git"))
    for name in ("README.md", "LICENSE", "CHANGELOG.md", "docs", "examples"):
        path = os.path.join(os.path.dirname(LAUNCHER), "..", name)
        (shutil.copytree if os.path.isdir(path) else shutil.copy)(path, os.path.join(top, name))
    write(top, ".gitignore", b"out/\n")
    git(top, "init", "-q")
    git(top, "add", "--all")
    git(top, "commit", "-q", "-m", "one")
    name, made = "hombirzsa-1.2.3-x86_64-linux", []
    for umask in (0o022, 0o077):
        folder = new_folder()
        status, out, err = run(top, folder, program=[os.path.join(top, "bin", "release")], env=env, umask=umask)
        check(status == 0, f"a release answers {status}, {err!r}")
        check(sorted(os.listdir(folder)) == [f"{name}.tar.gz", f"{name}.tar.gz.sha256"], f"a release makes {os.listdir(folder)}")
        check(shell(folder, f"sha256sum -c {name}.tar.gz.sha256")[0] == 0, "the sum is another")
        with open(os.path.join(folder, f"{name}.tar.gz"), "rb") as file:
            made.append(file.read())
    check(made[0] == made[1], "two releases of a commit differ")
    version = f"testr 1.2.3 (commit {git(top, 'rev-parse', '--short=12', 'HEAD')})"
    check(run(top, "--version", program=[os.path.join(top, "bin", "testr")])[1].startswith(f"{version}, ".encode()), "the checkout tells another version")
    write(top, "crates.txt", b"testr_prog: middle\nmiddle: low\nlow:\n")
    status, out, err = run(top, folder, program=[os.path.join(top, "bin", "release")], env=env)
    check((status, out) == (4, b"") and b"changes" in err, f"a release of changes answers {status}, {err!r}")
    shutil.rmtree(top)
    check(shell(folder, f"tar -xf {name}.tar.gz && cd {name} && ./install ../there")[0] == 0, "a release is not installed")
    for path in (os.path.join(folder, name, "bin"), os.path.join(folder, "there", "bin")):
        check(sorted(it for it in os.listdir(path) if it != "version") == sorted(NAMES), f"{path} has other names")
        for face in NAMES:
            says(folder, os.path.join(path, face), face)
        check(run(folder, "--version", program=[os.path.join(path, "testr")])[1].startswith(f"{version}, ".encode()), "a release tells another version")


NAMES = ("testr", "stestr", "subunit-filter", "subunit-tags", "subunit-ls", "subunit-stats", "subunit-trace", "tap2subunit", "subunit2tap", "subunit2csv", "subunit2junitxml", "subunit-output", "subunit-1to2", "subunit-2to1")


def pretended():
    """A top folder with the launchers, and a program that prints its words."""
    top = os.path.join(new_folder(), "a top")
    out = os.path.join(top, "crates", "testr_prog", "out")
    os.makedirs(out)
    shutil.copytree(os.path.dirname(LAUNCHER), os.path.join(top, "bin"), symlinks=True)
    with open(os.path.join(out, "testr_prog"), "w") as file:
        file.write("#!/bin/sh\nprintf '<%s>' \"$@\"\n")
    os.chmod(file.name, 0o755)
    return top


def says(folder, path, words):
    found = run(folder, "a", "b c", "--x=", program=[path])
    check(found == (0, f"<{words}><a><b c><--x=>".encode(), b""), f"{path} answers {found}")


@case
def each_name_is_a_face():
    top = pretended()
    for name in NAMES:
        says(top, os.path.join("bin", name), name)
        os.symlink(os.path.join("bin", name), os.path.join(top, f"my-{name}"))
        says(top, f"./my-{name}", name)
    # The first of the program's names on the way decides.
    os.symlink("my-subunit-ls", os.path.join(top, "again"))
    says(top, "./again", "subunit-ls")
    os.symlink("bin/testr", os.path.join(top, "subunit-tags"))
    says(top, "./subunit-tags", "subunit-tags")


def install(top, *words):
    return run(top, *words, program=[os.path.join(top, "bin", "install")])


@case
def it_is_installed():
    top, prefix = pretended(), os.path.join(new_folder(), "it's here")
    for _ in range(2):
        status, out, err = install(top, prefix)
        check(status == 0 and out.startswith(b"install:") and err == b"", f"install answers {status}, {err}")
    check(sorted(os.listdir(os.path.join(prefix, "bin"))) == sorted(NAMES), "other names are installed")
    shutil.rmtree(top)
    for name in NAMES:
        says(WORK, os.path.join(prefix, "bin", name), name)


@case
def an_install_is_refused():
    top, prefix = pretended(), new_folder()
    for words in ((), ("",), ("--other",), ("one", "two")):
        status, out, err = install(top, *words)
        check((status, out) == (2, b"") and err.startswith(b"usage: bin/install PREFIX\n"), f"{words} answers {status}")
    # A program of the same name is left alone, and so is a file in the folder's place.
    os.mkdir(os.path.join(prefix, "bin"))
    with open(os.path.join(prefix, "bin", "testr"), "w") as file:
        file.write("another's")
    for place, text in ((prefix, b"remove it first\n"), (file.name, b"\n")):
        status, out, err = install(top, place)
        check((status, out) == (4, b"") and err.endswith(text), f"{place} answers {status}, {err}")
    with open(file.name) as kept_file:
        check(kept_file.read() == "another's", "another's program is replaced")
    check(os.listdir(prefix) == ["bin"], "a refused install leaves folders")


main("faults", *sys.argv[4:])
PYTHON
