"""What the scripts of this folder share that try the program case by case. Their first two words are the built program
and an empty folder to work in."""
import os
import subprocess
import sys
import time

PROGRAM, WORK = sys.argv[1:3]
LIMIT = 120
USAGE = b"testr: wrong usage\n"
FOLDER_FAULT = b"testr: fault of the repository folder\n"
CASES = []


class Wrong(Exception):
    pass


class Skipped(Exception):
    pass


def case(function):
    CASES.append(function)
    return function


def check(holds, text):
    if not holds:
        raise Wrong(text)


def need(holds, text):
    if not holds:
        raise Skipped(text)


def run(folder, *words, given=b"", before=(), program=None, limit=LIMIT, **how):
    """The status, the output and the errors of `testr WORDS..` in this folder, behind the words `before`."""
    command = [*before, *(program or [PROGRAM, "testr"]), *words]
    how = {"stdout": subprocess.PIPE, "stderr": subprocess.PIPE, **how}
    if "stdin" not in how:
        how["input"] = given
    try:
        done = subprocess.run(command, cwd=folder, timeout=limit, **how)
    except subprocess.TimeoutExpired:
        raise Wrong(f"{' '.join(words)} hangs")
    return done.returncode, done.stdout, done.stderr


def need_command(*words):
    """Leaves the case out where these words are no command yet. The folder that they are tried in has no repository."""
    folder = os.path.join(WORK, "nothing")
    os.makedirs(folder, exist_ok=True)
    need(run(folder, *words) != (2, b"", USAGE), f"`testr {' '.join(words)}` is no command yet")


def new_folder(mode=0o755):
    folder = os.path.join(WORK, f"home-{len(os.listdir(WORK))}")
    os.mkdir(folder)
    os.chmod(folder, mode)
    return folder


def init(folder):
    check(run(folder, "init") == (0, b"", b""), "init fails")


def at(folder, name):
    return os.path.join(folder, ".testrepository", name)


def write(folder, name, bytes):
    with open(os.path.join(folder, name), "wb") as file:
        file.write(bytes)


def bytes_of(folder, name):
    with open(at(folder, name), "rb") as file:
        return file.read()


def check_refused(done, line, *words):
    """A fault: its line, and one line more that has its cause in these words."""
    status, out, err = done
    check((status, out or b"") == (4, b""), f"status {status}, output {out!r}, errors {err!r}")
    lines = err.splitlines(True)
    check(lines[:1] == [line], f"the line is {err!r}")
    check(len(lines) == 2 and lines[1].startswith(b"testr: cause: "), f"the cause is {lines[1:]}")
    for word in words:
        check(word in lines[1], f"the cause is {lines[1]!r}, without {word!r}")


def wait_until(holds, text):
    end = time.monotonic() + LIMIT
    while not holds():
        check(time.monotonic() < end, text)
        time.sleep(0.002)


def main(kind, *names):
    """Tries the cases of these names, or all, and says how many were as they must be."""
    counts = {"ok": 0, "wrong": 0, "skipped": 0}
    for function in CASES:
        name = function.__name__
        if names and name not in names:
            continue
        try:
            function()
            counts["ok"] += 1
            print(f"ok       {name}", flush=True)
        except Skipped as why:
            counts["skipped"] += 1
            print(f"skipped  {name}: {why}", flush=True)
        except Wrong as why:
            counts["wrong"] += 1
            print(f"WRONG    {name}: {why}", flush=True)
    print(kind + ": {ok} cases as they must be, {wrong} wrong, {skipped} skipped".format(**counts))
    sys.exit(1 if counts["wrong"] or not counts["ok"] else 0)
