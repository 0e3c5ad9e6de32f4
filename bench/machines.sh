#!/bin/sh
# Runs the projects of examples/machines/ on four instances each: machines by ssh, slots by sem, containers. Then an instance
# of each is killed in the middle of a run: its tests are named as unfinished, and the instances are given back. Where
# `python3-subunit` of Debian, or what a project needs, is missing, its cases are skipped with a word.
# usage: bench/machines.sh [CASE..]: by default all cases. The variable IMAGE names an image of containers with
# `python-subunit`, and ENGINE their engine: docker, unless it is set.
set -eu

root=$(CDPATH='' cd -- "$(dirname -- "$0")/.." && pwd -P)
. "$root/bench/prepare.sh"

PYTHONDONTWRITEBYTECODE=1 PYTHONPATH=$root/bench ROOT=$root ENGINE=${ENGINE:-docker} \
    python3 - "$program" "$work" "$@" <<'PYTHON'
import os
import shutil
import signal
import socket
import subprocess
import sys

from cases import LIMIT, PROGRAM, case, check, init, main, need, new_folder, run

PROJECTS = os.path.join(os.environ["ROOT"], "examples", "machines")
ENGINE = os.environ["ENGINE"]
PYTHON = "/usr/bin/python3"
TOTAL = 200
WORKERS = 4


def answers(*words):
    """Whether the command is there and ends with 0."""
    try:
        return subprocess.run(words, stdout=subprocess.DEVNULL, stderr=subprocess.DEVNULL, timeout=LIMIT).returncode == 0
    except FileNotFoundError:
        return False


def free_port():
    """A port behind which those of four machines are free."""
    for first in range(20000, 60000, 17):
        try:
            for place in range(1, WORKERS + 1):
                with socket.socket() as at:
                    at.bind(("127.0.0.1", first + place))
            return first
        except OSError:
            pass
    check(False, "no port is free")


def project(kind):
    """A folder with the project, its tests and a repository."""
    need(answers(PYTHON, "-c", "import subunit, testtools"), "python3-subunit or python3-testtools is not installed")
    folder = new_folder()
    shutil.copytree(os.path.join(PROJECTS, kind), folder, dirs_exist_ok=True)
    shutil.copytree(os.path.join(PROJECTS, "tests"), os.path.join(folder, "tests"))
    init(folder)
    return folder


def ids_of(folder):
    """How each test of the last run ended, by its id, and the route that it ran under."""
    status, out, err = run(folder, "last", "--subunit")
    check(status == 0, f"last --subunit: {status}, {err}")
    reads = """
import io, subunit, sys
class Rows:
    def status(self, test_id=None, test_status=None, route_code=None, **rest):
        if test_id and test_status != "exists":
            print(test_id, test_status, route_code)
rows = Rows()
rows.startTestRun = rows.stopTestRun = lambda: None
subunit.ByteStreamToStreamResult(sys.stdin.buffer, non_subunit_name="stdout").run(rows)
"""
    said = subprocess.run([PYTHON, "-c", reads], input=out, capture_output=True, check=True, timeout=LIMIT).stdout.decode()
    rows = {}
    for line in said.splitlines():
        name, ended, route = line.split()
        rows[name] = (ended, route)
    return rows


def all_pass(folder, env, loses):
    """All tests pass, on four instances."""
    status, out, err = run(folder, "run", "--parallel", env=env)
    check((status, err) == (0, b""), f"status {status}: {out[-500:]}, {err}")
    check(b"Ran 200 tests" in out, f"the report is {out}")
    rows = ids_of(folder)
    check(len(rows) == TOTAL and {ended for ended, _ in rows.values()} == {"success"}, "not all tests passed")
    check({route for _, route in rows.values()} == {"0", "1", "2", "3"}, "not all instances had tests")


def descendants(process):
    """The process and all that it has started, the last first."""
    found = [process]
    for at in found:
        try:
            with open(f"/proc/{at}/task/{at}/children") as file:
                found += [int(word) for word in file.read().split()]
        except FileNotFoundError:
            pass
    return found[::-1]


def kill_with_all(folder, name):
    """Kills the process of this file, and all that it has started."""
    with open(os.path.join(folder, ".machines", name)) as file:
        process = int(file.read())
    for each in descendants(process):
        try:
            os.kill(each, signal.SIGKILL)
        except ProcessLookupError:
            pass


def one_is_lost(folder, env, loses):
    """The third instance is lost as soon as its worker has told of a test."""
    command = [PROGRAM, "testr", "run", "--parallel", "--live=tests"]
    with subprocess.Popen(command, cwd=folder, env=env, stdout=subprocess.PIPE, stderr=subprocess.PIPE) as called:
        for line in called.stderr:
            if line.startswith(b"{2} "):
                break
        loses()
        out, err = called.communicate(timeout=LIMIT)
    check(called.returncode == 1, f"status {called.returncode}: {out[-500:]}, {err[-500:]}")
    rows = ids_of(folder)
    tests = {name: row for name, row in rows.items() if name.startswith("tests.")}
    check(len(tests) == TOTAL, f"there are {len(tests)} tests")
    lost = [name for name, (ended, _) in tests.items() if ended == "inprogress"]
    check(lost and len(lost) < TOTAL // WORKERS, f"{len(lost)} tests were lost")
    check({tests[name][1] for name in lost} == {"2"}, "tests of another instance were lost")
    check(all(ended == "success" for ended, _ in tests.values() if ended != "inprogress"), "a test failed")
    check(all(b"UNFINISHED: " + name.encode() + b"\n" in out for name in lost), "the report does not name what was lost")


# ---- the kinds of engines: what each needs, as the environment of its project; how its third instance is lost; and which
# instances there are

def by_ssh():
    need(os.path.exists("/usr/sbin/sshd"), "openssh-server is not installed")
    need(answers("ssh", "-V"), "there is no ssh")
    return {**os.environ, "MACHINES_PORT": str(free_port())}


def by_sem():
    need(answers("sem", "--version"), "GNU parallel is not installed")
    return {**os.environ, "HOME": new_folder()}


def by_container():
    need(answers(ENGINE, "info"), f"no engine of containers answers as {ENGINE}")
    need("IMAGE" in os.environ, "IMAGE names no image")
    return dict(os.environ)


def served(folder):
    """The machines and slots of this project."""
    here = os.path.join(folder, ".machines")
    return {name for name in os.listdir(here) if name.endswith(".pid")} if os.path.isdir(here) else set()


def contained(folder):
    """The containers of this computer."""
    return set(subprocess.run([ENGINE, "ps", "--quiet", "--no-trunc"], capture_output=True, check=True).stdout.decode().split())


def kill_container(name):
    subprocess.run([ENGINE, "kill", name], check=True)


KINDS = {
    "ssh": (by_ssh, served, lambda folder, new: kill_with_all(folder, "machine-3.pid")),
    "sem": (by_sem, served, lambda folder, new: kill_with_all(folder, "slot-3.pid")),
    # Instances have the order of their names.
    "container": (by_container, contained, lambda folder, new: kill_container(sorted(new)[2])),
}


def tries(kind, shape):
    """The case of this shape, of instances of this kind, all of which are given back."""
    needed, instances, loses = KINDS[kind]

    def tried():
        env = needed()
        folder = project(kind)
        before = instances(folder)
        shape(folder, env, lambda: loses(folder, instances(folder) - before))
        check(instances(folder) == before, "an instance was kept")

    tried.__name__ = f"{shape.__name__}_by_{kind}"
    return tried


for kind in KINDS:
    case(tries(kind, all_pass))
    case(tries(kind, one_is_lost))

main("machines", *sys.argv[3:])
PYTHON
