"""A small project with tests and a repository, in which scripts of this folder try `testr`."""
import os

from cases import at, check, init, new_folder, write
from streams import FAIL, ID, RUNNABLE, SUCCESS, event, text

EXISTS = 1

CONF = """[DEFAULT]
test_command=./worker $LISTOPT $IDOPTION
test_id_option=--ids $IDFILE
test_list_option=--list
"""

# Without options it runs all tests, and with ids these, in their order.
WORKER = """#!/bin/sh
case ${1-} in
--list) exec cat packets/listing ;;
--ids) while read -r id; do cat "packets/$id"; done < "$2" ;;
*) cat packets/a packets/b packets/c ;;
esac
"""


# What other workers begin with, so that they list their tests all the same.
LISTS = "[ \"${1-}\" != --list ] || exec cat packets/listing\n"


def packet(name, status, route=b""):
    return event(ID | RUNNABLE | status, text(name), route)


STATUSES = {b"a": SUCCESS, b"b": SUCCESS, b"c": FAIL}


def kept(names, route=b"0"):
    """What is kept of these tests under a route."""
    return b"".join(packet(name, STATUSES[name], route) for name in names)


def project(worker=WORKER, conf=CONF):
    """A folder with a project and a repository without runs."""
    folder = new_folder()
    os.mkdir(os.path.join(folder, "packets"))
    for name, status in STATUSES.items():
        write(folder, f"packets/{name.decode()}", packet(name, status))
    write(folder, "packets/listing", b"".join(packet(name, EXISTS) for name in STATUSES))
    write(folder, ".testr.conf", conf.encode())
    write(folder, "worker", worker.encode())
    os.chmod(os.path.join(folder, "worker"), 0o755)
    init(folder)
    return folder


def report(failed, total, number):
    """The report of a run in which these tests failed, each with its text."""
    blocks = b"".join(b"=" * 70 + b"\nFAIL: " + name + b"\n" + b"-" * 70 + b"\n" + said for name, said in failed)
    ended = b"FAILED (id=%d, failures=%d)\n" % (number, len(failed)) if failed else b"PASSED (id=%d)\n" % number
    return blocks + b"Ran %d tests\n" % total + ended


def check_answer(found, status, out, text, err=b""):
    check(found == (status, out, err), f"{text} answers {found}")


def check_clean(folder):
    """No draft and no file of ids is left."""
    left = [name for name in os.listdir(folder) if name.startswith(".testr-ids")]
    left += ["draft"] if os.path.lexists(at(folder, "draft")) else []
    check(not left, f"{left} are left")
