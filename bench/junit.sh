#!/bin/sh
# Tries `subunit2junitxml` over real streams. Python's `xml.etree` reads the documents of 10,000 drawn tests and more, with
# ids and texts that look like markup or are no XML, and finds what is told from the drawn events without the program. It
# also reads those of the streams of examples/, and of small streams made by rule. Where `xmllint` is installed it reads
# all of them, too.
# usage: bench/junit.sh [CASE..]: by default all cases. The variable SEED has the seed of what is drawn, 1 unless said
# otherwise.
set -eu

root=$(CDPATH='' cd -- "$(dirname -- "$0")/.." && pwd -P)
. "$root/bench/prepare.sh"

SEED=${SEED:-1} ROOT=$root PYTHONDONTWRITEBYTECODE=1 PYTHONPATH=$root/bench python3 - "$program" "$work" "$@" <<'PYTHON'
import glob
import os
import random
import re
import shutil
import struct
import subprocess
import sys
import xml.etree.ElementTree as etree

import streams
from cases import PROGRAM, case, check, main, need, run
from streams import FAIL, FILE, ID, IN_PROGRESS, LAST, RUNNABLE, SKIP, SUCCESS, TIME, TYPE, number, text

SEED = int(os.environ["SEED"])
UNSET, EXISTS, UXSUCCESS, XFAIL = 0, 1, 4, 7
KINDS = {FAIL: "fail", UXSUCCESS: "uxsuccess"}
STATUSES = (UNSET, EXISTS, IN_PROGRESS, IN_PROGRESS, SUCCESS, SUCCESS, UXSUCCESS, SKIP, FAIL, FAIL, XFAIL)
# What ids are drawn of. An id is UTF-8 without NUL.
SIGNS = ("a", "b", "Z", "0", ".", ".", " ", "(", ")", "[", "]", "<", ">", "&", '"', "'", "&amp;", "&#9;", "]]>", "<!--",
         "</testcase>", "\t", "\n", "\r", "\x01", "\x1b", "\x7f", "\x85", "ä", "\ud7ff", "\ue000", "\ufffd", "\ufffe",
         "\uffff", "\U0001f40d", "\U0010ffff")
# And what texts are drawn of, which are any bytes.
PARTS = tuple(sign.encode() for sign in SIGNS) + (b"\0", b"\xff", b"\x80", b"\xc0\xbc", b"\xe2\x82", b"\xed\xa0\x80",
                                                  b"\xf0\x9f\x98", b"\xf4\x90\x80\x80", b"</failure>", b"<![CDATA[")
REFUSED = re.compile("[^\t\n\r\x20-\ud7ff\ue000-\ufffd\U00010000-\U0010ffff]")


def document(given, failed=None):
    """The document of the stream. Its status is 1 where a test failed."""
    status, out, err = run(os.curdir, given=given, program=[PROGRAM, "subunit2junitxml"])
    check(err == b"" and status in (0, 1) and failed in (None, status == 1), f"status {status}, errors {err!r}")
    if shutil.which("xmllint"):
        lint = subprocess.run(["xmllint", "--noout", "-"], input=out, capture_output=True)
        check(lint.returncode == 0, f"xmllint: {lint.stderr[:500]!r}")
    return out


def shown(value):
    """What XML 1.0 can say of the bytes."""
    return REFUSED.sub("\ufffd", value.decode(errors="replace"))


def names_of(name):
    front = re.split(rb"[(\[]", name)[0]
    place = front.rfind(b".")
    return (b"", name) if place < 1 else (name[:place], name[place + 1:])


def seconds(nanos):
    millis = (nanos + 500_000) // 1_000_000
    return f"{millis // 1000}.{millis % 1000:03}"


def packet_of(route, name, status, moment, said, file=b"log"):
    front = struct.pack(">I", moment // 10 ** 9) + number(moment % 10 ** 9) if moment is not None else b""
    told = text(b"text/plain") + text(file) + text(said) if said else b""
    flags = (TIME if moment is not None else 0) | ID | RUNNABLE | (TYPE | FILE if said else 0) | status
    return streams.event(flags, front + text(name) + told, route)


def drawn(draw, count):
    """A stream and the events in it: route, id, status, moment in nanoseconds, text, and the name of its file."""
    names = ["".join(draw.choices(SIGNS, k=draw.randrange(9))).encode() for _ in range(count // 8)]
    stream, events = bytearray(), []
    for _ in range(count):
        if draw.random() < 0.1:
            stream += draw.choice((b"a line of a log\n", b"\n", b"\xb3", b"<?xml?>\n"))
        moment = draw.choice((None, draw.randrange(10 ** 18), draw.randrange(10 ** 10)))
        said = b"".join(draw.choices(PARTS, k=draw.randrange(12)))
        event = (draw.choice((b"", b"0", b"1", b"0/2")), draw.choice(names), draw.choice(STATUSES), moment, said,
                 draw.choice((b"log", b"reason", b"traceback")))
        stream += packet_of(*event)
        events.append(event)
    return bytes(stream), events


def text_of(pieces):
    """A file that is alone as it stands; else each under its name, and the traceback last."""
    last = b"".join(said for file, said in pieces if file == b"traceback")[:65_536]
    others = []
    for file, said in pieces:
        if file == b"traceback" or not said:
            continue
        if others and others[-1][0] == file:
            others[-1] = file, others[-1][1] + said
        else:
            others.append((file, said))
    if len(others) + bool(last) < 2:
        return (others[0][1] if others else last)[:65_536]
    told = b"".join(file + b": {{{\n" + said + (b"" if said.endswith(b"\n") else b"\n") + b"}}}\n" for file, said in others)[:65_536]
    return told + (b"" if told.endswith(b"\n") else b"\n") + last


def row(name, kind, nanos, said, why):
    """A case: class, name, seconds, and what stands in it."""
    one, other = names_of(name)
    inside = [("skipped", shown(why[:1_024].split(b"\n")[0]), None)] if kind == "skip" else [("failure", kind, shown(text_of(said)))] if kind else []
    return (shown(one), shown(other), seconds(nanos or 0), inside), nanos


def rows_of(events):
    """The rows that ran, by route, the open ones of each route behind the others, by id."""
    begun, rows = {}, {}
    for route, name, status, moment, said, file in events:
        rows.setdefault(route, [])
        first, before, why = begun.pop((route, name), (moment, [], b""))
        before = before + [(file, said)]
        why += said if file == b"reason" else b""
        if status in (UNSET, IN_PROGRESS):
            begun[route, name] = first, before, why
            continue
        nanos = moment - first if None not in (first, moment) and moment >= first else None
        if status != EXISTS:
            rows[route].append(row(name, "skip" if status == SKIP else KINDS.get(status), nanos, before, why))
    for (route, name), (_, said, why) in sorted(begun.items()):
        rows[route].append(row(name, "unfinished", None, said, why))
    return [one for route in sorted(rows) for one in rows[route]]


def counts_of(rows):
    kinds = [inside[0][0] if inside else None for (_, _, _, inside), _ in rows]
    return {"name": "", "tests": str(len(rows)), "failures": str(kinds.count("failure")), "errors": "0",
            "skipped": str(kinds.count("skipped")), "time": seconds(sum(nanos or 0 for _, nanos in rows))}


def told_by(element):
    """The same of an element of the document."""
    inside = [(one.tag, one.get("type") or one.get("message") or "", (one.text or "") if one.tag == "failure" else None)
              for one in element]
    return element.get("classname"), element.get("name"), element.get("time"), inside


def as_read(case):
    """A reader of XML takes a carriage return of a text for a newline."""
    return case[:3] + ([(tag, kind, said and said.replace("\r\n", "\n").replace("\r", "\n")) for tag, kind, said in case[3]],)


@case
def python_reads_the_cases_of_drawn_tests():
    stream, events = drawn(random.Random(SEED), 40_000)
    rows = rows_of(events)
    check(len(rows) > 10_000, f"only {len(rows)} tests were drawn")
    suite = etree.fromstring(document(stream, True))
    check(suite.tag == "testsuite" and suite.attrib == counts_of(rows), f"the suite is {suite.attrib}, and not {counts_of(rows)}")
    for place, (element, (wanted, _)) in enumerate(zip(suite, rows)):
        found = told_by(element)
        check(element.tag == "testcase" and found == as_read(wanted), f"case {place} is {found}, and not {as_read(wanted)}")
    check(len(suite) == len(rows), f"{len(suite)} cases, and not {len(rows)}")


@case
def each_tag_stands_in_its_line():
    given = packet_of(b"", b"a<b", FAIL, None, b"1 < 2\n") + packet_of(b"", b"b.s", SKIP, 7, b"no \"net\"\nnow", b"reason")
    wanted = ('<?xml version="1.0" encoding="utf-8"?>\n'
              '<testsuite name="" tests="2" failures="1" errors="0" skipped="1" time="0.000">\n'
              '<testcase classname="" name="a&lt;b" time="0.000">\n<failure type="fail">1 &lt; 2\n</failure>\n</testcase>\n'
              '<testcase classname="b" name="s" time="0.000">\n<skipped message="no &quot;net&quot;"/>\n</testcase>\n</testsuite>\n')
    check(document(given, True) == wanted.encode(), "the document differs")
    check(len(etree.fromstring(document(b"", False))) == 0, "a case of nothing")


@case
def no_option_changes_it():
    given = b"a line\n" + packet_of(b"", b"a", SUCCESS, None, b"")
    done = run(os.curdir, "--no-passthrough", given=given, program=[PROGRAM, "subunit2junitxml"])
    check(done == (0, document(given, False), b""), "the document differs")
    check(run(os.curdir, "--times", given=given, program=[PROGRAM, "subunit2junitxml"])[0] == 2, "an option is taken")


@case
def streams_of_real_tests_are_documents():
    names = sorted(glob.glob(os.path.join(os.environ["ROOT"], "examples", "**", "*.subunit"), recursive=True))
    need(names, "there are no streams in examples/")
    for name in names:
        with open(name, "rb") as file:
            etree.fromstring(document(file.read()))


@case
def streams_made_by_rule_are_documents():
    for kind, count in (("small", 20_000), ("texts", 500), ("logs", 20_000), ("tagged", 20_000), ("lanes", 20_000)):
        given = b"".join(getattr(streams, kind)(count))
        suite = etree.fromstring(document(given))
        check(len(suite) == int(suite.get("tests")) > 0, f"{kind}: {len(suite)} cases of {suite.get('tests')} tests")


main("junit", *sys.argv[3:])
PYTHON
