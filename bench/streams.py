#!/usr/bin/env python3
"""Subunit v2 streams and lines of TAP, made by rule, so that equal words give equal bytes.

usage: streams.py KIND COUNT >STREAM

  small COUNT   COUNT events: each test is in progress and then ends, both with a time
  texts COUNT   COUNT tests, each with a text of 4096 bytes in four pieces
  logs COUNT    COUNT events as in small, and log lines between them, which are a third of the bytes
  sums COUNT    COUNT bytes: heads of packets that nest in one another, each as long as can be, and zeros behind them.
                Their lengths are right, and the checksum alone tells that there is no packet
  tags COUNT    the same with heads that tell of millions of tags each
  ids COUNT     the same with heads whose ids are no UTF-8

  tagged COUNT  COUNT events as in small, each with two tags and one of eight routes
  lanes COUNT   COUNT events as in small, of 64 routes in turn

  tap COUNT     COUNT lines of TAP: tests with directives, comments, other lines, and the plan
  blocks COUNT  the same with a block of comment lines behind each test, and now and then an indented one of other lines
  line COUNT    one line of TAP of COUNT bytes
"""
import os
import shutil
import struct
import sys
import zlib

IN_PROGRESS, SUCCESS, SKIP, FAIL = 2, 3, 5, 6
VERSION, ROUTE, ID, TIME, RUNNABLE, TAGS, TYPE, FILE, LAST = (
    0x2000, 0x0400, 0x0800, 0x0200, 0x0100, 0x0080, 0x0020, 0x0040, 0x0010,
)
MOST = 10_000_000
BATCH = 1 << 20
AREAS = (b"core", b"parser", b"network", b"storage", b"models", b"views", b"queue", b"access")
ACTIONS = (b"creates", b"removes", b"rejects", b"parses", b"keeps", b"orders", b"renders", b"merges")


def number(value):
    """The shortest spelling of a number."""
    if value < 1 << 6:
        return bytes([value])
    if value < 1 << 14:
        return struct.pack(">H", value | 1 << 14)
    if value < 1 << 22:
        return struct.pack(">I", value | 2 << 22)[1:]
    return struct.pack(">I", value | 3 << 30)


def text(value):
    return number(len(value)) + value


def packet(flags, body):
    """The packet of these flags and of this body, which is all that stands between its size and its checksum."""
    for width in (1, 2, 3):
        size = number(3 + width + len(body) + 4)
        if len(size) == width:
            break
    front = b"\xb3" + struct.pack(">H", VERSION | flags) + size + body
    return front + struct.pack(">I", zlib.crc32(front))


def event(flags, body, route=b""):
    """A packet, with a route behind all else where there is one."""
    return packet(flags | ROUTE, body + text(route)) if route else packet(flags, body)


def test_id(place):
    """About 60 bytes, and another id for each place."""
    return b"project.tests.test_%s.%sTests.test_%s_the_value_%07d" % (
        AREAS[place % 8], AREAS[place // 8 % 8].title(), ACTIONS[place // 64 % 8], place)


def time(place):
    """One moment more for each place, with a part of a second that takes four bytes."""
    return struct.pack(">I", 1_700_000_000 + place // 50) + number(place % 50 * 20_000_000 + 4_194_304)


def end_of(place):
    return FAIL if place % 997 == 7 else SKIP if place % 101 == 5 else SUCCESS


def small(count, route=b""):
    for place in range(count):
        status = end_of(place // 2) if place % 2 else IN_PROGRESS
        yield event(TIME | ID | RUNNABLE | status, time(place) + text(test_id(place // 2)), route)


def trace(place):
    """A text of 4096 bytes."""
    line = b'  File "/srv/project/%s.py", line %d, in test_%s\n    self.assertEqual(%d, value)\n' % (
        AREAS[place % 8], place % 2000, ACTIONS[place // 8 % 8], place)
    return (b"Traceback (most recent call last):\n" + line * 64)[:4095] + b"\n"


def texts(count, route=b""):
    for place in range(count):
        name, whole = text(test_id(place)), trace(place % 64)
        yield event(TIME | ID | RUNNABLE | IN_PROGRESS, time(2 * place) + name, route)
        for start in range(0, 4096, 1024):
            last = LAST if start == 3072 else 0
            file = text(b"text/plain;charset=utf8") + text(b"traceback") + text(whole[start:start + 1024])
            yield event(ID | RUNNABLE | TYPE | FILE | last, name + file, route)
        yield event(TIME | ID | RUNNABLE | end_of(place), time(2 * place + 1) + name, route)


def logs(count):
    for place, given in enumerate(small(count)):
        yield given
        if place % 2:
            yield b"2026-01-02 03:04:%02d,%03d INFO [worker-%d] %s: the request %07d took %03d ms to serve\n" % (
                place % 60, place % 1000, place % 4, AREAS[place % 8], place, place % 900)


def nested(unit, count):
    """Heads in the first half, and zeros in the second."""
    heads = count // 2 // len(unit)
    yield unit * heads
    yield bytes(count - heads * len(unit))


def sums(count):
    return nested(b"\xb3\x20\x40\xbf\xff\xff\x00\xbf\xff\xf1", count)


def tags(count):
    return nested(b"\x09\xb3\x20\x80\xbf\xff\xff\xbf\xff\xff", count)


def ids(count):
    return nested(b"\xb3\x29\x03\xbf\xff\xff", count)


def tagged(count):
    both = [number(2) + text(b"worker-%d" % (place % 4)) + text(AREAS[place]) for place in range(8)]
    for place in range(count):
        test = place // 2
        status = end_of(test) if place % 2 else IN_PROGRESS
        body = time(place) + text(test_id(test)) + both[test % 8]
        yield event(TIME | ID | RUNNABLE | TAGS | status, body, b"%d/%d" % (test % 4, test % 2))


def lanes(count):
    """Each route has a test in progress while the others go on."""
    for place in range(count):
        test, lane = place // 128 * 64 + place % 64, b"%d" % (place % 64)
        status = end_of(test) if place // 64 % 2 else IN_PROGRESS
        yield event(TIME | ID | RUNNABLE | status, time(place) + text(test_id(test)), lane)


def tap_test(place):
    """The line of a test, without its newline."""
    words = b"%s the value %d of %s" % (ACTIONS[place % 8], place, AREAS[place // 8 % 8])
    if place % 50 == 7:
        return b"not ok %d - %s" % (place + 1, words)
    if place % 30 == 11:
        return b"ok %d %s # SKIP no %s here" % (place + 1, words, AREAS[place % 8])
    if place % 30 == 17:
        return b"not ok %d %s # TODO later" % (place + 1, words)
    return b"ok %d - %s" % (place + 1, words)


def tap(count):
    tests = 0
    for place in range(count - 1):
        if place % 8 == 5:
            yield b"# a comment of line %d\n" % place
        elif place % 10 == 3:
            yield b"other output of line %d\n" % place
        else:
            yield tap_test(tests) + b"\n"
            tests += 1
    yield b"1..%d\n" % tests


def block(place):
    lines = (b"---", b"message: 'the value %d'" % place, b"severity: comment", b"at:", b"  file: %s.t" % AREAS[place % 8], b"...")
    before = b"  " if place % 10 == 9 else b"# "
    return b"".join(before + line + b"\n" for line in lines)


def blocks(count):
    tests = max(1, count // 7)
    yield b"1..%d\n" % tests
    for place in range(tests):
        yield tap_test(place) + b"\n" + block(place)


def line(count):
    yield b"ok 1 - " + b"x" * max(0, count - 8) + b"\n"


KINDS = {"small": small, "texts": texts, "logs": logs, "sums": sums, "tags": tags, "ids": ids, "tagged": tagged,
         "lanes": lanes, "tap": tap, "blocks": blocks, "line": line}


def write(file, pieces):
    """Writes the pieces, many at a time."""
    held, size = [], 0
    for piece in pieces:
        held.append(piece)
        size += len(piece)
        if size >= BATCH:
            file.write(b"".join(held))
            held, size = [], 0
    file.write(b"".join(held))


def made(sizes, work, percent, wanted):
    """Each kind of the sizes in turn that is wanted, or all: its name, and a file of so much of its size, which is removed
    behind it."""
    for kind, size in sizes.items():
        if not wanted or kind in wanted:
            path = os.path.join(work, kind)
            with open(path, "wb") as file:
                write(file, KINDS[kind](max(2, size * percent // 100)))
            yield kind, path
            os.remove(path)


def found(folder, work, wanted):
    """The inputs in the folder: of each its name, its file, and whether it is one of TAP. A folder in it is one input, its
    files one behind another."""
    for name in sorted(os.listdir(folder)):
        path = os.path.join(folder, name)
        if wanted and name not in wanted:
            continue
        if os.path.isdir(path):
            joined = os.path.join(work, name)
            with open(joined, "wb") as file:
                for part in sorted(os.listdir(path)):
                    with open(os.path.join(path, part), "rb") as source:
                        shutil.copyfileobj(source, file)
            yield name, joined, False
            os.remove(joined)
        else:
            yield name, path, name.endswith(".tap")


def main(words):
    if len(words) != 2 or words[0] not in KINDS or not words[1].isdigit() or int(words[1]) > MOST:
        sys.exit(__doc__.strip())
    write(sys.stdout.buffer, KINDS[words[0]](int(words[1])))


if __name__ == "__main__":
    main(sys.argv[1:])
