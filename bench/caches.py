"""What the two caches of a repository must hold, told from the bytes of its runs and without the program; and runs to try
them with, drawn from a seed."""
import os
import random
import zlib

import streams
from cases import at, bytes_of, check, init, need, new_folder, run
from streams import FAIL, FILE, ID, IN_PROGRESS, ROUTE, RUNNABLE, SKIP, SUCCESS, TAGS, TIME, TYPE

NAMES = ("failing.set", "times.set")
UNSET, EXISTS, UXSUCCESS, XFAIL = 0, 1, 4, 7
# Behind the statuses of packets: a test that did not end.
OPEN = 8
# Of drawn tests.
STATUSES = (UNSET, EXISTS, IN_PROGRESS, IN_PROGRESS, IN_PROGRESS, SUCCESS, SUCCESS, SUCCESS, UXSUCCESS, SKIP, FAIL, XFAIL)


def number_at(bytes, place):
    width = (bytes[place] >> 6) + 1
    value = int.from_bytes(bytes[place:place + width], "big") & ((1 << (8 * width - 2)) - 1)
    return value, place + width


def text_at(bytes, place):
    size, place = number_at(bytes, place)
    return bytes[place:place + size], place + size


def event_of(packet):
    """The route, the id, the status and the nanoseconds of a packet, where it has them."""
    flags, (_, place) = int.from_bytes(packet[1:3], "big"), number_at(packet, 3)
    route = name = moment = None
    if flags & TIME:
        seconds = int.from_bytes(packet[place:place + 4], "big")
        rest, place = number_at(packet, place + 4)
        moment = seconds * 1_000_000_000 + rest
    if flags & ID:
        name, place = text_at(packet, place)
    if flags & TAGS:
        count, place = number_at(packet, place)
        for _ in range(count):
            _, place = text_at(packet, place)
    if flags & TYPE:
        _, place = text_at(packet, place)
    if flags & FILE:
        _, place = text_at(packet, place)
        _, place = text_at(packet, place)
    if flags & ROUTE:
        route, place = text_at(packet, place)
    if place != len(packet) - 4:
        raise ValueError("a packet has other fields")
    return route, name, flags & 7, moment


def events_of(stream):
    """The events of a stream of packets alone."""
    place = 0
    while place < len(stream):
        size, _ = number_at(stream, place + 3)
        packet = stream[place:place + size]
        if packet[0] != 0xb3 or zlib.crc32(packet[:-4]) != int.from_bytes(packet[-4:], "big"):
            raise ValueError(f"no packet at {place}")
        yield event_of(packet)
        place += size


def rows_of(stream):
    """The id, how it ended and the time of each test that ran, as often as it ran."""
    begun, rows = {}, []
    for route, name, status, moment in events_of(stream):
        if name is None:
            continue
        first = begun.setdefault((route, name), moment)
        if status not in (UNSET, IN_PROGRESS):
            del begun[route, name]
            took = None if first is None or moment is None or moment < first else moment - first
            rows.append((name, status, took))
    rows += [(name, OPEN, None) for _, name in begun]
    return [row for row in rows if row[1] != EXISTS]


class Said:
    """What some runs say together. They are told one after another."""

    def __init__(self):
        self.runs, self.failing, self.times = 0, set(), {}

    def take(self, stream, is_partial=False):
        failed, ran, longest = set(), set(), {}
        for name, status, took in rows_of(stream):
            ran.add(name)
            if status in (FAIL, UXSUCCESS, OPEN):
                failed.add(name)
            if took is not None:
                longest[name] = max(took, longest.get(name, 0))
        self.runs += 1
        self.failing = (self.failing - ran) | failed if is_partial else failed
        self.times.update(longest)
        return self

    def caches(self):
        """The bytes of the files."""
        failing = b"".join(name + b"\0" for name in sorted(self.failing))
        times = b"".join(b"%s\0%d\0" % timed for timed in sorted(self.times.items()))
        return {"failing.set": b"subunit-failing 1\n%d\n" % self.runs + failing,
                "times.set": b"subunit-times 1\n%d\n" % self.runs + times}

    def listed(self):
        """What `testr failing --list` prints, and its status."""
        return (1 if self.failing else 0), b"".join(name + b"\n" for name in sorted(self.failing))


def drawn(chance):
    """A small run of tests from a to h: what is loaded, and what is kept of it. Some are open, some run twice or under
    two routes, some are only listed, and some have times."""
    given, kept = b"", b""
    for _ in range(chance.randrange(40)):
        flags, body = ID | RUNNABLE | chance.choice(STATUSES), streams.text(bytes([chance.choice(b"abcdefgh")]))
        if chance.random() < 0.7:
            flags, body = flags | TIME, streams.time(chance.randrange(500)) + body
        route = chance.choice((b"", b"", b"1"))
        given += streams.event(flags, body, route)
        kept += streams.event(flags, body, b"0/" + route if route else b"0")
    return given, kept


class Home:
    """A repository into which runs are loaded, what they are, and what they say together."""

    def __init__(self, seed, folder=None):
        self.folder, self.chance, self.said = folder or new_folder(), random.Random(seed), Said()
        self.runs, self.moments, self.puts_caches = {}, [self.said.caches()], False
        init(self.folder)

    def next_name(self, is_partial):
        return f"{self.said.runs}.part" if is_partial else str(self.said.runs)

    def took(self, kept, is_partial):
        """One more run is stored."""
        self.runs[self.next_name(is_partial)] = kept
        self.said.take(kept, is_partial)
        self.moments.append(self.said.caches())

    def remove_last(self):
        """Removes the last run, as one does by hand."""
        *runs, (last, _) = self.runs.items()
        os.remove(at(self.folder, last))
        self.said, self.runs = Said(), {}
        self.moments = [self.said.caches()]
        for name, kept in runs:
            self.took(kept, name.endswith(".part"))

    def load(self, is_partial=None, pair=None, **how):
        """Loads a drawn run, or this one, which is stored however the load ends. Answers how it ended."""
        is_partial = self.chance.random() < 0.6 if is_partial is None else is_partial
        given, kept = pair or drawn(self.chance)
        words = ["load", "--partial"] if is_partial else ["load"]
        answer = run(self.folder, *words, given=given, **how)
        self.took(kept, is_partial)
        return answer

    def load_well(self, **how):
        """The same, where nothing fails: all is there."""
        status, out, err = self.load(**how)
        check(status <= 1 and b"id=%d" % (self.said.runs - 1) in out and err == b"", f"a load answers {status}, {out}, {err}")
        self.check_runs()
        self.check_caches()

    def need_caches(self):
        """Leaves the case out where a load has put none."""
        need(self.puts_caches or found(self.folder), "the program puts no caches yet")
        self.puts_caches = True

    def check_caches(self):
        """Where the program puts caches, both are there, and they are those of all runs."""
        there, wanted = found(self.folder), self.moments[-1]
        is_right = there == wanted or not (there or self.puts_caches)
        check(is_right, f"the caches are {shortened(there)}, not {shortened(wanted)}")

    def check_sound(self):
        """Each cache that is there is that of some of the first runs."""
        for name, cache in found(self.folder).items():
            wanted = [moment[name] for moment in self.moments]
            check(cache in wanted, f"{name} is {cache[:200]}, and none of the first runs'")

    def check_runs(self, also=()):
        """The runs are whole, and no draft is left, unless that is also allowed."""
        there = set(os.listdir(os.path.join(self.folder, ".testrepository"))) - {"lock", "writer", *NAMES, *also}
        check(there == {"format", *self.runs}, f"the files are {sorted(there)}")
        for name, kept in self.runs.items():
            check(bytes_of(self.folder, name) == kept, f"run {name} is damaged")

    def check_failing(self):
        answer, wanted = run(self.folder, "failing", "--list"), (*self.said.listed(), b"")
        check(answer == wanted, f"failing answers {answer}, not {wanted}")


def shortened(caches):
    return {name: bytes[:200] for name, bytes in caches.items()}


def found(folder):
    """The caches that are there."""
    return {name: bytes_of(folder, name) for name in NAMES if os.path.exists(at(folder, name))}


def remove(folder):
    for name in found(folder):
        os.remove(at(folder, name))
