"""A plain model of docs/SCRIPTS.md: what a script of `lsvdctl replay` is answered.

It knows a list of writes and zeroings, with the places of their records in the log, and a list of objects. It is no part of the
program, and is written without a look at it.
"""
import itertools
import re
from dataclasses import dataclass, field
from fractions import Fraction

LINE_LIMIT = 65_536
SCRIPT_LIMIT = 16_777_216
MOST_ENTRIES = 16_384
MOST_OBJECTS = 16
# why a line is bad
UNKNOWN, COUNT, FORM, NOT_ALLOWED, LETTERS, TOO_LONG = 1, 2, 3, 4, 5, 6

# ---- the volume


class BadLine(Exception):
    """A line is bad, for the reason that it carries."""


class Fault(Exception):
    """The device failed a call."""


@dataclass
class Entry:
    """A write or a zeroing: its sectors, their byte, and where its record begins in the log. Places in the log count on past
    its end, so the sector itself is the rest by the log's length. The total is of the sectors of all writes up to this one."""

    lba: int
    sectors: int
    byte: int
    is_write: bool
    at: int
    total: int


@dataclass
class Upload:
    """An object that is not acknowledged."""

    is_checkpoint: bool = False
    is_out: bool = False
    was_begun: bool = False


@dataclass
class Mark:
    """What a commit says: where the log begins and ends, each as a number of entries and as a place."""

    tail: int
    tail_at: int
    head: int
    head_at: int


@dataclass
class Volume:
    sectors: int
    log: int
    most: int
    batch: int
    entries: list = field(default_factory=list)
    # for each object from 1 on, how many entries there are up to its end; and those of them that are not acknowledged
    ends: list = field(default_factory=lambda: [0])
    uploads: dict = field(default_factory=dict)
    # the numbers of all checkpoints, the newest acknowledged one, and the objects that were removed
    checkpoints: set = field(default_factory=lambda: {1})
    newest: int = 1
    removed: set = field(default_factory=set)
    # the sectors of each copy, each with the object that it is copied from, and those of the plan of a copy that is out
    copies: dict = field(default_factory=dict)
    plan: list | None = None
    # the place behind the last record, the last commit, and a later one of which the first half was made alone
    head: int = 0
    mark: Mark = field(default_factory=lambda: Mark(0, 0, 0, 0))
    half_made: Mark | None = None
    # the calls that the device still passes, if it was told to stop, and the writes since its last sync
    left: int | None = None
    pending: list = field(default_factory=list)

    # -- the device

    def call(self):
        if self.left is not None:
            if self.left == 0:
                raise Fault
            self.left -= 1

    def write(self, what):
        self.call()
        self.pending.append(what)

    def sync(self):
        self.call()
        self.pending.clear()

    def commit(self):
        tail = self.frontier_end()
        tail_at = self.entries[tail].at if tail < len(self.entries) else self.head
        mark = Mark(tail, tail_at, len(self.entries), self.head)
        self.write("body")
        self.write("closed gate")
        self.sync()
        self.half_made = mark
        self.write("opened gate")
        self.sync()
        self.mark, self.half_made = mark, None

    # -- objects

    def frontier(self):
        return min(self.uploads, default=len(self.ends) + 1) - 1

    def frontier_end(self):
        return self.ends[self.frontier() - 1]

    def written_between(self, start, end):
        """The sectors of the writes among the entries from one up to another."""
        return (self.entries[end - 1].total if end else 0) - (self.entries[start - 1].total if start else 0)

    def is_full(self, start, end):
        return self.written_between(start, end) >= self.batch or end - start >= MOST_ENTRIES

    def seal(self):
        start = end = self.ends[-1]
        if start == len(self.entries):
            return "none"
        if len(self.uploads) == MOST_OBJECTS:
            return "busy"
        while end < len(self.entries) and not self.is_full(start, end):
            end += 1
        return self.seal_object(end, is_checkpoint=False)

    def seal_checkpoint(self):
        if len(self.uploads) == MOST_OBJECTS:
            return "busy"
        return self.seal_object(self.ends[-1], is_checkpoint=True)

    def seal_object(self, end, is_checkpoint):
        self.ends.append(end)
        number = len(self.ends)
        self.uploads[number] = Upload(is_checkpoint)
        if is_checkpoint:
            self.checkpoints.add(number)
        return f"sealed {number}"

    def is_ready(self, number):
        upload = self.uploads[number]
        return not upload.is_out and (not upload.is_checkpoint or number == min(self.uploads))

    def begin_put(self):
        ready = [number for number in self.uploads if self.is_ready(number)]
        if not ready:
            return "none"
        number = min(ready)
        self.uploads[number].is_out = self.uploads[number].was_begun = True
        return f"put {number}"

    def is_out(self, number):
        return number in self.uploads and self.uploads[number].is_out

    def finish_put(self, number):
        if self.uploads.pop(number).is_checkpoint:
            self.newest = max(self.newest, number)
        return f"done {self.frontier()}"

    def fail_put(self, number):
        self.uploads[number].is_out = False
        return f"failed {number}"

    # -- the object that a sector is in

    def owners(self, first, last):
        """The object that each sector is in after the objects from one up to another, if it is in one of them."""
        owners = {}
        for number in range(first, last + 1):
            for lba, source in self.copies.get(number, []):
                if owners.get(lba) == source:
                    owners[lba] = number
            for entry in self.entries[self.ends[number - 2]:self.ends[number - 1]]:
                end = entry.lba + entry.sectors
                if entry.is_write:
                    owners.update(dict.fromkeys(range(entry.lba, end), number))
                else:
                    owners = {lba: owner for lba, owner in owners.items() if not entry.lba <= lba < end}
        return owners

    # -- collections

    def payload(self, number):
        """How many sectors an object has: those that it copies, or that its own writes and zeroings leave in it."""
        return len(self.copies[number] if number in self.copies else self.owners(number, number))

    def plan_copy(self):
        if self.plan is not None:
            return "busy"
        live = {}
        for lba, number in sorted(self.owners(2, self.frontier()).items()):
            live.setdefault(number, []).append(lba)
        shares = sorted((Fraction(len(sectors), self.payload(number)), number) for number, sectors in live.items())
        victims = [number for share, number in shares if share < Fraction(70, 100)]
        sectors = [(lba, number) for number in victims for lba in live[number]][:self.batch]
        if not sectors:
            return "none"
        self.plan = sectors
        return f"copied {len(sectors)}"

    def seal_copy(self):
        if len(self.uploads) == MOST_OBJECTS:
            return "busy"
        answer = self.seal_object(self.ends[-1], is_checkpoint=False)
        self.copies[len(self.ends)] = self.plan
        self.plan = None
        return answer

    def drop_plan(self):
        self.plan = None
        return "dropped"

    # -- removals

    def remove(self):
        """Removes the lowest object before the newest acknowledged checkpoint in which that has no sector."""
        kept = set(self.owners(2, self.newest).values()) | self.removed | {source for _, source in self.plan or []}
        lowest = next((number for number in range(1, self.newest) if number not in kept), None)
        if lowest is None:
            return "none"
        self.removed.add(lowest)
        return f"gone {lowest}"

    def info(self):
        return f"info {len(self.entries)} {len(self.ends)} {self.frontier()}"

    # -- writes, reads and flushes

    def enter(self, lba, sectors, byte, is_write):
        if sectors == 0 or lba + sectors > self.sectors or (is_write and sectors > self.most):
            return "range"
        unsealed = self.ends[-1], len(self.entries)
        if self.written_between(*unsealed) >= self.batch:
            return f"again batch {self.written_between(*unsealed)}"
        if self.is_full(*unsealed):
            return f"again entries {len(self.entries) - self.ends[-1]}"
        record = 1 + sectors if is_write else 1
        place = self.head % self.log
        pad = self.log - place if place + record > self.log else 0
        if pad + record > self.free() and self.frontier_end() > self.mark.tail:
            self.commit()
        if pad + record > self.free():
            return f"again room {pad + record} {self.free()}"
        if pad:
            self.write("pad")
        self.write("record")
        total = self.written_between(0, len(self.entries)) + (sectors if is_write else 0)
        self.entries.append(Entry(lba, sectors, byte, is_write, self.head + pad, total))
        self.head += pad + record
        return f"ok {len(self.entries)}"

    def free(self):
        return self.log - (self.head - self.mark.tail_at)

    def look(self, lba, sectors):
        if sectors == 0 or sectors > self.most or lba + sectors > self.sectors:
            return "range"
        data = bytearray(sectors)
        writers = [None] * sectors
        for index, entry in enumerate(self.entries):
            start = max(entry.lba - lba, 0)
            end = min(entry.lba + entry.sectors - lba, sectors)
            if start < end:
                data[start:end] = bytes([entry.byte]) * (end - start)
                is_logged = entry.is_write and index >= self.frontier_end()
                writers[start:end] = [index if is_logged else None] * (end - start)
        for writer, _ in itertools.groupby(writers):
            if writer is not None:
                self.call()
        return " ".join(f"{byte:02x}x{512 * len(list(run))}" for byte, run in itertools.groupby(data))

    def flush(self):
        self.commit()
        return f"ok {len(self.entries)}"

    # -- stops

    def stop(self, calls):
        self.left = calls
        return f"stop {calls}"

    def under_way(self):
        return [number for number, upload in self.uploads.items() if upload.was_begun]

    def land(self, letters):
        """Drops the objects from the first missing one above the newest checkpoint on, and tells how many entries the others
        have."""
        landed = {number for number, letter in zip(self.under_way(), letters) if letter == "y"}
        self.newest = max({self.newest} | (landed & self.checkpoints))
        missing = [number for number in self.uploads if number not in landed and number > self.newest]
        del self.ends[min(missing, default=len(self.ends) + 1) - 1:]
        self.checkpoints &= set(range(1, len(self.ends) + 1))
        self.copies = {number: sectors for number, sectors in self.copies.items() if number <= len(self.ends)}
        return self.ends[-1]

    def mounted(self, kept):
        del self.entries[kept:]
        self.uploads, self.plan, self.half_made, self.left, self.pending = {}, None, None, None, []
        return f"mounted {len(self.entries)} {len(self.ends)}"

    def crash_keep(self, device, objects):
        fates = zip(self.pending, "k" * len(self.pending) if device == "-" else device)
        found = self.half_made if ("opened gate", "k") in fates else self.mark
        end = self.land(objects)
        answer = self.mounted(max(end, found.head))
        self.head = found.head_at
        tail_at = self.entries[end].at if end < len(self.entries) else self.head
        self.mark = Mark(end, tail_at, len(self.entries), self.head)
        return answer

    def crash_lost(self, objects):
        end = self.land(objects)
        self.head, self.mark = 0, Mark(end, 0, end, 0)
        return self.mounted(end)


# ---- scripts

# how many words each command has
WORDS = {"new": 5, "w": 4, "z": 3, "r": 3, "f": 1, "s": 1, "u": 1, "d": 2, "x": 2, "c": 1, "g": 1, "G": 1, "q": 1, "k": 1, "i": 1}
WORDS |= {"stop": 2, "crash": 4, "crash keep": 4, "crash lost": 4}


def name_of(words):
    name = words[0]
    if name == "crash" and len(words) > 1:
        name = f"crash {words[1]}"
    if name not in WORDS:
        raise BadLine(UNKNOWN)
    if len(words) != WORDS[name]:
        raise BadLine(COUNT)
    return name


def number_of(word):
    if len(word) > 20 or not re.fullmatch("0|[1-9][0-9]*", word) or int(word) >= 2**64:
        raise BadLine(FORM)
    return int(word)


def byte_of(word):
    if not re.fullmatch("[0-9a-f]{2}", word):
        raise BadLine(FORM)
    return int(word, 16)


def letters_fit(word, kinds, count):
    return word == "-" or (len(word) == count and set(word) <= set(kinds))


class Replay:
    """A replay of a script, line by line."""

    def __init__(self):
        self.volume = None

    def answer(self, line):
        """The answer to a line of bytes, without their newlines."""
        if len(line) > LINE_LIMIT:
            raise BadLine(TOO_LONG)
        words = line.decode("latin-1").split(" ")
        name = name_of(words)
        if name == "new":
            return self.create([number_of(word) for word in words[1:]])
        if name.startswith("crash"):
            values = words[2:]
        else:
            values = [number_of(word) for word in words[1:3]] + [byte_of(word) for word in words[3:]]
        if self.volume is None:
            raise BadLine(NOT_ALLOWED)
        try:
            return self.answer_on(self.volume, name, values)
        except Fault:
            return "fault"

    def create(self, sizes):
        sectors, log, most, batch = sizes
        limits = [(8, sectors, 2**31), (8, most, 65_536), (1, batch, 65_536), (2 * (most + 1), log, 2**31)]
        if not all(least <= size <= greatest for least, size, greatest in limits):
            raise BadLine(FORM)
        if self.volume is not None:
            raise BadLine(NOT_ALLOWED)
        self.volume = Volume(*sizes)
        return f"new {sectors}"

    def answer_on(self, volume, name, values):
        match name:
            case "w":
                return volume.enter(*values, True)
            case "z":
                return volume.enter(*values, 0, False)
            case "r":
                return volume.look(*values)
            case "f":
                return volume.flush()
            case "s":
                return volume.seal()
            case "u":
                return volume.begin_put()
            case "c":
                return volume.seal_checkpoint()
            case "g":
                return volume.plan_copy()
            case "G" | "q":
                if volume.plan is None:
                    raise BadLine(NOT_ALLOWED)
                return volume.seal_copy() if name == "G" else volume.drop_plan()
            case "k":
                return volume.remove()
            case "i":
                return volume.info()
            case "d" | "x":
                if not volume.is_out(*values):
                    raise BadLine(NOT_ALLOWED)
                return volume.finish_put(*values) if name == "d" else volume.fail_put(*values)
            case "stop":
                if volume.left is not None:
                    raise BadLine(NOT_ALLOWED)
                return volume.stop(*values)
        device, objects = values
        count = len(volume.pending) if name == "crash keep" else -1
        if not letters_fit(device, "kozt", count) or not letters_fit(objects, "yn", len(volume.under_way())):
            raise BadLine(LETTERS)
        return volume.crash_keep(device, objects) if name == "crash keep" else volume.crash_lost(objects)


def lines_of(script):
    lines = script.split(b"\n")
    return lines if lines[-1] else lines[:-1]


def transcript(script):
    """The status, the output and the errors of a replay of the script."""
    if len(script) > SCRIPT_LIMIT:
        number = 1 + script.count(b"\n", 0, SCRIPT_LIMIT)
        return 3, b"", b"line %d reason %d\n" % (number, TOO_LONG)
    replay = Replay()
    answers = []
    for number, line in enumerate(lines_of(script), 1):
        try:
            answers.append(replay.answer(line).encode() + b"\n")
        except BadLine as bad:
            return 3, b"".join(answers), b"line %d reason %d\n" % (number, bad.args[0])
    return 0, b"".join(answers), b""
