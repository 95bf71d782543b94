"""The rules for the order of the calls of the system that the program makes, and the first line of a trace that breaks one.

The rules are those of docs/FORMATS.md and docs/DECISIONS.md. Of each file is kept what it holds, and what of that outlasts the
end of power, which is what was synced.

    lock      a cache, and a file that a put writes, are changed only while locked, and the socket is made its owner's first
    syncing   after a sync of a cache that failed no program asks for another
    opening   no object is looked for, and nothing of a cache is read, before the program has synced the directory, or the file
    naming    a put's temporary name is not one that a put of an earlier program had
    put       a file gets the name of an object only when all of it was written and synced
    settling  after a put and a removal the directory is synced before anything else is changed
    commit    a slot's body is written where its gate is closed, and its gate is opened after body and next gate were synced
    tail      the tail of a commit is not past the objects whose puts are acknowledged, by the sync of the directory
    log       a record stands behind the one before it, and none is written over that the last synced commit has, or a later one
    write     a write or a zeroing is answered when its record is in the log, or the last write to the log failed and is kept
    flush     a flush, and a request that is to be durable, is answered when a synced commit has all records
    epoch     a commit is of an epoch whose object is acknowledged
    creation  a super object gets its name, and a creation is told, after all else of the volume was synced
    ready     a checkpoint gets its name when all lower objects are acknowledged
    removal   an object loses its name behind an acknowledged checkpoint of a greater number, or past the first missing number
    mount     a mount is told when its commit was synced, and clients can connect
    end       the end is told when all records are in acknowledged objects, and a synced commit says so
"""
import os
import struct
from typing import NamedTuple

from loads import LOG, STORE
from serving import FLUSH, FUA, READ, TRIM, UUID, WRITE, ZEROES

SLOT, GATE, SLOTS, LOG_START = 1024, 512, 3072, 4096
LOG_END = LOG_START + 512 * LOG
MAKES = 0o100
EINTR = 4
ENTRIES = {1: (WRITE,), 2: (ZEROES, TRIM)}
PAD = 3
RULES = [line.split()[0] for line in __doc__.splitlines() if line.startswith("    ")]


class Broken(Exception):
    """A rule that is broken, and how."""


def need(holds, rule, why):
    if not holds:
        raise Broken(rule, why)


class Commit(NamedTuple):
    """The body of a commit: the seqs of its tail and its head, and where in the file they stand."""

    slot: int
    number: int
    epoch: int
    tail: int
    head: int
    start: int
    end: int

    def has(self, record):
        """Whether its log, and what came after it, has the record. A pad before the tail is none of it."""
        return self.tail <= record.seq and (record.kind != PAD or record.seq != self.tail or record.start == self.start)


class Record(NamedTuple):
    """A record of the log: its seq, where it stands in the file, and what it has."""

    seq: int
    kind: int
    start: int
    end: int
    lba: int
    count: int
    data: bytes

    def next(self):
        """Where the next record stands, if it fits there."""
        return LOG_START if self.kind == PAD else self.end


# ---- the cache


class Cache:
    """A cache file: its slots as they are and as they were synced, where None is a byte that may be any, and its records."""

    def __init__(self):
        self.slots, self.synced = [0] * SLOTS, [0] * SLOTS
        self.records = []
        self.length = 0
        self.is_named = self.is_long = self.is_clearing = self.is_clear = self.has_kept = False

    def commit(self):
        """The newest commit that was synced."""
        commits = [commit for commit in map(self.commit_in, range(3)) if commit]
        return max(commits, key=lambda commit: commit.number, default=None)

    def commit_in(self, slot):
        body = self.synced[SLOT * slot:SLOT * slot + GATE]
        if self.synced[SLOT * slot + GATE] != 1 or None in body or bytes(body[:8]) != b"LSVDCMT1":
            return None
        return commit_of(slot, bytes(body))

    def next_seq(self):
        commit = self.commit()
        seqs = [record.seq + 1 for record in self.records if record.kind != PAD]
        return max(seqs + [commit.head if commit else 0])

    def has_synced(self, head):
        """Whether the last commit was synced, and has so many entries."""
        commit = self.commit()
        return self.slots == self.synced and commit is not None and commit.head == head

    def ends_with(self, kind, offset, length, data):
        """Whether the last record is that of a request, or may be, since it is kept; one for no bytes has none."""
        if self.has_kept:
            return True
        for last in self.records[-1:]:
            if kind in ENTRIES.get(last.kind, ()) and (512 * last.lba, 512 * last.count, last.data) == (offset, length, data):
                return True
        return length == 0

    def cut(self):
        self.__init__()

    def sync(self):
        self.synced = list(self.slots)
        self.is_clear |= self.is_clearing

    def write(self, at, size, content, store):
        """Writes to the file. A write that failed may have left anything in its range."""
        self.length = max(self.length, at + len(content))
        if at < SLOTS:
            if content:
                self.judge_slots(at, content, store)
            size = min(size, SLOTS - at)
            self.slots[at:at + size] = content[:size] or [None] * size
        elif content:
            self.enter(at, content)
        self.has_kept = LOG_START <= at and not content

    def judge_slots(self, at, content, store):
        """A body, a gate, or the zeros of a file that has no commit."""
        if not any(content) and not self.commit() and not any(self.slots):
            self.is_clearing |= (at, len(content)) == (0, SLOTS)
            return
        slot, place = divmod(at, SLOT)
        if (place, len(content)) == (GATE, 1):
            self.judge_gate(slot, content[0])
        else:
            need((place, len(content)) == (0, GATE), "commit", "neither a body nor a gate is written")
            gate = SLOT * slot + GATE
            need(self.slots[gate] == self.synced[gate] == 0, "commit", "a body is written into a slot whose gate may be open")
            if any(content):
                self.judge_body(commit_of(slot, content), store)

    def judge_gate(self, slot, gate):
        commit = self.commit()
        if not gate:
            need(not commit or commit.slot != slot, "commit", "the gate of the last commit is closed")
            return
        body = slice(SLOT * slot, SLOT * slot + GATE)
        after = SLOT * ((slot + 1) % 3) + GATE
        need(self.slots[body] == self.synced[body], "commit", "a gate is opened whose body was not synced")
        need(self.slots[after] == self.synced[after] == 0, "commit", "a gate is opened before the next one was closed and synced")

    def judge_body(self, body, store):
        last = self.commit()
        need(body.number == (last.number + 1 if last else 0), "commit", f"commit {body.number} comes after {last}")
        need(body.number % 3 == body.slot, "commit", "a commit is in another slot than its own")
        need(body.number or self.is_clear, "commit", "the first commit is made before the slots were cleared and synced")
        need(body.epoch in store.epochs(), "epoch", f"the commit is of epoch {body.epoch}, which is not acknowledged")
        need(body.tail <= store.end(), "tail", f"the tail is {body.tail}, and acknowledged objects end at {store.end()}")

    def enter(self, at, content):
        """Writes a record, or zeros where there is no commit yet."""
        last = self.commit()
        if not any(content) and not last:
            return
        need(last, "log", "a record is written where there is no commit")
        record = record_of(at, content)
        before = [other for other in self.records if other.seq < record.seq or other.seq == record.seq and other.kind == PAD]
        met = [other for other in before if other.start < record.end and record.start < other.end]
        # Where the log ended; a pad that stands here has no record, since that could not be written.
        ahead = [other for other in before if other not in met or other.seq < record.seq]
        end = ahead[-1].next() if ahead else last.end
        is_behind = record.start == (LOG_START if end == LOG_END else end)
        need(is_behind, "log", f"record {record.seq} does not stand behind the one before it")
        for other in met:
            is_needed = other.seq < record.seq and last.has(other)
            need(not is_needed, "log", f"record {record.seq} is written over {other.seq}, and the tail is {last.tail}")
        self.records = [other for other in before if other not in met] + [record]


def commit_of(slot, body):
    epoch, number, start, tail, end, head = struct.unpack(">QQQQQQ", body[24:72])
    return Commit(slot, number, epoch, tail, head, LOG_START + 512 * start, LOG_START + 512 * end)


def record_of(at, content):
    magic, kind, seq, lba, count = struct.unpack(">8sIQQQ", content[:36])
    need(magic == b"LSVDREC1", "log", "what is written is no record")
    return Record(seq, kind, at, at + len(content), lba, count, content[512:])


# ---- the store


# The kind of a checkpoint, in its header.
CHECKPOINT = struct.pack(">I", 3)


class Store:
    """A directory of objects: files that puts write, and names, of which those are acknowledged that were synced."""

    def __init__(self):
        self.files = {}
        self.unsynced, self.acknowledged = {}, {}
        # Whether the directory is to be synced before anything else is changed.
        self.is_unsettled = False

    def add(self, name, content):
        if ".obj." in name and content[8:12] == CHECKPOINT and self.acknowledged:
            number = int(name[-16:], 16)
            need(self.last(self.objects()) == number - 1, "ready", "a lower object is not acknowledged")
        self.unsynced[name] = content
        self.is_unsettled = True

    def remove(self, name):
        if ".obj." in name and name in self.acknowledged:
            objects = self.objects()
            number = int(name[-16:], 16)
            need(number < self.checkpoint(objects) or self.last(objects) < number, "removal", "a mount may need the object")
        self.unsynced.pop(name, None)
        self.acknowledged.pop(name, None)
        self.is_unsettled = True

    def settle(self):
        self.acknowledged.update(self.unsynced)
        self.unsynced = {}

    def epochs(self):
        return {int(name[-16:], 16) for name in self.acknowledged if ".epoch." in name}

    def objects(self):
        return {int(name[-16:], 16): content for name, content in self.acknowledged.items() if ".obj." in name}

    def checkpoint(self, objects):
        """The number of the newest checkpoint of these objects."""
        return max((number for number, content in objects.items() if content[8:12] == CHECKPOINT), default=1)

    def last(self, objects):
        """The number before the first missing one past that checkpoint."""
        number = self.checkpoint(objects)
        while number + 1 in objects:
            number += 1
        return number

    def end(self):
        """The end of the acknowledged objects from the newest checkpoint on up to the first missing number."""
        objects = self.objects()
        content = objects.get(self.last(objects))
        return struct.unpack(">Q", content[44:52])[0] if content else 0


# ---- a session


class Session:
    """A client's requests and their replies, after the option by which it enters."""

    def __init__(self):
        self.came, self.sent = b"", b""
        self.requests = {}
        self.has_entered = False

    def take(self, content):
        """Takes what came of the client: its flags and the option, and then requests."""
        self.came += content
        if not self.has_entered and 28 <= len(self.came):
            self.came = self.came[28:]
            self.has_entered = True
        while self.has_entered and 28 <= len(self.came):
            _, flags, kind, cookie, offset, length = struct.unpack(">IHHQQI", self.came[:28])
            size = length if kind == WRITE else 0
            if len(self.came) < 28 + size:
                return
            self.requests[cookie] = kind, flags, offset, length, self.came[28:28 + size]
            self.came = self.came[28 + size:]

    def give(self, content):
        """Takes what was sent to the client, and gives the requests that it answers without an error."""
        self.sent += content
        while 16 <= len(self.sent):
            if self.sent.startswith(b"NBDMAGIC"):
                self.sent = self.sent[18:]
            elif self.sent.startswith(b"\0\3\xe8\x89"):
                self.sent = self.sent[20 + struct.unpack(">I", self.sent[16:20])[0]:]
            else:
                _, error, cookie = struct.unpack(">IIQ", self.sent[:16])
                request = self.requests[cookie]
                size = request[3] if request[0] == READ and not error else 0
                if len(self.sent) < 16 + size:
                    return
                self.sent = self.sent[16 + size:]
                if not error:
                    yield request


# ---- all of it


class Watch:
    """What the calls of a trace have done so far."""

    def __init__(self):
        self.caches, self.store = {}, Store()
        # The marks in temporary names, with the number of the program that has each.
        self.marks, self.program = {}, 0
        self.on_begin(None)

    def see(self, call):
        # What was interrupted was not done, and is made again.
        if call.result != -EINTR:
            getattr(self, f"on_{call.kind}", lambda _: None)(call)

    def on_begin(self, _call):
        """A program begins: the files that it makes to put them, what it locks and what it syncs are its own."""
        self.own, self.locked, self.synced, self.given_up = set(), set(), set(), set()
        self.cache = self.session = None
        self.is_owners = self.is_listening = False
        self.printed = ""
        self.program += 1

    # files

    def on_open(self, call):
        self.need_opened(call)
        if call.result >= 0 and is_temporary(call.path) and call.place() & MAKES:
            program = self.marks.setdefault(call.path.split(".")[-2], self.program)
            need(program == self.program, "naming", "a put has a temporary name of an earlier program")
            self.own.add(call.path)
            self.store.files[call.path] = b""
            self.synced.discard(call.path)
        if call.result >= 0 and is_cache(call.path):
            self.cache = self.caches.setdefault(call.path, Cache())

    def need_opened(self, call):
        """Where the call reads a cache or looks for an object, the file or the directory was synced."""
        if is_object(call.path):
            need(STORE in self.synced, "opening", "an object is looked for before its directory was synced")
        if is_cache(call.path) and call.kind == "pread":
            need(call.path in self.synced, "opening", "a cache is read before it was synced")

    on_pread = need_opened

    def on_statx(self, call):
        self.need_opened(call)
        # Where the directory is not found to stand, the put or the removal has failed: the object counts as none then.
        self.store.is_unsettled &= call.path != STORE or call.result == 0

    def on_getdents64(self, _call):
        need(STORE in self.synced, "opening", "a directory is listed before it was synced")

    def on_close(self, call):
        self.locked.discard(call.path)

    def on_flock(self, call):
        # A file that a put writes may be where there are no locks.
        if call.result == 0 or is_temporary(call.path):
            self.locked.add(call.path)

    def on_ftruncate(self, call):
        self.need_free(call)
        if call.result == 0:
            self.cache.cut()

    def need_free(self, call):
        need(call.path in self.locked, "lock", "a file is changed that is not locked")
        need(not self.store.is_unsettled, "settling", "a file is changed before a put or a removal was synced")

    def on_pwrite(self, call):
        self.need_free(call)
        self.cache.write(call.place(), int(call.more[1]), call.content(), self.store)

    def on_write(self, call):
        if call.path == "stdout":
            self.printed += call.content().decode()
            if self.printed.endswith("\n"):
                self.on_line(self.printed.split())
                self.printed = ""
        elif is_temporary(call.path):
            self.need_free(call)
            self.store.files[call.path] += call.content()
            self.synced.discard(call.path)

    def on_fdatasync(self, call):
        need(call.path not in self.given_up, "syncing", "a sync of this file failed before")
        if call.result:
            self.given_up |= {call.path} & self.caches.keys()
            return
        self.synced.add(call.path)
        if is_cache(call.path):
            self.cache.sync()
        if call.path == STORE:
            self.store.settle()

    def on_fsync(self, call):
        self.on_fdatasync(call)
        # One that failed ends the call that asked for it: the object counts as none then.
        self.store.is_unsettled &= call.path != STORE
        for path, cache in self.caches.items():
            cache.is_long |= call.path == path and call.result == 0 and cache.length == LOG_END
            cache.is_named |= call.path == os.path.dirname(path) and call.result == 0

    def on_rename(self, call):
        if call.result:
            return
        name, content = call.more[0], self.store.files.pop(call.path, b"")
        need(call.path in self.locked, "lock", "a file gets its name that is not locked")
        need(is_whole(name, content), "put", "a file gets its name before it was written")
        need(call.path in self.synced, "put", "a file gets its name before it was synced")
        if name.endswith(".super"):
            self.need_created()
        self.store.add(name, content)

    def need_created(self):
        acknowledged = {name.split(".", 1)[1] for name in self.store.acknowledged}
        need(acknowledged >= {f"obj.{1:016x}", f"epoch.{0:016x}"}, "creation", "an object is not acknowledged")
        need(self.cache.is_named and self.cache.is_long, "creation", "the cache or its name was not synced")
        need(self.cache.has_synced(0), "creation", "the first commit was not synced")

    def on_unlink(self, call):
        if call.result == 0 and is_temporary(call.path):
            need(call.path in self.locked | self.own, "lock", "a file that another program may write is removed")
        if call.result == 0 and is_object(call.path):
            self.store.remove(call.path)

    # lines and clients

    def on_line(self, words):
        count = int(words[1]) if words[0] != "created" else 0
        if words[0] == "created":
            need(f"{STORE}/{UUID}.super" in self.store.acknowledged, "creation", "the super object is not acknowledged")
            need(os.path.dirname(STORE) in self.synced, "creation", "the directory above the store was not synced")
        if words[0] == "mounted":
            need(self.cache.is_named and self.cache.is_long, "mount", "the cache or its name was not synced")
            need(self.is_listening and self.cache.has_synced(count), "mount", f"no synced commit has {count} entries")
            self.cache.records = [record for record in self.cache.records if record.seq < count]
        if words[0] == "writes":
            need(self.cache.has_synced(count), "end", f"no synced commit has {count} entries")
            need(self.store.end() == count, "end", f"acknowledged objects end at {self.store.end()}")

    def on_chmod(self, call):
        self.is_owners = call.result == 0 and call.more == ["600"]

    def on_listen(self, call):
        need(self.is_owners, "lock", "others may connect")
        self.is_listening = call.result == 0

    def on_accept4(self, call):
        self.session = Session()

    def on_recv(self, call):
        self.session.take(call.content())

    def on_sendmsg(self, call):
        for kind, flags, offset, length, data in self.session.give(call.content()):
            if kind in (WRITE, ZEROES, TRIM):
                need(self.cache.ends_with(kind, offset, length, data), "write", "a request is answered whose record is not there")
            if kind == FLUSH or flags & FUA:
                commit = self.cache.commit()
                need(commit and self.cache.next_seq() <= commit.head, "flush", f"it is answered, and what was synced is {commit}")


def is_whole(name, content):
    """Whether an object has as many bytes as it says."""
    if ".obj." not in name:
        return len(content) == (48 if name.endswith(".super") else 32)
    if len(content) < 64:
        return False
    kind, rows, payload = struct.unpack(">I40xIQ", content[8:64])
    front = 64 + rows * {1: 24, 2: 44, 3: 36}[kind]
    return len(content) == 512 * (-(-front // 512) + payload)


def is_cache(path):
    return path.startswith("caches/")


def is_temporary(path):
    return path.endswith(".put")


def is_object(path):
    return path.startswith(f"{STORE}/{UUID}.") and not is_temporary(path)


def joined(trace):
    """The calls with their places, where a write that came short is one with the write that goes on with it."""
    part = None
    for place, call in enumerate(trace):
        if call.kind == "pwrite" and part and 0 < call.result:
            more = part.more[:2] + [part.more[2] + call.more[2]]
            call, part = part._replace(result=part.result + call.result, more=more), None
        if call.kind == "pwrite" and 0 < call.result < int(call.more[1]):
            part = call
        else:
            yield place, call


def first_broken(trace):
    """The first line that breaks a rule, as a list of it, the rule and how it is broken; an empty one where none does."""
    watch = Watch()
    for place, call in joined(trace):
        try:
            watch.see(call)
        except Broken as broken:
            rule, why = broken.args
            return [f"line {place + 1}: {rule}: {why}: {call.line[:200]}"]
    return []
