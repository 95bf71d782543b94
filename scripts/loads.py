"""What check_calls and check_order run: a creation and servers of small volumes, clients that ask them for much, and what the
volume may have then."""
import os
import re
import shutil
import signal
import socket
import struct
import subprocess
import tempfile
from typing import NamedTuple

import calls
from serving import FLUSH, FUA, READ, TRIM, UUID, WRITE, ZEROES, Client, Server

SECTORS, MAX_WRITE, BATCH, LOG = 64, 8, 16, 40
SECONDS = 120
STORE, CACHE, NEW_CACHE, SOCKET = "stores/store", "caches/cache", "caches/new", "socket"
LOST = ("--lost", "--log", str(LOG))
OBJECT = re.compile(re.escape(UUID) + r"\.(super|epoch\.[0-9a-f]{16}|obj\.[0-9a-f]{16})")
# Nothing here depends on a disk, and one that syncs takes long.
FOLDERS = "/dev/shm" if os.access("/dev/shm", os.W_OK) else None

# What clients ask for: the kind, the first sector, how many, and the flags. Each write has data of its own.
BEFORE = [(WRITE, 8 * at, 8) for at in range(7)] + [(FLUSH, 0, 0), (ZEROES, 4, 8)]
SESSIONS = [
    [
        (READ, 0, 8), (READ, 32, 8), (WRITE, 40, 8), (WRITE, 2, 8), (FLUSH, 0, 0), (READ, 0, 8), (ZEROES, 9, 6), (WRITE, 48, 4),
        (WRITE, 52, 4, FUA), (TRIM, 20, 8), (WRITE, 28, 8), (WRITE, 36, 8), (READ, 24, 8), (WRITE, 44, 8), (FLUSH, 0, 0),
    ],
    [(READ, 40, 8), (WRITE, 0, 3), (WRITE, 56, 8), (FLUSH, 0, 0), (WRITE, 60, 4), (ZEROES, 0, 2, FUA), (WRITE, 12, 8)],
]
LOST_SESSIONS = [[(READ, 0, 8), (WRITE, 5, 8), (FLUSH, 0, 0), (WRITE, 33, 8), (WRITE, 41, 2)]]


# ---- what the volume may have


class History:
    """What the volume may have: lists of entries, each with how many of them are durable. There are several after a request that
    was not answered, or one that was to be durable and failed."""

    def __init__(self, entries=()):
        self.lists = [(list(entries), len(entries))]

    def enter(self, entry):
        self.lists = [(entries + [entry], durable) for entries, durable in self.lists]

    def may_enter(self, entry):
        self.lists += [(entries + [entry], durable) for entries, durable in self.lists]

    def flushed(self):
        self.lists = [(entries, len(entries)) for entries, _ in self.lists]

    def counts(self):
        return {len(entries) for entries, _ in self.lists}

    def images(self, since=None):
        """The images that it may have. With `since` also those of its fronts: all, or those with what is durable."""
        for entries, durable in self.lists:
            first = {"durable": durable, "start": 0}.get(since, len(entries))
            for count in range(first, len(entries) + 1):
                yield image_of(entries[:count])


def image_of(entries):
    image = bytearray(512 * SECTORS)
    for offset, content in entries:
        image[offset:offset + len(content)] = content
    return bytes(image)


def entry_of(at, kind, lba, sectors):
    """The entry of the request with this index: its offset, and its data."""
    return 512 * lba, (bytes([at + 1]) if kind == WRITE else b"\0") * 512 * sectors


def entries_before(count):
    return [entry_of(at, *request) for at, request in enumerate(BEFORE[:count])]


# ---- the clients


def ask(client, history, at, kind, lba, sectors, flags=0):
    """Makes the request with this index, and gives the error that it was answered; None where it was not answered."""
    offset, content = entry = entry_of(at, kind, lba, sectors)
    is_entry = kind in (WRITE, ZEROES, TRIM)
    try:
        error, found = client.request(kind, offset, 512 * sectors, content if kind == WRITE else b"", flags)
    except OSError:
        error, found = None, b""
    if is_entry and error == 0:
        history.enter(entry)
    elif is_entry and (error is None or flags & FUA):
        history.may_enter(entry)
    if error == 0 and (kind == FLUSH or flags & FUA):
        history.flushed()
    if error == 0 and kind == READ and all(found != image[offset:offset + len(found)] for image in history.images()):
        return "other data"
    return error


def play(path, history, requests, first):
    """Makes the requests of a session, and gives what they were answered."""
    answers = []
    try:
        client = Client(path, SECTORS, MAX_WRITE)
        for at, request in enumerate(requests, first):
            answers.append(ask(client, history, at, *request))
            if answers[-1] is None:
                return answers
        client.leave()
    except OSError:
        answers.append(None)
    return answers[:len(requests)]


def play_all(path, history, sessions):
    answers = []
    first = len(BEFORE)
    for requests in sessions:
        answers.append(play(path, history, requests, first))
        first += len(requests)
    return answers


def read_all(path):
    client = Client(path, SECTORS, MAX_WRITE)
    return b"".join(client.request(READ, 512 * lba, 512 * MAX_WRITE)[1] for lba in range(0, SECTORS, MAX_WRITE))


# ---- the program


class Tools(NamedTuple):
    """The program, and the library that is preloaded beside it."""

    program: str
    library: str


class Place:
    """A folder of its own for one run, with what was prepared."""

    def __init__(self, tools, prepared=None):
        self.tools = tools
        self.folder = os.path.realpath(tempfile.mkdtemp(prefix="lsvdctl-calls-", dir=FOLDERS))
        # What was traced when this was prepared.
        self.earlier = prepared.earlier if prepared else []
        for name in ("stores", "caches"):
            if prepared:
                shutil.copytree(prepared.at(name), self.at(name))
            else:
                os.mkdir(self.at(name))

    def __enter__(self):
        return self

    def __exit__(self, *_):
        shutil.rmtree(self.folder, ignore_errors=True)

    def at(self, name):
        return f"{self.folder}/{name}"

    def names(self):
        return os.listdir(self.at(STORE)) if os.path.isdir(self.at(STORE)) else []

    def traced(self, fault=None):
        """The environment in which the calls of the program are traced, and one fails."""
        return calls.environment(self.tools.library, self.at("trace"), fault)

    def trace(self):
        return calls.read_trace(self.at("trace"), self.folder)

    def run(self, *words, given="", env=None):
        """The status, the output and the errors of the program with these words, and with this for its input."""
        with tempfile.TemporaryFile("w+", dir=self.folder) as file:
            file.write(given)
            file.seek(0)
            words = [self.tools.program, *words]
            done = subprocess.run(words, stdin=file, capture_output=True, text=True, env=env, timeout=SECONDS)
        return done.returncode, done.stdout, done.stderr

    def create(self, *more, env=None):
        words = ["create", "--store", self.at(STORE), "--cache", self.at(CACHE), "--sectors", str(SECTORS), "--log", str(LOG)]
        return self.run(*words, "--max-write", str(MAX_WRITE), "--batch", str(BATCH), *more, env=env)

    def server(self, cache, *more, env=None):
        before = lambda: signal.alarm(SECONDS)
        return Server(self.tools.program, self.folder, cache, *more, store=STORE, env=env, before=before)

    def found(self, cache, *more):
        """What a server reads, which is killed then, and its first line; None and its end where it does not mount."""
        server = self.server(cache, *more)
        if not server.mounted:
            return None, server.end()
        image = read_all(server.path)
        server.kill()
        return image, server.mounted


def leave_socket(place):
    """Leaves a socket as a server that was killed does."""
    with socket.socket(socket.AF_UNIX) as left:
        left.bind(place.at(SOCKET))


def prepare(place):
    """Leaves a volume whose server was killed: entries in objects, some that were flushed, and one that was not; and in its store
    an object past the first missing number, and a file that a put has not finished."""
    place.create("--uuid", UUID, env=place.traced())
    server = place.server(CACHE, env=place.traced())
    play(server.path, History(), BEFORE, 0)
    server.kill()
    with open(place.at(f"{STORE}/{UUID}.obj.{3:016x}"), "rb") as file:
        third = file.read()
    with open(place.at(f"{STORE}/{UUID}.obj.{5:016x}"), "wb") as file:
        file.write(third[:28] + struct.pack(">Q", 5) + third[36:])
    with open(place.at(f"{STORE}/{UUID}.obj.{6:016x}.{7:016x}.put"), "wb") as file:
        file.write(b"LSVD")
    place.earlier = place.trace()
    os.remove(place.at("trace"))
