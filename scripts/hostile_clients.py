"""Clients that send what no client should: messages out of form, input that is cut off, more than they read, and nothing at all.

By docs/NBD.md each is sent just the bytes that stand here, enters nothing, and is let go; the next one is served, and the server
takes no more memory for them. `scripts/check_serve` runs them. The input of a client ends behind what it sends.
"""
import contextlib
import os
import select
import socket
import struct
import sys
from pathlib import Path

from serving import (
    DISCONNECT, ENTERED, ENTERS, FLUSH, FUA, GREETING, LEAVES, READ, SECONDS, TRIM, UUID, WRITE, WRITES, WRITTEN, ZEROES,
    Client, Server, check, create, exchange,
)

FLAGS = bytes.fromhex("00000003")
EXPORT_NAME, ABORT, LIST, INFO, GO = 1, 2, 3, 6, 7
# options that are not taken, for TLS, structured replies, metadata and extended headers among them
OTHERS = 0, 4, 5, 8, 9, 10, 11, 2**32 - 1
ACKNOWLEDGED, OF_EXPORT, UNSUPPORTED, INVALID, UNKNOWN, TOO_BIG = 1, 3, 0x80000001, 0x80000003, 0x80000006, 0x80000009
EXPORT = bytes.fromhex("0000 0000000000008000 006d")
BLOCKS = bytes.fromhex("0003 00000200 00001000 00001000")
SIZE = 512 * 64
MOST = 4096
GREATEST = 2**32 - 1
LAST = 2**64 - 512
# how much a client sends of data that are too long, and how much more memory a server may take for it, in KiB
FLOOD = 16 * 2**20
MORE_MEMORY = 1024
# how long a client waits where nothing is to come, in seconds
PAUSE = 0.1


# ---- messages


def option(number, content=b"", length=None):
    return b"IHAVEOPT" + struct.pack(">II", number, len(content) if length is None else length) + content


def answer(number, kind, content=b""):
    return bytes.fromhex("0003e889045565a9") + struct.pack(">III", number, kind, len(content)) + content


def request(kind, offset=0, length=0, flags=0, cookie=0):
    return struct.pack(">IHHQQI", 0x25609513, flags, kind, cookie, offset, length)


def reply(error=0, cookie=0):
    return struct.pack(">IIQ", 0x67446698, error, cookie)


def requests(*asked, flags=0):
    """Requests whose cookies count up from 0."""
    return b"".join(request(*each, flags=flags, cookie=cookie) for cookie, each in enumerate(asked))


def replies(*errors):
    return b"".join(reply(error, cookie) for cookie, error in enumerate(errors))


# ---- what a client sends, and what it is sent after the greeting

NEGOTIATIONS = [
    ("the flag 4", bytes.fromhex("00000004"), b""),
    ("all flags", b"\xff" * 4 + option(GO, bytes(6)), b""),
    ("an option of another magic", FLAGS + b"IHAVEOPS" + option(LIST)[8:], b""),
    ("a request in place of an option", FLAGS + request(READ, 0, 512), b""),
    ("one type too few", FLAGS + option(GO, bytes.fromhex("00000000 0001")), answer(GO, INVALID)),
    ("65,535 types too few", FLAGS + option(GO, bytes.fromhex("00000000 ffff")), answer(GO, INVALID)),
    ("a type too many", FLAGS + option(GO, bytes.fromhex("00000000 0000 0003")), answer(GO, INVALID)),
    ("as many types as there may be", FLAGS + option(GO, bytes.fromhex("00000000 7ffd" + "0003" * 0x7FFD)),
     answer(GO, OF_EXPORT, EXPORT) + answer(GO, OF_EXPORT, BLOCKS) + answer(GO, ACKNOWLEDGED)),
    ("a name past the data", FLAGS + option(GO, bytes.fromhex("ffffffff 61 0000")), answer(GO, INVALID)),
    ("a name that is no text", FLAGS + option(INFO, bytes.fromhex("00000002 c328 0000")), answer(INFO, UNKNOWN)),
    ("a name and a zero", FLAGS + option(INFO, struct.pack(">I", 37) + UUID.encode() + bytes(3)), answer(INFO, UNKNOWN)),
    ("the longest name", FLAGS + option(INFO, struct.pack(">I", 65_530) + bytes(65_532)), answer(INFO, UNKNOWN)),
    ("65,536 bytes of data", FLAGS + option(LIST, bytes(65_536)), answer(LIST, INVALID)),
    ("65,537 bytes of data", FLAGS + option(LIST, bytes(65_537)), answer(LIST, TOO_BIG)),
    ("65,537 bytes of data for the option without replies", FLAGS + option(EXPORT_NAME, bytes(65_537)), b""),
    ("another name for the option without replies", FLAGS + option(EXPORT_NAME, b"other") + option(LIST), b""),
    ("2^32 - 1 bytes of data, which end", FLAGS + option(INFO, length=GREATEST), b""),
    ("as many for the option without replies", FLAGS + option(EXPORT_NAME, length=GREATEST), b""),
    ("fewer bytes of data than it says", FLAGS + option(99, bytes(16), length=17), b""),
    ("more bytes of data than it says", FLAGS + option(99, bytes(17), length=16), answer(99, UNSUPPORTED)),
    ("an option as data", FLAGS + option(99, length=16) + option(LIST) + option(ABORT),
     answer(99, UNSUPPORTED) + answer(ABORT, ACKNOWLEDGED)),
    ("options of other servers", FLAGS + b"".join(map(option, OTHERS)), b"".join(answer(each, UNSUPPORTED) for each in OTHERS)),
    ("1,023 options and one more", FLAGS + 1023 * option(8) + ENTERS[4:], 1023 * answer(8, UNSUPPORTED) + ENTERED),
    ("1,024 options and one more", FLAGS + 1024 * option(8) + ENTERS[4:], 1024 * answer(8, UNSUPPORTED)),
    ("an option after its abort", FLAGS + option(ABORT) + option(LIST), answer(ABORT, ACKNOWLEDGED)),
    ("an option after it has entered", ENTERS + ENTERS[4:], ENTERED),
    ("no flag, and the option without replies", bytes(4) + option(EXPORT_NAME) + request(READ, SIZE, 0),
     EXPORT[2:] + bytes(124) + reply()),
]

# what it sends and is sent once it has entered
TRANSMISSIONS = [
    ("a request of the magic 25609514", bytes.fromhex("25609514") + request(READ, 0, 512)[4:], b""),
    ("an extended request", bytes.fromhex("21e41c71") + request(READ, 0, 512)[4:], b""),
    ("a reply in place of a request", reply(), b""),
    ("a write of 2^32 - 1 bytes, which end", request(WRITE, 0, GREATEST), b""),
    ("a write of 2^32 - 512 bytes, which end", request(WRITE, 0, 2**32 - 512) + bytes(MOST), b""),
    ("a write whose last byte is missing", request(WRITE, 0, MOST, FUA) + bytes(MOST - 1), b""),
    ("a read of 8,192 bytes", requests((READ, 0, 8192), (READ, 0, 512)), replies(22, 0) + bytes(512)),
    ("reads that are longer", requests((READ, 0, GREATEST), (READ, 0, 2**32 - 512), (READ, LAST, 1024)), replies(22, 22, 22)),
    ("the flag 4", requests((READ, 0, 512), (FLUSH,), (TRIM, 0, 512), (ZEROES, 0, 512), flags=4), replies(22, 22, 22, 22)),
    ("all flags", requests((READ, 0, 512), (ZEROES, 0, 512), flags=2**16 - 1), replies(22, 22)),
    ("requests as data of a write that is refused", request(WRITE, 0, 56) + 2 * LEAVES + request(READ, cookie=1), replies(22, 0)),
    ("data after a read", requests((READ, 0, 512)) + bytes(512), replies(0) + bytes(512)),
    ("data after an unknown command", requests((5, 0, 512)) + bytes(512), replies(22)),
    ("unknown commands", requests(*((kind, 0, GREATEST) for kind in (5, 7, 8, 256, 2**16 - 1))), replies(22, 22, 22, 22, 22)),
    ("trims of odd lengths", requests(*((TRIM, 0, length) for length in (1, 511, 513, GREATEST))), replies(22, 22, 22, 22)),
    ("trims past the end", requests(*((TRIM, at, 512) for at in (SIZE, 2**63, LAST)), (TRIM, 0, 2**32 - 512)),
     replies(22, 22, 22, 22)),
    ("zeroes of odd lengths", requests(*((ZEROES, 0, length) for length in (1, 511, 513, GREATEST))), replies(22, 22, 22, 22)),
    ("zeroes past the end", requests(*((ZEROES, at, 512) for at in (SIZE, 2**63, LAST)), (ZEROES, 0, 2**32 - 512)),
     replies(28, 28, 28, 28)),
    ("trims of nothing", requests((TRIM, 0, 0), (TRIM, SIZE, 0), (TRIM, SIZE + 512, 0)), replies(0, 0, 22)),
    ("a flush of all bytes", requests((FLUSH, 2**64 - 1, GREATEST)), replies(0)),
    ("the greatest cookie", request(READ, cookie=2**64 - 1), reply(0, 2**64 - 1)),
    ("a thousand requests at once", requests(*1000 * [(READ,)]), replies(*1000 * [0])),
    ("requests after that to disconnect", LEAVES + requests((READ,)), b""),
    ("a request to disconnect that is out of form", request(DISCONNECT, 1, 1, 2**16 - 1) + requests((READ,)), b""),
]


def cuts():
    """A session that is cut off after each of its bytes but the last, with which it would write."""
    session = ENTERS + WRITES
    for size in range(len(session)):
        yield f"{size} bytes of a session", session[:size], ENTERED if len(ENTERS) <= size else b""


# ---- clients that are no table


def connected(path, sent=b""):
    link = socket.socket(socket.AF_UNIX)
    link.connect(path)
    link.settimeout(SECONDS)
    link.sendall(sent)
    return link


def rest(link):
    """All that a server sends until it lets the client go."""
    return link.makefile("rb").read()


def fill(link):
    """Makes requests and reads no reply, until nothing more is taken."""
    link.settimeout(PAUSE)
    with contextlib.suppress(TimeoutError):
        while True:
            link.sendall(1000 * request(READ, 0, MOST))


def flood(path):
    """A client that reads no reply, and at last is gone."""
    with connected(path, ENTERS) as link:
        fill(link)


def hold(path):
    """One that reads no reply, and holds up another, which is served after it."""
    with connected(path, ENTERS) as first, connected(path, ENTERS + requests((READ,)) + LEAVES) as second:
        fill(first)
        check("a client waits for the one before it", not select.select([second], [], [], PAUSE)[0])
        first.close()
        got = rest(second)
    check("a client that waited", got == GREETING + ENTERED + replies(0), got.hex())


def crowd(path):
    """Clients that come all at once, say nothing, and go."""
    for link in [connected(path) for _ in range(100)]:
        link.close()


def deserters(path):
    """Clients that are gone before they are answered, after each byte of a session; and one that is deaf."""
    session = ENTERS + requests((READ, 0, 512))
    for size in range(len(session)):
        connected(path, session[:size]).close()
    with connected(path) as deaf:
        deaf.shutdown(socket.SHUT_RD)
        with contextlib.suppress(ConnectionError):
            deaf.sendall(session)


def by_bytes(path):
    """One that sends each byte by itself."""
    with connected(path) as link:
        for byte in ENTERS + requests((READ, 0, 512)) + LEAVES:
            link.send(bytes([byte]))
        got = rest(link)
    check("a client that sends byte by byte", got == GREETING + ENTERED + replies(0) + b"\x41" * 512, got.hex())


def passer(path):
    """One that passes open files with what it sends."""
    with connected(path) as link:
        for piece in (ENTERS, requests((READ,)), LEAVES):
            socket.send_fds(link, [piece], 8 * [link.fileno()])
        got = rest(link)
    check("a client that passes open files", got == GREETING + ENTERED + replies(0), got.hex())


def scrambled(path, dice):
    """A session of which some bytes are others, as chance has it."""
    session = bytearray(ENTERS + requests((READ, 0, 512), (TRIM, 512, 512)) + WRITES + LEAVES)
    for _ in range(dice.randint(1, 8)):
        session[dice.randrange(len(session))] = dice.randrange(256)
    got = exchange(path, bytes(session))
    check("a client of random bytes is greeted", got.startswith(GREETING), session.hex(), got.hex())


def announce(path):
    """Some that announce 4 GiB of data, and send the first of them."""
    for name, sent, wanted in [
        ("an option", FLAGS + option(INFO, bytes(FLOOD), length=GREATEST), b""),
        ("a write", ENTERS + request(WRITE, 0, GREATEST) + bytes(FLOOD), ENTERED),
        ("a write of whole sectors", ENTERS + request(WRITE, 0, 2**32 - 512) + bytes(FLOOD), ENTERED),
    ]:
        got = exchange(path, sent)
        check(f"a client that sends much of {name} that is too long", got == GREETING + wanted, got.hex())


def drown(path):
    """One that sends all of them, and a request behind them."""
    piece = bytes(2**20)
    with connected(path, ENTERS + request(WRITE, 0, GREATEST)) as link:
        for _ in range(GREATEST // len(piece)):
            link.sendall(piece)
        link.sendall(bytes(GREATEST % len(piece)) + request(READ, cookie=1) + LEAVES)
        got = rest(link)
    check("a client that sends 4 GiB", got == GREETING + ENTERED + replies(22, 0), got.hex())


# ---- what a server takes


def peak(server):
    """The most memory that a server has taken, in KiB."""
    lines = Path(f"/proc/{server.process.pid}/status").read_text().splitlines()
    return next(int(line.split()[1]) for line in lines if line.startswith("VmHWM:"))


def open_files(server):
    return len(os.listdir(f"/proc/{server.process.pid}/fd"))


def taken(server):
    """The memory that a server took at most, and how many files it has open; nothing where the system does not tell them."""
    return (peak(server), open_files(server)) if sys.platform == "linux" else (0, 0)


# ---- the whole


def check_rows(program, folder):
    """Clients of one server, after which it ends with the one write that is in form."""
    rows = [*NEGOTIATIONS, *((name, ENTERS + sent, ENTERED + wanted) for name, sent, wanted in TRANSMISSIONS), *cuts()]
    rows.append(("what is in form", ENTERS + WRITES + LEAVES, ENTERED + WRITTEN))
    server = Server(program, folder, "hostile-cache", "--sessions", str(len(rows)), store="hostile")
    for name, sent, wanted in rows:
        got = exchange(server.path, sent)
        check(f"a client that sends {name}", got == GREETING + wanted, got.hex())
    told = server.end()
    check("the end of a server after them", told == (0, "writes 1\n", ""), told)


def check_floods(program, folder, dice):
    """Clients of a server that takes no more memory and no file for them, and serves one that is in form after them."""
    server = Server(program, folder, "hostile-cache", store="hostile")
    check("it is mounted again", server.mounted == "mounted 1 3\n", server.mounted)
    by_bytes(server.path)
    memory, files = taken(server)
    for clients in (announce, drown, flood, hold, crowd, deserters, passer):
        clients(server.path)
    memory_now, files_now = taken(server)
    check("the memory of a server stays small", memory_now - memory < MORE_MEMORY, memory, memory_now)
    check("it closes the connections", files_now == files, files, files_now)
    for _ in range(200):
        scrambled(server.path, dice)
    client = Client(server.path, 64, 8)
    check("a write after them", client.request(WRITE, 0, 512, b"\x42" * 512, FUA) == (0, b""))
    check("a read after them", client.request(READ, 0, 512) == (0, b"\x42" * 512))
    client.leave()
    server.kill()


def check_hostile(program, folder, dice):
    create(program, folder, "hostile", "hostile-cache", 64, 64, 8, 16)
    check_rows(program, folder)
    check_floods(program, folder, dice)
