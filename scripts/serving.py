"""What the gate's scripts serve a volume with: a small client of NBD, one of mere bytes, the server as a process, and a count of
what holds."""
import contextlib
import os
import signal
import socket
import struct
import subprocess

UUID = "00000000-0000-4000-8000-000000000001"
READ, WRITE, DISCONNECT, FLUSH, TRIM, ZEROES = 0, 1, 2, 3, 4, 6
FUA = 1
# how long an answer may take
SECONDS = 60

checks = [0, 0]


def check(name, holds, *what):
    checks[0 if holds else 1] += 1
    if not holds:
        print(f"{name}: no", *what)


def create(program, folder, store, cache, sectors, log, max_write, batch):
    words = ["create", "--store", f"{folder}/{store}", "--cache", f"{folder}/{cache}", "--uuid", UUID]
    words += ["--sectors", str(sectors), "--log", str(log), "--max-write", str(max_write), "--batch", str(batch)]
    done = subprocess.run([program, *words], capture_output=True, text=True)
    check("the creation", (done.returncode, done.stdout, done.stderr) == (0, f"created {UUID}\n", ""), done)


class Client:
    """A client of NBD on a Unix socket, which enters the export and makes one request after the other."""

    def __init__(self, path, sectors, max_write):
        self.link = socket.socket(socket.AF_UNIX)
        self.link.connect(path)
        greeting = self.take(18)
        check("the greeting", greeting == b"NBDMAGICIHAVEOPT\0\3", greeting)
        # the option to enter the default export, which asks for its blocks, in one piece with the flags
        self.link.sendall(struct.pack(">I", 3) + b"IHAVEOPT" + struct.pack(">IIIHH", 7, 8, 0, 1, 3))
        infos = []
        while True:
            kind, content = self.reply_to(7)
            if kind == 1:
                break
            infos.append(content)
        check("the export", infos[0] == struct.pack(">HQH", 0, 512 * sectors, 0x6D), infos)
        check("the blocks", infos[1:] == [struct.pack(">HIII", 3, 512, 4096, 512 * max_write)], infos)
        self.cookie = 0

    def take(self, count):
        parts = []
        while count:
            part = self.link.recv(count)
            if not part:
                raise ConnectionError("the server is gone")
            parts.append(part)
            count -= len(part)
        return b"".join(parts)

    def reply_to(self, number):
        magic, option, kind, length = struct.unpack(">QIII", self.take(20))
        check("a reply to an option", (magic, option) == (0x3E889045565A9, number))
        return kind, self.take(length)

    def head(self, kind, offset, length, flags=0):
        """The head of the next request."""
        self.cookie += 1
        return struct.pack(">IHHQQI", 0x25609513, flags, kind, self.cookie, offset, length)

    def reply(self, cookie):
        """The error that the request of a cookie is answered."""
        magic, error, found = struct.unpack(">IIQ", self.take(16))
        check("a reply", (magic, found) == (0x67446698, cookie))
        return error

    def request(self, kind, offset, length, content=b"", flags=0):
        """Makes a request, and gives its error and its data."""
        self.link.sendall(self.head(kind, offset, length, flags) + content)
        error = self.reply(self.cookie)
        return error, self.take(length) if kind == READ and error == 0 else b""

    def write_at_once(self, pieces, leaves=False):
        """Sends a write of each piece, at its place, in one call, and gives the errors. With them the client may leave."""
        first = self.cookie + 1
        sent = b"".join(self.head(WRITE, offset, len(content)) + content for offset, content in pieces)
        self.link.sendall(sent + LEAVES * leaves)
        return [self.reply(cookie) for cookie in range(first, self.cookie + 1)]

    def leave(self):
        self.link.sendall(struct.pack(">IHHQQI", 0x25609513, 0, DISCONNECT, 0, 0, 0))
        check("nothing after the request to disconnect", self.link.recv(1) == b"")
        self.link.close()


def exchange(path, sent):
    """All that a server sends to a client that sends these bytes at once, and then no more."""
    parts = []
    with socket.socket(socket.AF_UNIX) as link:
        link.connect(path)
        link.settimeout(SECONDS)
        # a server that has closed the connection may not have read all
        with contextlib.suppress(ConnectionError):
            link.sendall(sent)
            link.shutdown(socket.SHUT_WR)
        with contextlib.suppress(ConnectionError):
            while part := link.recv(65_536):
                parts.append(part)
    return b"".join(parts)


# what a server sends first
GREETING = bytes.fromhex("4e42444d41474943 49484156454f5054 0003")
# the flags of a client, and the option to enter the default export
ENTERS = bytes.fromhex("00000003 49484156454f5054 00000007 00000006 00000000 0000")
# how the server of a volume of 64 sectors answers it: the export, and its end
ENTERED = bytes.fromhex(
    "0003e889045565a9 00000007 00000003 0000000c 0000 0000000000008000 006d"
    "0003e889045565a9 00000007 00000001 00000000"
)
# a durable write of one sector at 0 with the cookie 7, the reply to it, and the request to disconnect
WRITES = bytes.fromhex("25609513 0001 0001 0000000000000007 0000000000000000 00000200") + b"\x41" * 512
WRITTEN = bytes.fromhex("67446698 00000000 0000000000000007")
LEAVES = bytes.fromhex("25609513 0000 0002 0000000000000009 0000000000000000 00000000")


class Server:
    """A server of the volume, of whose output the first line was read: so clients can connect."""

    def __init__(self, program, folder, cache, *more, store="store", volume=UUID, before=None, env=None):
        self.path = os.path.join(folder, "socket")
        words = ["serve", "--store", os.path.join(folder, store), "--volume", volume, "--cache", os.path.join(folder, cache)]
        self.process = subprocess.Popen(
            [program, *words, "--socket", self.path, *more],
            stdout=subprocess.PIPE, stderr=subprocess.PIPE, text=True, preexec_fn=before, env=env,
        )
        self.mounted = self.first_line()

    def first_line(self):
        """Read byte by byte, since what a buffer would take of the lines after it is not seen by `communicate`."""
        line = b""
        while not line.endswith(b"\n") and (byte := os.read(self.process.stdout.fileno(), 1)):
            line += byte
        return line.decode()

    def kill(self):
        self.process.send_signal(signal.SIGKILL)
        self.process.wait()

    def end(self):
        out, err = self.process.communicate(timeout=SECONDS)
        return self.process.returncode, out, err
