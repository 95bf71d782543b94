"""The calls of the system that the program makes: the library that is preloaded to trace them and to let one fail, and traces."""
import os
import re
import subprocess
from typing import NamedTuple

SHIM = os.path.join(os.path.dirname(os.path.abspath(__file__)), "system_calls.c")
# What the program takes of the C library that is no call of the system, and the one by which it ignores SIGPIPE at its start.
OTHERS = {"__errno_location", "__libc_start_main", "__xpg_strerror_r", "__sysv_signal"}
OTHERS |= {"free", "malloc", "realloc", "memcpy", "memmove", "memset", "memcmp"}
# By these the program's start, which is the toolchain's, finds that the processor will not do, says so, and ends.
OTHERS |= {"__x86_get_cpuid_feature_leaf", "__write"}


class Call(NamedTuple):
    """A line of a trace. The paths in a folder are told without it."""

    kind: str
    number: int
    result: int
    path: str
    more: list
    line: str

    def content(self):
        """The bytes that were read or written."""
        return bytes.fromhex(self.more[-1]) if self.more and self.result > 0 else b""

    def place(self):
        """The number that is told after the path."""
        return int(self.more[0])


def build(folder):
    """Compiles the library, and gives its path."""
    library = os.path.join(folder, "system_calls.so")
    subprocess.run(["cc", "-O1", "-shared", "-fPIC", "-o", library, SHIM, "-ldl"], check=True)
    return library


def not_covered(program):
    """The names that the program takes of the C library and that the preloaded one does not have."""
    with open(SHIM, encoding="utf-8") as source:
        covered = set(re.findall(r"^CALL\([\w *]+, (\w+),", source.read(), re.MULTILINE))
    listed = subprocess.run(["nm", "-D", "--undefined-only", program], capture_output=True, text=True, check=True).stdout
    names = {line.split()[-1].split("@")[0] for line in listed.splitlines() if line.split()[0] == "U"}
    return sorted(names - covered - OTHERS)


def environment(library, trace, fault=None):
    """The environment of a program that is traced, and of whose calls one fails."""
    given = dict(os.environ, LD_PRELOAD=library, TRACE=trace)
    if fault:
        given["FAULT"] = fault
    return given


def read_trace(path, folder):
    with open(path, encoding="utf-8") as file:
        return parse(file.read().replace(folder + "/", "").replace(folder, "."))


def parse(text):
    """The calls of a trace, with their numbers among those of their kind in one program."""
    counts = {}
    calls = []
    for line in text.splitlines():
        kind, result, path, *more = line.split()
        counts = {} if kind == "begin" else counts
        counts[kind] = counts.get(kind, 0) + 1
        calls.append(Call(kind, counts[kind], int(result), path, more, line))
    return calls
