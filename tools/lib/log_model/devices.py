"""Runs a built program with sockets as its standard input, output and error.

Each read receives one message and each write sends one, so what is written after each read is compared with what a model says. At the
end the reads and writes are counted.
"""
import contextlib
import functools
import os
import pathlib
import socket
import subprocess
from collections import namedtuple

from lib.findings import shown

# The size that is asked for of a socket's buffer. Linux doubles it. The longest outputs have 270,000 bytes.
ROOM = 200_000
LONGEST = 350_000
# An output that doesn't come in this time is a fault.
SECONDS = 20
# The status of a run, and how many reads and writes it made, each None if the system doesn't count them.
Ended = namedtuple("Ended", "status reads writes")


def ended(process):
    """Waits for the end of a process, and counts the calls before it is gone."""
    os.waitid(os.P_PID, process.pid, os.WEXITED | os.WNOWAIT)
    counts = {"syscr": None, "syscw": None}
    with contextlib.suppress(OSError):
        rows = pathlib.Path("/proc/%d/io" % process.pid).read_text().splitlines()
        counts = {name: int(count) for name, count in (row.split(": ") for row in rows)}
    return Ended(process.wait(), counts["syscr"], counts["syscw"])


@functools.lru_cache(maxsize=None)
def loads(path):
    """How many reads are made before the program's own, because the loader reads its libraries."""
    return ended(subprocess.Popen([path, "no such word"], stdin=subprocess.DEVNULL, stderr=subprocess.DEVNULL)).reads


def most(end):
    """How many bytes a message has at most."""
    return end.getsockopt(socket.SOL_SOCKET, socket.SO_SNDBUF) - 1000


def channel():
    """A pair of connected sockets: our end, and a standard stream of the program."""
    ends = socket.socketpair(socket.AF_UNIX, socket.SOCK_SEQPACKET)
    for end in ends:
        end.setsockopt(socket.SOL_SOCKET, socket.SO_SNDBUF, ROOM)
    ends[0].settimeout(SECONDS)
    if most(ends[0]) < LONGEST:
        raise OSError("a socket's messages have at most %d bytes, fewer than the longest outputs need (net.core.wmem_max)" % most(ends[0]))
    return ends


def rest(end):
    """The messages up to the end. An empty one can't be told from the end."""
    return list(iter(lambda: end.recv(most(end)), b""))


def wrong_round(ours, number, chunk, writes):
    """Sends a chunk, or ends the input if it is None, and receives the writes that should come before the next read."""
    source, sink, error = ours
    if chunk is None:
        source.shutdown(socket.SHUT_WR)
    else:
        source.send(chunk)
    for wanted in writes:
        given, told = sink.recv(most(sink)), "after read %d of %s" % (number, shown(chunk or b""))
        if not given:
            return "%s it ends: %s" % (told, shown(b"".join(rest(error))))
        if given != wanted:
            return "%s: wanted %s, got %s" % (told, shown(wanted), shown(given))
    return None


def wrong_end(ours, path, process, wanted, line):
    """What is wrong with the end of a run, or None. After its last write it should end as `wanted` says, with `line` on standard error."""
    left, error, found = rest(ours[1]), rest(ours[2]), ended(process)
    # Each line is one message: programs that share standard error don't mix theirs.
    if left or error != line.splitlines(keepends=True) or found.status != wanted.status:
        return "at the end it writes %s and %s, and its status is %d" % (shown(b"".join(left)), shown(b"".join(error)), found.status)
    wanted = wanted._replace(writes=wanted.writes + len(error))
    if found.reads is None or found._replace(reads=found.reads - loads(path)) == wanted:
        return None
    return "wanted %d reads and %d writes, got %d and %d" % (*wanted[1:], found.reads - loads(path), found.writes)


def fault(path, arguments, chunks, rounds, status=0, line=b""):
    """What is wrong with a run that reads these chunks, or None; `rounds` come after each, and last."""
    wanted = Ended(status, len(chunks) + 1, sum(map(len, rounds)))
    ours, theirs = zip(*(channel() for _ in range(3)))
    with contextlib.ExitStack() as stack:
        for end in ours:
            stack.enter_context(end)
        process = subprocess.Popen([path, *arguments], stdin=theirs[0], stdout=theirs[1], stderr=theirs[2])
        stack.callback(process.wait)
        stack.callback(process.kill)
        for end in theirs:
            end.close()
        try:
            for number, (chunk, writes) in enumerate(zip([*chunks, None], rounds)):
                found = wrong_round(ours, number, chunk, writes)
                if found:
                    return found
            return wrong_end(ours, path, process, wanted, line)
        except OSError as error:
            return "a device: %s" % error
