"""Cases of a built program, run as a shell would: what it is given, and what it must leave.

A case is judged by its status, what came on standard output and what came on standard error. Cases run one after another,
in a temporary folder.
"""
import contextlib
import os
import pathlib
import re
import resource
import shutil
import socket
import subprocess
import tempfile
from collections import namedtuple

from lib import data, findings, needs
from lib.log_model import devices
from lib.model.counter import Counter

# A run that takes longer is a fault.
SECONDS = 120
CLOSED, FOLDER = "closed", "folder"
# A message on standard error has fewer bytes.
MESSAGE = 64 * 1024
# The number of the user who owns nothing.
NOBODY = 65534
# Variables that other programs look at.
OTHERS = ("NO_COLOR CLICOLOR CLICOLOR_FORCE FORCE_COLOR COLUMNS LINES TERM LANG LC_ALL TZ PAGER CI DEBUG POSIXLY_CORRECT RUST_LOG "
          "RUST_BACKTRACE HOME PATH TMPDIR UFMT_LINES UFMT_LINES_LONGER_THAN").split()
# How a run ended. `None` stands for a run that didn't end in time.
Ran = namedtuple("Ran", "status output error")


class Cases:
    def __init__(self, program):
        self.program = needs.built(None, program)
        self.room = pathlib.Path(tempfile.mkdtemp(prefix="cases-"))
        self.count, self.faults, self.meter, self.texts = 0, [], Counter(self.room), {"room": os.fsencode(self.room)}

    def judge(self, name, ran, status, output=b"", line=b""):
        """Compares a run with what it must leave: `line` is the line on standard error, without its line feed."""
        line = line.encode() if isinstance(line, str) else line
        wanted = Ran(status, output, line + b"\n" if line else b"")
        self.count += 1
        self.faults += [findings.case(name, shown(wanted), shown(ran))] if ran != wanted else []

    def same(self, name, wanted, got):
        self.judge(name, Ran(0, repr(got).encode(), b""), 0, repr(wanted).encode())

    def filled(self, column):
        return filled(self.texts, column)

    def arguments(self, words):
        split = (re.fullmatch(r"(.*?)(?:\*\*(\d+))?", word) for word in words.split(" ")) if words != "-" else ()
        return [word for it in split for word in [self.filled(it[1])] * int(it[2] or 1)]

    def table(self, file, texts):
        """Judges each row of a table in tools/data/programs. Its part `texts` has more texts by their names, and its part `files`
        those of files. The parts `calls`, `messages` and `slow` have rows of their own forms."""
        self.texts.update(texts)
        forms = {"texts": self.texts.__setitem__, "files": lambda name, text: (self.room / name).write_bytes(text)}
        judges = {"calls": self.judge_calls, "messages": self.judge_messages, "slow": self.judge_slow}
        for part, row in ((part, row.split(" => ")) for part, rows in data.parts("programs/" + file).items() for row in rows):
            if part in forms:
                forms[part](row[0], self.filled(row[1]))
            elif part in judges:
                judges[part](row[0], self.arguments(row[0]), *map(self.filled, row[1:]))
            else:
                self.judge_row(part, row)

    def judge_row(self, part, row):
        """Judges a run: the words, the text on standard input, the status, the output, the line on standard error, and what is special."""
        words, text, status, output, line, special = row + ["%", "%", ""][len(row) - 3 :]
        name, given = "%s: %s %s, of %s" % (part, words, special, text[:40]), dict(it.partition("=")[::2] for it in special.split())
        self.judge(name, self.run_row(self.arguments(words), self.filled(text), given), int(status), self.filled(output), self.filled(line))

    def run_row(self, arguments, text, given):
        variables = dict.fromkeys(OTHERS if "others" in given else (), given.get("others"))
        if "bytewise" in given:
            variables.update({"LD_PRELOAD": str(self.meter.library), "COUNTS_READ": "1", "COUNTS_WRITE": "1"})
        limits = {"limit": int(given.get("limit", 0)), "files_limit": int(given.get("files", 0))}
        return self.run(*arguments, text=text, source=given.get("in"), sink=given.get("out"), error=given.get("err"),
                        as_nobody="nobody" in given, variables=variables, **limits)

    def end(self):
        shutil.rmtree(self.room)
        return findings.ended(self.faults, "%d cases" % self.count)

    def run(self, *arguments, text=b"", source=None, sink=None, error=None, limit=None, files_limit=None, variables=None, as_nobody=False):
        """Runs the program to its end. Standard input has the text, or is `source`: an open file, CLOSED, or a name that `opened`
        knows, and so are `sink` and `error`; what doesn't come through a pipe is empty. `limit` is how many KiB of memory it has,
        `files_limit` how many files it has open at once. It has these variables of the environment more. It may run as a user who
        owns nothing, if this one may read everything."""
        given = (source, sink, error)
        files = [opened(one) if isinstance(one, str) and one != CLOSED else [one] for one in given]
        streams = [subprocess.DEVNULL if its == [CLOSED] else subprocess.PIPE if its == [None] else its[0] for its in files]
        is_other = as_nobody and os.geteuid() == 0

        def prepared():
            for number in (number for number, one in enumerate(given) if one == CLOSED):
                os.close(number)
            for kind, most in ((resource.RLIMIT_AS, limit and limit * 1024), (resource.RLIMIT_NOFILE, files_limit)):
                if most:
                    resource.setrlimit(kind, (most, most))
            if is_other:
                os.setuid(NOBODY)

        program, taken_in = self.for_all() if is_other else self.program, {"input": text} if source is None else {"stdin": streams[0]}
        try:
            return ended([program, *arguments], **taken_in, stdout=streams[1], stderr=streams[2], cwd=self.room,
                         preexec_fn=prepared, env=dict(os.environ, **(variables or {})))
        finally:
            for file in (file for one, its in zip(given, files) if isinstance(one, str) and one != CLOSED for file in its):
                os.close(file)

    def for_all(self):
        """A copy of the program that each user may run, in the folder, which each may read."""
        copy = self.room / "program"
        if not copy.exists():
            shutil.copyfile(self.program, copy)
            copy.chmod(0o755)
            self.room.chmod(0o755)
        return copy

    def judge_messages(self, name, arguments, *lines):
        """Each of these messages must be one write, so that programs that share standard error don't mix theirs."""
        ours, theirs = socket.socketpair(socket.AF_UNIX, socket.SOCK_SEQPACKET)
        with ours, theirs:
            self.run(*arguments, error=theirs.fileno())
            theirs.close()
            self.same("the messages of " + name, [line + b"\n" for line in lines], list(iter(lambda: ours.recv(MESSAGE), b"")))

    def judge_calls(self, name, arguments, text, reads, writes):
        """Compares how often a run reads and writes, of a file with this text as its input."""
        _output, counts = self.meter.run([self.program, *map(os.fsdecode, arguments)], text, "calls", seconds=SECONDS)
        self.same("reads and writes of " + name, (int(reads), int(writes)), (counts[0].reads, counts[0].writes))

    def judge_slow(self, name, arguments, *steps):
        """Runs the program beside a producer that is slow. Of each step, the first is what is written then, and the second what
        must come before more is written: `soon` says that nothing may come. After the steps stands the output that comes last."""
        *steps, last = steps
        rounds = [[] if wanted in (b"", b"soon") else [wanted] for wanted in (*steps[1::2], last)]
        self.same("a slow producer: " + name, None, devices.fault(self.program, arguments, steps[::2], rounds))


def filled(texts, column):
    """A column of a row as bytes: `$NAME;` is a text of that name, and `$NAME*N;` the text so often."""
    return re.sub(rb"\$([\w-]+)(?:\*(\d+))?;", lambda it: texts[it[1].decode()] * int(it[2] or 1), data.data_of(column))


def opened(name):
    """The files behind a device: first the one that is a stream of the run, and then what stays open beside it. An input may be a
    folder, a pipe that stays `open` and has nothing, or one that doesn't wait for its bytes, which are `not-yet` there; an output
    may be `full`, a pipe that is `unread`, or one with `no-room` that doesn't wait."""
    if name in (FOLDER, "full"):
        return [os.open("/", os.O_RDONLY) if name == FOLDER else os.open("/dev/full", os.O_WRONLY)]
    reader, writer = os.pipe()
    if name in ("open", "not-yet"):
        os.set_blocking(reader, name == "open")
        return [reader, writer]
    if name == "unread":
        os.close(reader)
        return [writer]
    os.set_blocking(writer, False)
    with contextlib.suppress(BlockingIOError):
        while os.write(writer, b"x" * 4096):
            pass
    return [writer, reader]


def ended(words, **how):
    try:
        ran = subprocess.run(words, timeout=SECONDS, **how)
    except subprocess.TimeoutExpired:
        return Ran(None, b"", b"")
    return Ran(ran.returncode, ran.stdout or b"", ran.stderr or b"")


def run(words, text=b""):
    """Runs a program to its end on this input, with nothing special about its devices."""
    return ended(list(map(str, words)), input=text, capture_output=True)


def answers(program, texts):
    """The line that probe_model writes of each text, and a fault if it doesn't of each."""
    ran = run([program], b"".join(b"%d\n%s" % (len(text), text) for text in texts))
    lines = ran.output.decode(errors="replace").splitlines()
    if ran.status == 0 and len(lines) == len(texts):
        return lines, []
    return lines, ["a run ended with status %s after %d of %d lines; the first text is %s" % (ran.status, len(lines), len(texts), texts[0][:80])]


def shown(ran):
    status = "no status in time" if ran.status is None else "status %d" % ran.status
    return "%s, standard output %s, standard error %s" % (status, ran.output[:60], ran.error[:60])


def texts(name):
    return tuple((data.DATA / "texts" / (name + end)).read_bytes() for end in (".plain", ".pretty"))
