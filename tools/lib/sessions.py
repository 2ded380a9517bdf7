"""Sessions of a shell, in tools/data/sessions: commands, what each prints on both outputs, and its status.

A line `== NAME` begins a session, which has a folder of its own. After its name may stand which programs it needs. `$ ` begins a
command, and `> ` goes on with it. Below it stand the lines that it prints, and `[N]` if its status isn't 0. ROOM stands for the folder,
and so does each variable that is passed, for its value. An empty line isn't looked at. The commands of the session `first` come first
in each other one.
"""
import itertools
import os
import re
import signal
import subprocess
from collections import namedtuple
from concurrent.futures import ThreadPoolExecutor

from lib import findings, needs, running
from lib.data import DATA
from lib.top import TOP, X

MARK = "-- ended with"
# A session that takes longer is ended.
SECONDS = 1800
Command = namedtuple("Command", "place text printed")


def sessions_of(path):
    found, its = {}, None
    for number, line in enumerate(path.read_text().splitlines(), 1):
        if line.startswith("== "):
            its = found[line[3:]] = []
        elif line.startswith("$ "):
            its.append(Command("%s:%d" % (path.relative_to(TOP), number), [line[2:]], []))
        elif line.startswith("> "):
            its[-1].text.append(line[2:])
        elif line and not line.startswith("# "):
            its[-1].printed.append(line.rstrip())
    return found


def said_by(script, room, environment):
    """What a shell says on both outputs. If it takes too long, all that it started ends."""
    shell = running.begun(["bash", "-c", script], cwd=room, env=environment)
    try:
        return shell.communicate(timeout=SECONDS)[0]
    except subprocess.TimeoutExpired:
        os.killpg(shell.pid, signal.SIGKILL)
        return shell.communicate()[0]


def faults_of(commands, variables):
    script = "".join("%s\necho \"%s $?\"\n" % ("\n".join(command.text), MARK) for command in commands)
    with running.room("session") as room:
        named = {"ROOM": str(room.resolve()), "TOP": str(TOP), "X": str(X), **variables}
        said = said_by(script, named["ROOM"], {**os.environ, **named, "COLUMNS": "200"})
    for name, value in named.items():
        said = said.replace(value, name)
    parts = re.findall(r"(?s)(.*?)%s (\d+)\n" % MARK, said)
    for command, (printed, status) in itertools.zip_longest(commands, parts[: len(commands)], fillvalue=("", "")):
        got = list(filter(None, map(str.rstrip, printed.splitlines()))) + (["[%s]" % status] if status != "0" else [])
        if got != command.printed:
            wanted, got = ("\n    %s\n" % "\n    ".join(it) for it in (command.printed or ["nothing"], got or ["nothing"]))
            yield findings.case("%s: `%s`" % (command.place, command.text[0]), wanted, got)


def faults(name, **variables):
    """The faults of all sessions of a file, and how many there are."""
    sessions = sessions_of(DATA / "sessions" / name)
    first, tried = sessions.pop("first", []), []
    for title, commands in sessions.items():
        missing = needs.missing(title.partition(" (needs ")[2].rstrip(")").split())
        if missing:
            print("%s isn't tried: %s" % (title, needs.told(missing[0])))
        else:
            tried.append(first + commands)
    with ThreadPoolExecutor(needs.processors()) as pool:
        try:
            found = list(pool.map(lambda commands: list(faults_of(commands, variables)), tried))
        finally:
            # An interrupt ends what runs.
            running.end_all()
    return [fault for its in found for fault in its], len(tried)


def check(_given):
    """The step that tries `x check`."""
    found, count = faults("check.txt")
    return findings.ended(found, "%d sessions of x check" % count)
