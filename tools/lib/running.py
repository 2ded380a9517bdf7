"""Commands that run beside each other, and end with this one.

Each command is a process group of its own, so whatever it starts ends with it. When this process is
interrupted, or ended by a signal, it ends them all.
"""
import concurrent.futures
import contextlib
import os
import pathlib
import signal
import subprocess
import sys
import tempfile
import time

# How often to look, how often to say what is running, and how long a process may take to end: `rt ci` puts back what it set aside.
LOOK, SAY, GRACE = 0.1, 60, 30
# It is in the environment of a command for which another one says that it is running.
INSIDE = "UFMT_X_INSIDE"
started = []


class Job:
    """A command, by its name. When it has ended: its status, its seconds, and the lines that it printed."""

    def __init__(self, name, words, folder=None):
        self.name, self.words, self.folder = name, words, folder
        self.status, self.seconds, self.lines, self.since = None, 0, [], None

    def run(self):
        self.since = time.monotonic()
        process = begun(self.words, cwd=self.folder, env={**os.environ, INSIDE: "1"})
        self.lines = process.communicate()[0].splitlines()
        self.status, self.seconds = process.returncode, time.monotonic() - self.since
        return self


def heartbeat(name):
    """Says once a minute on standard error that this command is running."""
    since = time.monotonic()
    if INSIDE not in os.environ:
        def told(_number, _frame):
            # A print might be interrupted by another one.
            os.write(2, b"%s: running for %d min\n" % (name.encode(), (time.monotonic() - since) // 60))

        signal.signal(signal.SIGALRM, told)
        signal.setitimer(signal.ITIMER_REAL, SAY, SAY)


def begun(words, **how):
    """A process without input, with a pipe for the text of both of its outputs."""
    process = subprocess.Popen(list(map(str, words)), start_new_session=True, errors="replace", **how,
                               stdin=subprocess.DEVNULL, stdout=subprocess.PIPE, stderr=subprocess.STDOUT)
    started.append(process)
    return process


@contextlib.contextmanager
def room(name):
    """A temporary folder of a step or a command."""
    with tempfile.TemporaryDirectory(prefix="x-%s-" % name) as folder:
        yield pathlib.Path(folder)


def said(words, **how):
    """The status of a command, and what it says on both outputs."""
    how = how if "input" in how else {"stdin": subprocess.DEVNULL, **how}
    ran = subprocess.run(list(map(str, words)), stdout=subprocess.PIPE, stderr=subprocess.STDOUT, **how)
    return ran.returncode, ran.stdout.decode(errors="replace")


def output_of(words, seconds=None, **how):
    """What a command prints. If it fails, or takes longer, this one ends with what it said; what valgrind said comes first."""
    shown = " ".join(map(str, words))[:300]
    try:
        status, told = said(words, timeout=seconds, **how)
    except subprocess.TimeoutExpired:
        sys.exit("more than %d seconds: %s" % (seconds, shown))
    if status:
        of_valgrind = "\n".join(line for line in told.splitlines() if line.startswith("=="))
        sys.exit("status %d of %s\n%s" % (status, shown, of_valgrind[:3000] or told[-3000:]))
    return told


def say(line):
    print(line, flush=True)


def side_by_side(jobs, most):
    """Runs these jobs, so many at a time, and yields each when it has ended. Once a minute it says which are running."""
    with concurrent.futures.ThreadPoolExecutor(most) as pool:
        left = {pool.submit(job.run): job for job in jobs}
        try:
            while left:
                ended, _ = concurrent.futures.wait(left, SAY, concurrent.futures.FIRST_COMPLETED)
                for one in ended:
                    del left[one]
                    yield one.result()
                if not ended:
                    running = [job for job in left.values() if job.since]
                    say("running: %s" % ", ".join("%s %d s" % (job.name, time.monotonic() - job.since) for job in running))
        finally:
            # An interrupt ends what runs, and nothing more begins.
            pool.shutdown(wait=False, cancel_futures=True)
            end_all()


def end_all():
    """Ends each command that still runs, with all that it started."""
    for number in (signal.SIGTERM, signal.SIGKILL):
        alive = [process for process in started if process.poll() is None]
        for process in alive:
            try:
                os.killpg(process.pid, number)
            except ProcessLookupError:
                pass
        until = time.monotonic() + GRACE
        while time.monotonic() < until and any(process.poll() is None for process in alive):
            time.sleep(LOOK)
