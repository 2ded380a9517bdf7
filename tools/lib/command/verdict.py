"""What `x check` shows of what the checker says: an error as it stands, and of a function that isn't proved a line or two, with
the lines to write next. `--long` shows all: goals, what may be used in a proof, and notes.
"""
import itertools
import re

from lib import data

PROVED = re.compile(r"^(?:fn|struct|enum|trait|impl) .*: proved$")
ONLY = re.compile(r"^only=(\d+) proved=(\d+)")
NOISE = ("logic ", "statements ", "library ", "crate ", "checked ", "so far: checked ")
# A goal with its place, a function with its goals, advice on proofs, the lines to begin one with, and what they may use.
PLACE = re.compile(r"^note: (\S+?:\d+):\d+: it is not proved that (.*) \(`(.+)`\)$")
UNPROVED = re.compile(r"^fn (\S+): no proof: expected answers in \./(\S+); .* did not prove (.*)$")
GOAL = re.compile(r"^note: `(\S+)` of (\S+) must prove: ")
ADVICE = re.compile(r"note: (?:a goal may be false|to see how far|\.)|\S+\.antt:\d+:\d+: note: |so far: (?!\d+ of )")
START = re.compile(r"^    (\S+( .*)?) = \?$")
CALL = re.compile(r"^  \| (c\.\S+): .*\.ensures \{\.(\w+)")
ARM = re.compile(r"returns-in-(\w+)$")
# What a clause promises, where a function may return: of the trait whose types users write.
CLAUSES = dict(data.rows("words/clauses.txt")["of a type"])
# A list of bytes as the checker writes it, with what ends it.
BYTES = re.compile(r"(?:mathlib\.Core\.List\.◌∷◌ \d+ \(?)+mathlib\.Core\.List\.\[\]\)*")
# Where a name is declared.
MODULE = re.compile(r"(?<![\w/.])(?:Rattle|mathlib|lib)(?:\.[\w+-]+)*\.(?=[^\s.]+)")
ALONE = re.compile(r"has `(\d+)`")
REST = re.compile(r"`(\d+) (?:\(codes \"(.*?)\"\)|mathlib\.Core\.List\.\[\])`")


def counted(count, proved):
    """How many functions are proved. A check that goes on after it was stopped counts more."""
    of_all = "%d of " % proved if proved < count else ""
    return "%s%d function%s proved; " % (of_all, count, "" if count == 1 else "s")


def text_of(codes):
    """Bytes as a text in a clause, if they are printed ASCII or a line feed."""
    if not all(32 <= code < 127 or code == 10 for code in codes):
        return None
    return 'codes "%s"' % "".join(map(chr, codes)).replace("\\", "\\\\").replace('"', '\\"').replace("\n", "\\n")


def with_texts(line):
    """The line with lists of bytes as texts, and names without their modules."""

    def written(found):
        codes = [int(code) for code in re.findall(r"◌∷◌ (\d+)", found.group())]
        text = text_of(codes)
        return found.group() if text is None else text + ")" * (found.group().count(")") - len(codes) + 1)

    def alone(found):
        code = int(found.group(1))
        return "%s (the letter `%c`)" % (found.group(), code) if 32 < code < 127 else found.group()

    def begun(found):
        first = text_of([int(found.group(1))])
        return found.group() if first is None else "`%s%s\"`" % (first[:-1], found.group(2) or "")

    if " error: " not in line and not line.startswith("  "):
        return line
    return MODULE.sub("", ALONE.sub(alone, REST.sub(begun, BYTES.sub(written, line))))


class Short:
    """Passes on a line, or keeps what it says of a function for the end."""

    def __init__(self, crate):
        self.crate = crate
        # By the name of a goal and its file: its place, and what isn't proved. By that file: its function, and the begun answers.
        self.places, self.functions, self.starts, self.answers = [], {}, {}, {}
        self.within = None

    def shown(self, line):
        """What is printed of a line at once."""
        text = line.rstrip("\n")
        if line.startswith("  ") and self.within is not None:
            self.within(text)
            return ""
        self.within = None
        place, unproved, goal = PLACE.match(text), UNPROVED.match(text), GOAL.match(text)
        if place:
            self.places.append(place.groups())
        elif unproved:
            name, path, goals = unproved.groups()
            self.functions[path] = (name, goals, self.places)
            self.places = []
        elif text.startswith("help: write ./"):
            path = text.split()[2][2:]
            self.within = lambda told: self.begun(path, told)
        elif goal:
            self.within = lambda told: self.offered(goal.groups(), told)
        elif ADVICE.match(text):
            self.within = lambda told: None
        else:
            return with_texts(line)
        return ""

    def begun(self, path, told):
        start = START.match(told)
        if start:
            self.starts.setdefault(path, {})[start.group(1).split()[0]] = start.group(1)

    def offered(self, goal, told):
        call = CALL.match(told)
        if call:
            self.answers[goal] = "%s.ensures.%s" % call.groups()

    def ended(self):
        """Of each function that isn't proved: where, what, and what to write next."""
        for path, (name, goals, places) in self.functions.items():
            for (place, what), its in itertools.groupby(places, lambda it: it[:2]):
                its = [goal for _, _, goal in its]
                clause = CLAUSES.get(its[0].rpartition("-clause-")[2], what)
                yield "%s: %s: it is not proved that %s (%s)\n" % (place, name, clause, ", ".join("`%s`" % goal for goal in its))
            if not places:
                yield "%s: not proved: %s\n" % (name, goals)
            yield from self.next_step(path, goals)
        if self.functions:
            yield "`x check %s .. --long` shows each goal, and the lines to begin a proof with.\n" % self.crate

    def next_step(self, path, goals):
        """The answers with which the checker says which values differ: where a function ends, alone or in an arm of a `match`."""
        lines = []
        for goal in re.findall(r"`(\S+)`", goals):
            start, answer, arm = self.starts.get(path, {}).get(goal), self.answers.get((goal, path)), ARM.match(goal)
            if start and answer and (goal == "returns" or arm):
                matched = "rw c.in-%s.is " % arm.group(1) if arm else ""
                lines += ["", "pub %s : goal.%s" % (goal, goal), "%s = %s%s" % (start, matched, answer)]
        if lines:
            module = ".".join(["Rattle", self.crate, "proofs", *path.split("/")[1:-1], "Goals"])
            yield "  To see which values differ, write %s with these lines, and check again:\n" % path
            yield from ("    %s\n" % line if line else "\n" for line in ["use %s as goal" % module, *lines])
