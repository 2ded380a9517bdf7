"""Each public function and macro of the libraries is a call that a probe lists, or has a reason in tools/data/calls.txt.

probe_memory, in which `x try memory` refuses each allocation, prints a line for each of its calls, which begins with the call's
name. probe_model, whose results `x try texts` compares with a model, has names for what it counts and compares: a reason may say
which of these makes a function, as "`events` of probe_model", and name files of tests.

A fault is a function that is neither listed nor has a reason, and a reason for no function, for one that is listed, or that names a
call or a file in which the function isn't. `x list calls` prints each function with its call or its reason.
"""
import fnmatch
import re

from lib import data
from lib.contracts.functions import public_functions
from lib.contracts.source import sources
from lib.findings import ended
from lib.top import TOP, libraries

CRATES = TOP / "crates"
REASONS = TOP / "tools" / "data" / "calls.txt"
MACRO = re.compile(r"^#\[macro_export\]\n(?:#.*\n)*macro_rules! (\w+)", re.M)
COUNTED = re.compile(r'count!\(\s*\w+,\s*"([^"]+)"')
NAMED = re.compile(r"`([^`]+)` of (probe_\w+)")


def public_of(crate):
    """The public functions, methods and macros of a library: `crate::name`, `crate::Type::name` or `crate::name!`."""
    folder = CRATES / crate / "src"
    for _, function in public_functions(folder):
        yield "::".join(filter(None, (crate, function.owner and function.owner_name(), function.name)))
    for path in sources(folder):
        yield from ("%s::%s!" % (crate, name) for name in MACRO.findall(path.read_text()))


def listed():
    printed = {probe: (CRATES / probe / "stdout").read_text() for probe in ("probe_memory", "probe_model")}
    of_memory = set(re.findall(r"^([\w:]+)", printed["probe_memory"], re.M))
    of_model = {name for path in sources(CRATES / "probe_model" / "src") for name in COUNTED.findall(path.read_text())}
    compared = set(re.findall(r"[a-z]+(?: [a-z]+)*(?= (?:yes|no|\d|\[))", printed["probe_model"]))
    return {"probe_memory": of_memory, "probe_model": of_model | compared}


def called(functions, names):
    """The functions whose own name is that of a call. A name without a type may be one function's only."""
    own = [function.split("::")[-1].rstrip("!") for function in functions]
    typed = ["::".join(function.split("::")[1:]) for function in functions]
    return {one: name for one, name, whole in zip(functions, own, typed) if name in names and own.count(name) == 1 or whole in names}


def wrong(reason, function, names):
    for name, probe in NAMED.findall(reason):
        if name not in names[probe]:
            yield "%s lists no call `%s`" % (probe, name)
    files = [TOP / file for file in re.findall(r"\S+\.rt", reason)]
    word = r"\b" + re.escape(function.split("::")[-1])
    if files and not any(file.is_file() and re.search(word, file.read_text()) for file in files):
        yield "%s isn't in the files that its reason names" % function


def main(arguments):
    functions = [function for crate in libraries() for function in dict.fromkeys(public_of(crate))]
    names, given, faults = listed(), {}, []
    calls = called(functions, names["probe_memory"])
    for line, reason, rows in data.reasons(REASONS):
        # The functions that it is for may have stars.
        for wanted in " ".join(rows).split():
            found = fnmatch.filter(functions, wanted)
            said = ["there is no function %s" % wanted] * (not found)
            said += ["%s is a call of probe_memory" % one for one in found if one in calls]
            said += [fault for one in found for fault in wrong(reason, one, names)]
            faults += ["%s:%d: %s" % (REASONS.relative_to(TOP), line, fault) for fault in said]
            given.update(dict.fromkeys(found, reason))
    left = [one for one in functions if one not in calls and one not in given]
    faults += ["%s:1: %s is no call of probe_memory, and has no reason" % (REASONS.relative_to(TOP), one) for one in left]
    if arguments == ["--list"]:
        for one in functions:
            print("%s: %s" % (one, "`%s` of probe_memory" % calls[one] if one in calls else given.get(one)))
    counts = len(functions), len(calls), len(given)
    return ended(faults, "%d public functions and macros: %d are calls of probe_memory, %d have a reason" % counts)
