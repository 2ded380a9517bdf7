"""What a step found, in one form: a line for each fault, as `file:line: what` or `case: wanted .., got ..`, and last a line of counts."""
# So many faults are printed.
MOST = 50


def case(name, wanted, got):
    return "%s: wanted %s, got %s" % (name, wanted, got)


def most(name, bound, got, what):
    return case(name, "at most %d %s" % (bound, what), got)


def shown(data):
    """Bytes, or where they begin and end."""
    return repr(data if len(data) <= 80 else data[:60] + b".." + data[-20:])


def differences(wanted, got, name_of):
    """A line for each key of two tables that doesn't stand for the same in both."""
    for key in sorted({*wanted, *got}):
        if wanted.get(key) != got.get(key):
            yield case(name_of(key), wanted.get(key, "nothing"), got.get(key, "nothing"))


def ended(faults, counts):
    """Prints the faults and the counts, and returns the status."""
    faults = list(faults)
    for fault in faults[:MOST]:
        print(fault)
    if len(faults) > MOST:
        print("and %d more" % (len(faults) - MOST))
    print("%s, %d faults" % (counts, len(faults)))
    return 1 if faults else 0
