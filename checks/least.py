#!/usr/bin/env python3
"""checks/least.py NAME FOUND: compares what a check found with the least that it is to find, as the
file checks/least has it. Prints one line; the status is 1 if it is less. The checks written in
Python call `check` instead.
"""
import os
import re
import sys

PLACE = os.path.join(os.path.dirname(os.path.realpath(__file__)), "least")
LINE = re.compile(r"([a-z_]+) ([1-9]\d*)")


def every_least():
    """Each number of the file by its name. A line of another form, a repeated name and a least of 0
    are errors: with 0 a check would pass that finds nothing."""
    found = {}
    with open(PLACE, encoding="utf-8") as file:
        for number, line in enumerate(file, 1):
            line = line.partition("#")[0].strip()
            entry = LINE.fullmatch(line)
            if line and (not entry or entry.group(1) in found):
                raise ValueError("%s:%d: a new name and a number from 1 on" % (PLACE, number))
            if entry:
                found[entry.group(1)] = int(entry.group(2))
    return found


def least(name):
    """The least that is wanted under this name; a name that is missing is an error."""
    found = every_least()
    if name not in found:
        raise ValueError("%s has no line for %s" % (PLACE, name))
    return found[name]


def check(name, found):
    """Prints how much was found and how much is wanted, and answers whether it is enough."""
    wanted = least(name)
    if found < wanted:
        print("least: %s: %d, and at least %d are wanted" % (name, found, wanted))
    elif found > wanted:
        print("least: %s: %d, more than the %d of checks/least: raise it" % (name, found, wanted))
    else:
        print("least: %s: %d, as many as are wanted" % (name, found))
    return found >= wanted


def main(words):
    if len(words) != 2 or not re.fullmatch(r"\d+", words[1]):
        print("checks/least.py takes a name of checks/least and a number")
        return 2
    return 0 if check(words[0], int(words[1])) else 1


if __name__ == "__main__":
    sys.exit(main(sys.argv[1:]))
