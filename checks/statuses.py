"""The exit status that the program's output implies, by the tables of docs/FORMATS.md."""
import re

# The last line of a run that refused something.
REFUSED = [
    (re.compile(r"error usage"), 1),
    (re.compile(r"error (?:file|image) .+"), 2),
    (re.compile(r"error (?:schedule|trace) .+"), 3),
]
BROKEN = re.compile(r"^claim \d+ broken$", re.M)


def status_of(text):
    """The exit status of a run that wrote this, unless memory ran out or a write failed."""
    if not text:
        return 4
    last = text.rstrip("\n").rpartition("\n")[2]
    for form, status in REFUSED:
        if form.fullmatch(last):
            return status
    return 7 if BROKEN.search(text) else 0
