"""How many lines of a schedule were refused, and of the first one which it is and why."""
import re

from protocol import Misfit, read_protocol
from reasons import Reasons
from traces import start_of, standing_of
from forms import shown

BLOCK = re.compile(r"(\d+) (?:line (\d+) )?([^:\n]+): (.+)")
KINDS = {"rv": "event", "lossy": "line", "lines": "step", "run": "step", "boot": "step"}


class History:
    """Where all processes are at the end of the front of a trace, and what was nacked when."""

    def __init__(self, text, lines_of_blocks):
        # Standings by cache line (None where there is one alone) and process, as text.
        self.shown, self.nacked, self.lines_of_blocks = {}, {}, lines_of_blocks
        block, line = None, None
        for row in text.split("\n"):
            if row.startswith("  home") or row.startswith("  remote"):
                self.note(block, line, row)
            elif row and not row.startswith(" "):
                found = BLOCK.fullmatch(row)
                if found:
                    block, line = (found.group(1), found.group(3)), found.group(2)

    def note(self, block, line, row):
        """Notes where a process is, and whether it was nacked by this block."""
        head, _, rest = row[2:].partition(" ")
        who = None if head == "home" else int(rest.partition(" ")[0])
        nacks = row.rpartition(" down[")[2].count("-")
        before = self.shown.get((line, who), "").rpartition(" down[")[2].count("-")
        if block and block[1] == "remote %s send" % who:
            # It has sent its next request, or the same once more.
            self.nacked.pop((line, who), None)
        if who is not None and nacks > before and block:
            self.nacked[(line, who)] = self.place(*block)
        self.shown[(line, who)] = row

    def place(self, count, words):
        """A block in words."""
        line = self.lines_of_blocks.get(int(count))
        return "%s, `%s`" % ("line %d" % line[0] if line else "step " + count, words)

    def standings(self, file, remotes, line, controllers):
        """Where each process is."""
        found = {}
        for who in [None] + list(range(remotes)):
            row = self.shown.get((line, who))
            read = standing_of(row) if row else None
            process = file.home if who is None else file.remote
            found[who] = read[1] if read else start_of(process, controllers)
        return found


def lines_of_blocks(text):
    """Of each block its line in the schedule, by number, and that line's text."""
    found = {}
    for number, row in enumerate(text.split("\n"), 1):
        if row.split("//")[0].strip(" \t\r"):
            found[len(found) + 1] = (number, row)
    return found


def refused_lines(words, seen, schedule, text):
    """Lines that say what was refused. `seen` is what was Seen of the trace; `schedule` and `text`,
    of the schedule and of the protocol, are None if they can't be read again."""
    if not seen.refused:
        return []
    kind = KINDS[words[0]]
    where = lines_of_blocks(schedule) if schedule is not None else {}
    count = "%d of %d %ss %s refused" % (
        seen.refused, seen.blocks, kind, "was" if seen.refused == 1 else "were")
    line, row = where.get(seen.first, (None, None))
    place = "block %d of the trace" % seen.first
    if line is not None:
        place += ", line %d of the schedule" % line
    rows = ["rvc: %s. %s %s:" % (
        count, "It is" if seen.refused == 1 else "The first is", place)]
    if row is not None:
        row = row.rstrip(" \t\r").encode("latin-1").decode("utf-8", "replace")
        rows.append("%6d | %s" % (line, shown(row)))
    return rows + why(words, seen, where, text)


def why(words, seen, where, text):
    """Sentences on the first refused line."""
    if seen.head is None or seen.words is None or text is None:
        return []
    try:
        file = read_protocol(text)
    except Misfit:
        return []
    history = History(seen.head.decode("latin-1"), where)
    remotes = int(words[2])
    slots = int(words[3]) if words[0] != "rv" else None
    step, line = seen.words.split(" "), None
    if words[0] == "lines":
        return why_of_lines(words, history, file, step)
    if step[0] == "net":
        return of_network(step, remotes)
    standings = history.standings(file, remotes, line, words[0] != "rv")
    nacked = {who: place for (_, who), place in history.nacked.items()}
    return Reasons(file, standings, remotes, slots, nacked).of(step)


def why_of_lines(words, history, file, step):
    """Sentences on a step of one of several cache lines."""
    remotes, slots, count = int(words[2]), int(words[3]), int(words[5])
    if step[0] == "line":
        step = ["at"] + step[1:]
    if step[0] != "at":
        if int(step[1]) < remotes:
            return ["No packet of any cache line is on the %s link of remote %s." % (
                step[0], step[1])]
        step = ["at", "0"] + step
    if int(step[1]) >= count:
        return ["There is no cache line %s: this run has lines 0 to %d." % (step[1], count - 1)]
    standings = history.standings(file, remotes, step[1], True)
    nacked = {who: place for (line, who), place in history.nacked.items() if line == step[1]}
    return Reasons(file, standings, remotes, slots, nacked).of(step[2:])


def of_network(step, remotes):
    """A sentence on a move of the network."""
    if int(step[1]) >= remotes:
        return ["There is no remote %s." % step[1]]
    if step[3] == "resend":
        return ["The sending end of the %s link of remote %s keeps no packet at place %s: it keeps "
                "the last %d that were put, counted from 0." % (
                    step[2], step[1], step[4], 2 if step[2] == "up" else 3)]
    return ["No frame is in flight at place %s of the %s link of remote %s, counted from 0." % (
        step[4], step[2], step[1])]
