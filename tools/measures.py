"""What is counted over a trace of `rvc run`: packets, events, requests and how long they wait."""
import random
import re

from desk import Fault, answer
from traces import BLOCK, standing_of

KINDS = {"?": "requests", "=": "replies", "+": "acks", "-": "nacks"}
MOST_LINES = 1000000
QUIET = 1000


class Measures:
    """The counts of one run."""

    def __init__(self, remotes):
        self.remotes = range(remotes)
        self.steps = self.refused = self.events = self.last_event = 0
        self.packets = dict.fromkeys(KINDS.values(), 0)
        # Of each remote its request: the step of the first try, how often it was sent and nacked.
        self.pending, self.asked = {}, {}
        self.taken, self.answered, self.sends, self.nacked = [], [], [], []
        self.longest = dict.fromkeys(self.remotes, 0)
        self.links, self.claim, self.arrived = {}, None, None

    def read(self, text):
        """Counts over a trace."""
        block, rows = None, {}
        for row in text.partition("\nend\n")[0].splitlines():
            if row.startswith("  "):
                standing = standing_of(row)
                if standing and standing[0] is not None:
                    rows[standing[0]] = standing[1].lists
                continue
            if block:
                self.step(*block, rows)
            found, rows = BLOCK.fullmatch(row), {}
            block = (found.group(2).split(" "), found.group(3)) if found else None
            if row.startswith("claim "):
                self.claim = int(row.split()[1])
        if block:
            self.step(*block, rows)
        for remote, request in self.pending.items():
            self.longest[remote] = max(self.longest[remote], self.steps - request[0])

    def step(self, words, said, rows):
        """Counts a step: its words, what is said of it, and the lists of the remotes it shows."""
        if said == "refused":
            self.refused += 1
            return
        self.steps += 1
        for remote, lists in rows.items():
            for way in ("up", "down"):
                before = self.links.get((remote, way), [])
                if words[:2] == [way, str(remote)]:
                    self.arrive(remote, way, before[0])
                    before = before[1:]
                for packet in lists[way][len(before):]:
                    self.packets[KINDS[packet[0]]] += 1
                self.links[(remote, way)] = lists[way]
        if words[0] == "remote" and words[2] == "send":
            request = self.pending.setdefault(int(words[1]), [self.steps, 0, 0])
            request[1] += 1
        if said != "stutter":
            self.events += 1
            self.last_event = self.steps
            self.event(said.split(" "))

    def arrive(self, remote, way, packet):
        """Notes a packet that arrives."""
        if way == "down" and packet == "-" and remote in self.pending:
            self.pending[remote][2] += 1

    def event(self, words):
        """Notes an event of the protocol."""
        if words[0] == "tau":
            return
        remote = int(words[1])
        if words[0] == "up" and remote in self.pending:
            first, sends, nacks = self.pending.pop(remote)
            self.taken.append(self.steps - first)
            self.sends.append(sends)
            self.nacked.append(nacks)
            self.longest[remote] = max(self.longest[remote], self.steps - first)
            self.asked[remote] = first
        elif words[0] == "up":
            self.asked.pop(remote, None)
        elif remote in self.asked:
            self.answered.append(self.steps - self.asked.pop(remote))

    def rows(self):
        """Names and values, as they are written."""
        rows = [("steps", self.steps), ("refused lines", self.refused), ("events", self.events)]
        rows += [(kind, count) for kind, count in self.packets.items()]
        rows.append(("packets an event", ratio(sum(self.packets.values()), self.events)))
        rows += [("  " + kind, ratio(count, self.events)) for kind, count in self.packets.items()]
        rows.append(("requests of remotes taken", len(self.taken)))
        rows.append(("  sent, each", ratio(sum(self.sends), len(self.sends))))
        rows.append(("  nacked, each", ratio(sum(self.nacked), len(self.nacked))))
        for name, waits in (("steps until taken", self.taken),
                            ("steps until answered", self.answered)):
            rows += [(name + ", median", middle(waits)), (name + ", most", max(waits, default="-"))]
        rows += [("longest wait, remote %d" % remote, "%d%s" % (
            wait, "+" if remote in self.pending and
            wait == self.steps - self.pending[remote][0] else ""))
                 for remote, wait in self.longest.items()]
        rows.append(("last event at step", self.last_event))
        return rows

    def warning(self):
        """A sentence where a run ended in a way that numbers hide; else None."""
        if self.claim is not None:
            return "claim %d was broken after step %d" % (self.claim, self.steps)
        idle = self.steps - self.last_event
        if idle >= QUIET and idle * 10 >= self.steps:
            return "no event in the last %d steps" % idle
        return None


def ratio(count, among):
    """A count for each of so many."""
    return "%.2f" % (count / among) if among else "-"


def middle(waits):
    """The median."""
    return sorted(waits)[len(waits) // 2] if waits else "-"


def histogram(waits):
    """Counts of waits up to 1, 2, 4, 8 and so on steps: pairs of a name and a count."""
    bins, low, high = [], 0, 1
    while waits and low < max(waits):
        bins.append(("%d-%d" % (low + 1, high) if high > low + 1 else str(high),
                     sum(low < wait <= high for wait in waits)))
        low, high = high, high * 2
    return bins


def waits_of(runs):
    """For each run by its name, the waits until taken and until answered: a title, the histogram."""
    return [("steps until %s, %s" % (what, name), histogram(waits)) for name, run in runs
            for what, waits in (("taken", run.taken), ("answered", run.answered))]


def all_lines(file, remotes):
    """The lines of each step that may be enabled in some state."""
    ours, theirs = (max([len(state.guards) for state in process.states] + [1])
                    for process in (file.home, file.remote))
    lines = ["home tau %d" % guard for guard in range(ours)]
    lines += ["home send %d %d" % (guard, remote) for guard in range(ours) for remote in remotes]
    for remote in remotes:
        lines += [form % remote for form in ("home take %d", "home drop %d", "remote %d send",
                                             "remote %d answer", "remote %d reply", "up %d", "down %d")]
        lines += ["remote %d tau %d" % (remote, guard) for guard in range(theirs)]
    return lines


def steps_of(file, words, count, seed):
    """Pseudorandom lines for `run` with these words, so many that about `count` of them are enabled."""
    chance, lines = random.Random(seed), all_lines(file, range(int(words[1])))
    chosen = min(MOST_LINES, count * max(2, len(lines) // 2))
    return "".join(chance.choice(lines) + "\n" for _ in range(chosen))


def cut_to(trace, count):
    """A trace up to its step of this number that isn't refused."""
    at = 0
    for found in re.finditer(r"^\d+ [^:\n]+: (?!refused)", trace, re.M):
        count -= 1
        if count < 0:
            at = found.start()
            return trace[:at]
    return trace


def measured(file, words, steps, count=None):
    """The Measures of a run of the program with these words over these steps."""
    status, text = answer(["run"] + words, steps)
    if status not in (0, 7):
        raise Fault("`run %s` ends with status %d: %s" % (
            " ".join(words), status, text.rstrip("\n").rpartition("\n")[2]))
    measures = Measures(int(words[1]))
    measures.read(cut_to(text, count) if count is not None else text)
    return measures
