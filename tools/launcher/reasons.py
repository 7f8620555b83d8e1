"""Why an event or a step is refused, in sentences, from what the trace shows before it.

`Reasons` has the file (a Part of protocol.py), where every process is (Standings of traces.py by
number, None for the home), and how many remotes and slots there are. Each rule is that of the
tables in docs/LANGUAGE.md (events) and docs/REFINEMENT.md (steps). No sentence means that nothing
was found that forbids the event or the step.
"""
from faults import action_of, listed, variables_used, written
from values import holds, is_open, is_target


class Reasons:
    """The reasons in one configuration."""

    def __init__(self, file, standings, remotes, slots=None, nacked=None):
        self.file, self.standings, self.remotes, self.slots = file, standings, remotes, slots
        # Of a remote whose request was nacked last: in which step, as words to follow "in".
        self.nacked = nacked or {}

    def of(self, words):
        """Sentences on an event or a step, which is a list of words."""
        remote = self.remote_in(words)
        if remote is not None and remote >= self.remotes:
            there = "one remote, number 0" if self.remotes == 1 else (
                "%d remotes, numbers 0 to %d" % (self.remotes, self.remotes - 1))
            return ["There is no remote %d: this run has %s." % (remote, there)]
        if words[0] == "tau":
            return self.local(remote, int(words[2]))
        if words[0] in ("up", "down") and len(words) == 4:
            return self.rendezvous(words[0], *map(int, words[1:]))
        if words[0] in ("up", "down"):
            return self.delivery(words[0], remote)
        if words[0] == "home":
            return self.of_home(words, remote)
        return self.of_remote(words, remote)

    @staticmethod
    def remote_in(words):
        """The number of the remote that the words name, or None."""
        if words[0] == "home":
            return int(words[-1]) if words[1] != "tau" else None
        return None if words[1] == "home" else int(words[1])

    # Guards.

    def process(self, which):
        """The process of the home (None) or of a remote."""
        return self.file.home if which is None else self.file.remote

    def guards(self, which):
        """The guards of the state in which a process is."""
        state = self.standings[which].state
        states = self.process(which).states
        return next((one.guards for one in states if one.name.text == state), [])

    def where(self, which):
        """A process and its state, at the front of a sentence."""
        return "%s is in state %s" % (title(which), self.standings[which].state)

    def guard(self, which, number):
        """A guard and no sentences, or None and sentences: no guard has this number."""
        guards = self.guards(which)
        if number < len(guards):
            return guards[number], []
        if not guards:
            return None, ["%s, which has no guards." % self.where(which)]
        have = "guard 0 alone" if len(guards) == 1 else "guards 0 to %d" % (len(guards) - 1)
        return None, ["%s, which has no guard %d. It has %s: %s." % (
            self.where(which), number, have, self.numbered(guards))]

    def numbered(self, guards):
        """Guards with their numbers, in a row."""
        return "; ".join("%d `%s`" % (number, action_of(self.file, guard))
                         for number, guard in enumerate(guards))

    def closed(self, which, number, guard):
        """Sentences on the comparisons of a guard that don't hold."""
        variables = self.standings[which].variables
        found = []
        for comparison in guard.conditions:
            if holds(comparison, variables) is not False:
                continue
            names = [term.text for side in (comparison.left, comparison.right)
                     for term in side.terms if term.text in variables]
            values = listed(["%s=%s" % (name, variables[name]) for name in dict.fromkeys(names)]
                            ) if names else ""
            found.append("The condition `%s` of guard %d of %s's state %s is false%s." % (
                written(self.file, comparison.first, comparison.last), number,
                title(which).lower(), self.standings[which].state,
                " with " + values if values else ""))
        return found

    def kind(self, which, number, guard, action):
        """A sentence where the guard isn't of this kind: tau, from or to."""
        if guard.action == action:
            return []
        wanted = {"tau": "a local step", "from": "an input", "to": "an output"}[action]
        others = ["guard %d" % other for other, one in enumerate(self.guards(which))
                  if one.action == action]
        more = " No guard of that state is one."
        if others:
            more = " %s of that state %s." % (
                listed(others).capitalize(), "is one" if len(others) == 1 else "are")
        return ["%s, and its guard %d is `%s`, not %s.%s" % (
            self.where(which), number, action_of(self.file, guard), wanted, more)]

    def untargeted(self, number, guard, remote):
        """A sentence where the remote is no target of a guard of the home."""
        variables = self.standings[None].variables
        if guard.partner is None or is_target(guard, variables, remote):
            return []
        partner = guard.partner
        variable = partner.set if partner.set is not None else partner.variable
        return ["Remote %d isn't a target of the home's guard %d, `%s`: %s is %s." % (
            remote, number, action_of(self.file, guard), variable.text, variables[variable.text])]

    # Events of the protocol.

    def local(self, which, number):
        """A local step: its state has such a guard, and it is open."""
        guard, found = self.guard(which, number)
        if guard is None:
            return found
        return self.kind(which, number, guard, "tau") or self.closed(which, number, guard)

    def rendezvous(self, way, remote, at_home, at_remote):
        """Home and remote have guards of the same message, both are open, and the remote is a
        target."""
        ours, found = self.guard(None, at_home)
        theirs, more = self.guard(remote, at_remote)
        found += more
        if ours is not None:
            found += self.kind(None, at_home, ours, "from" if way == "up" else "to")
        if theirs is not None:
            found += self.kind(remote, at_remote, theirs, "to" if way == "up" else "from")
        if found:
            return found + self.instead(way, remote)
        if ours.message.text != theirs.message.text:
            verbs = ("takes", "sends") if way == "up" else ("sends", "takes")
            found.append("The home's guard %d of %s %s `%s`, and the remote's guard %d of %s %s "
                         "`%s`." % (at_home, self.standings[None].state, verbs[0],
                                    ours.message.text, at_remote, self.standings[remote].state,
                                    verbs[1], theirs.message.text))
        found += self.closed(None, at_home, ours) + self.closed(remote, at_remote, theirs)
        found += self.untargeted(at_home, ours, remote)
        return found + self.instead(way, remote) if found else []

    def instead(self, way, remote):
        """A sentence on what this home and this remote could do in this direction."""
        at_ours, at_theirs = ("from", "to") if way == "up" else ("to", "from")
        possible = [
            "`%s %d %d %d` (%s)" % (way, remote, at_home, at_remote, ours.message.text)
            for at_home, ours in enumerate(self.guards(None))
            for at_remote, theirs in enumerate(self.guards(remote))
            if ours.action == at_ours and theirs.action == at_theirs
            and ours.message.text == theirs.message.text
            and is_open(ours, self.standings[None].variables)
            and is_open(theirs, self.standings[remote].variables)
            and is_target(ours, self.standings[None].variables, remote)]
        if possible:
            return ["Possible here: %s." % listed(possible)]
        return ["Here no message can go %s between the home in %s and remote %d in %s." % (
            way, self.standings[None].state, remote, self.standings[remote].state)]

    # Steps of the controllers.

    def delivery(self, way, remote):
        """A packet is on the link."""
        if self.standings[remote].lists[way]:
            return []
        return ["No packet is on the %s link of remote %d." % (way, remote)]

    def of_home(self, words, remote):
        """A step of the home, which has to be idle."""
        home = self.standings[None]
        if home.waits:
            guard, waited = home.place.split("/")[1].split(">")
            sent = self.guards(None)[int(guard)]
            return ["The home waits for remote %s's answer to its request `%s` (it is in %s), and "
                    "takes no step of its own until a packet of that remote arrives, by `up %s`." % (
                        waited, sent.message.text, home.place, waited)]
        if words[1] == "tau":
            return self.local(None, int(words[2]))
        if words[1] == "take":
            return self.take(remote)
        if words[1] == "send":
            return self.send(int(words[2]), remote)
        return self.drop(remote)

    def held(self):
        """The requests that the home holds: pairs of a remote and a message with its value."""
        items = [item.split(":", 1) for item in self.standings[None].lists["held"]]
        return [(int(remote), message) for remote, message in items]

    def completing(self, remote, message):
        """The number of the first guard that the request of a remote completes, or None."""
        variables = self.standings[None].variables
        for number, guard in enumerate(self.guards(None)):
            if guard.action == "from" and guard.message.text == message.split("(")[0] and (
                    is_open(guard, variables) and is_target(guard, variables, remote)):
                return number
        return None

    def useful(self):
        """A sentence where a held request completes a guard."""
        for remote, message in self.held():
            number = self.completing(remote, message)
            if number is not None:
                return ["The home holds the request `%s` of remote %d, which its guard %d takes: "
                        "it takes what it can (`home take %d`) before it sends or drops a request."
                        % (message, remote, number, remote)]
        return []

    def absent(self, remote):
        """Sentences on a request of a remote that the home doesn't hold."""
        its = self.standings[remote]
        found = ["The home holds no request of remote %d." % remote]
        on_link = [packet for packet in its.lists["up"] if packet.startswith("?")]
        if on_link:
            found.append("Its request `%s` is still on the up link: `up %d` delivers it."
                         % (on_link[0][1:], remote))
        elif any(item.startswith("%d:" % remote) for item in self.standings[None].lists["owed"]):
            found.append("Its request was taken; the home owes it the reply.")
        elif remote in self.nacked and ("-" in its.lists["down"] or not its.waits):
            found.append("Its request was nacked in %s." % self.nacked[remote])
        elif "+" in its.lists["down"]:
            found.append("Its request was taken; the ack is on the down link.")
        elif not its.waits:
            found.append("It has sent none: it is in state %s." % its.place)
        return found

    def take(self, remote):
        """The home holds a request of the remote, which completes a guard."""
        message = dict(self.held()).get(remote)
        if message is None:
            return self.absent(remote)
        if self.completing(remote, message) is not None:
            return []
        found = ["The home holds the request `%s` of remote %d, and no guard of state %s takes it "
                 "now." % (message, remote, self.standings[None].state)]
        takers = [(number, guard) for number, guard in enumerate(self.guards(None))
                  if guard.action == "from" and guard.message.text == message.split("(")[0]]
        if not takers:
            found.append("No guard of that state is an input of `%s`." % message.split("(")[0])
        for number, guard in takers:
            found += self.closed(None, number, guard) + self.untargeted(number, guard, remote)
        return found

    def send(self, number, remote):
        """The guard is an open output with this target; what is owed is paid; there is room."""
        guard, found = self.guard(None, number)
        if guard is None:
            return found
        found = self.kind(None, number, guard, "to") or (
            self.closed(None, number, guard) + self.untargeted(number, guard, remote))
        owed = dict(item.split(":", 1) for item in self.standings[None].lists["owed"])
        if str(remote) in owed:
            if guard.action == "to" and owed[str(remote)] != guard.message.text:
                found.append("The home owes remote %d the reply `%s`, and can send it nothing else "
                             "before that." % (remote, owed[str(remote)]))
            return found
        found += self.useful()
        held = self.held()
        if len(held) > self.slots - 2:
            found.append("The home holds %d request%s in %d slots; it sends a request of its own "
                         "only with two slots free (`home drop J` gives one up)." % (
                             len(held), "s" * (len(held) != 1), self.slots))
        if remote in dict(held):
            found.append("The home holds a request of remote %d, so that remote waits for an answer "
                         "itself: `home take %d` or `home drop %d` comes first." % (
                             remote, remote, remote))
        return found

    def drop(self, remote):
        """The home holds a useless request of the remote, and it is in the way of an output."""
        held = self.held()
        if remote not in dict(held):
            return self.absent(remote)
        found = self.useful()
        variables = self.standings[None].variables
        outputs = [guard for guard in self.guards(None)
                   if guard.action == "to" and is_open(guard, variables)]
        targets = {other for guard in outputs for other in range(self.remotes)
                   if is_target(guard, variables, other)}
        if not targets:
            found.append("The home gives a request up only if it could send one itself, and no "
                         "open output of state %s has a target." % self.standings[None].state)
        elif len(held) < self.slots - 1 and remote not in targets:
            found.append("The request of remote %d isn't in the way: %d of %d slots are free, and no "
                         "open output goes to remote %d." % (
                             remote, self.slots - len(held), self.slots, remote))
        return found

    def of_remote(self, words, remote):
        """A step of a remote."""
        its = self.standings[remote]
        if words[2] == "reply":
            return [] if its.due else ["Remote %d isn't to send a reply: it is in %s." % (
                remote, its.place)]
        if its.waits:
            sent = self.guards(remote)[0].message.text
            return ["Remote %d waits for the answer to its request `%s` (it is in %s)." % (
                remote, sent, its.place)]
        if its.due:
            return ["Remote %d is to send a reply first: `remote %d reply`." % (remote, remote)]
        if words[2] == "tau":
            return self.local(remote, int(words[3]))
        guards = self.guards(remote)
        active = bool(guards) and guards[0].action == "to"
        if words[2] == "send":
            return [] if active else ["%s, which sends nothing: it has %s." % (
                self.where(remote), self.numbered(guards) if guards else "no guards")]
        if active:
            return ["%s, which only sends: a request in its slot is dropped when it does, by "
                    "`remote %d send`." % (self.where(remote), remote)]
        if its.lists["slot"]:
            return []
        found = ["No request of the home is in the slot of remote %d." % remote]
        coming = [packet for packet in its.lists["down"] if packet.startswith("?")]
        if coming:
            found.append("The request `%s` is still on the down link: `down %d` delivers it." % (
                coming[0][1:], remote))
        return found


def title(which):
    """A process, at the front of a sentence."""
    return "The home" if which is None else "Remote %d" % which
