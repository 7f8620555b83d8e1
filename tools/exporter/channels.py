"""Writes a protocol in Promela with rendezvous channels: a process for the home and one for each
remote."""
from exporter import machine as m
from exporter.guards import Body, assignments
from exporter.murphi import ATOM
from exporter.names import TAKEN
from exporter.promela import Printer
from exporter.rendezvous import claims_of

HEAD = """\
#define N %d        /* remotes */
#define none N     /* no remote */
#define tau (_nr_pr > 0)   /* always, but a loop of `true` is refused */
#define bit(x) (x < N -> 1 << x : 0)
#define has(s, x) (((s) >> x) & 1)

mtype = { %s };

/* What goes to the home and what goes to the remotes. Nobody is at the last channel, which an input or
   output is given that isn't open. */
chan up[N + 1] = [0] of { mtype, int };
chan down[N + 1] = [0] of { mtype, int };
"""
OURS = "up down none n tau bit has got home remote claims c_expr".split()
SPECIAL = ("end", "accept", "progress")


class Names:
    """The protocol's names, where they don't mean something else in Promela."""

    def __init__(self, protocol):
        self.messages = {}
        for message in protocol.messages:
            self.messages[message] = self.free(message, self.messages.values())
        self.known = {}
        for process in (protocol.home, protocol.remote):
            taken = set(self.messages.values())
            for kind, listed in (("state", process.states), ("variable", process.variables)):
                for name in listed:
                    spelled = self.free(name, taken)
                    taken.add(spelled)
                    self.known[id(process), kind, name] = spelled
        self.process = None

    @staticmethod
    def free(name, taken):
        """A name like this one that isn't taken."""
        if name.startswith(SPECIAL + ("_",)):
            name = "x_" + name
        while name.lower() in TAKEN or name.lower() in OURS or name in taken:
            name += "_"
        return name

    def state(self, process, state):
        """The label of a state."""
        return self.known[id(process), "state", state]


class OwnBody(Body):
    """A process whose variables are its own."""

    def place(self, variable):
        return self.names.known[id(self.process), "variable", variable]


class Writer(Printer):
    """Writes the processes. A node is a number, `none` for no remote; a set is a number with a bit
    for each remote."""

    def __init__(self, protocol, remotes):
        super().__init__(m.Machine([], remotes, {}, [], [], [], [], [], None, []))
        self.protocol = protocol
        self.names = Names(protocol)
        self.bodies = [OwnBody(process, "", self.names, protocol.messages)
                       for process in (protocol.home, protocol.remote)]

    # Nodes and sets.

    def mask_of(self, what, *parts):
        if what == "kept" and parts[1] == "node":
            return "bit(%s)" % parts[0], ATOM
        return super().mask_of(what, *parts)

    def node(self, remotes):
        """The number of a node."""
        return {"none": "none", "just": remotes[-1], "kept": remotes[1] if remotes[1:] else ""}[remotes[0]]

    @staticmethod
    def is_node(remotes):
        """Whether a set is a node for sure."""
        return remotes[0] == "just" or remotes[0] == "kept" and remotes[2] == "node"

    def of_contains(self, remotes, remote):
        if self.is_node(remotes):
            return super().of_compare("=", m.word(self.node(remotes)), m.word(remote))
        return super().of_contains(remotes, remote)

    def of_equal(self, left, right):
        if self.is_node(left) or self.is_node(right):
            return super().of_compare("=", m.word(self.node(left)), m.word(self.node(right)))
        return super().of_equal(left, right)

    def of_meet(self, left, right):
        if self.is_node(left) and right[0] == "kept":
            return "(%s & bit(%s)) != 0" % (right[1], self.node(left)), 4
        return super().of_meet(left, right)

    def do_put_set(self, indent, place, remotes, kind):
        if kind == "node":
            return ["%s%s = %s;" % (indent, place, self.node(remotes))]
        return super().do_put_set(indent, place, remotes, kind)

    # Guards.

    def sent(self, body, guard):
        """The value that an output sends."""
        value = body.sent(guard)
        kind = self.protocol.messages[guard.message]
        if not kind:
            return "0"
        if kind[0] == "int":
            return self.expression(value)
        return self.node(value) if kind[0] == "node" else self.mask(value)

    def meeting(self, body, guard, channel, partner):
        """The statement that sends or receives."""
        message = self.names.messages[guard.message]
        if guard.kind == "to":
            return "%s ! %s(%s)" % (channel, message, self.sent(body, guard)), []
        if not guard.value:
            return "%s ? %s(_)" % (channel, message), []
        variable, kind = guard.value[0], self.protocol.messages[guard.message]
        own = body.process.types[variable]
        if kind[0] != "int" or kind[1] <= own[1]:
            return "%s ? %s(%s)" % (channel, message, body.place(variable)), []
        cut = m.put(body.place(variable), ("sum", "%", m.word("got"), m.word(own[1])))
        return "%s ? %s(got)" % (channel, message), [cut]

    def option(self, body, guard, condition, channel, partner):
        """An option of a state: what is met, then the assignments, then the next state."""
        if guard.kind == "tau":
            first, rest = "tau" if condition == m.TRUE else self.expression(condition), []
        else:
            if condition != m.TRUE:
                channel = "%s[(%s -> %s : none)]" % (channel[0], self.expression(condition), channel[1])
            else:
                channel = "%s[%s]" % channel
            first, rest = self.meeting(body, guard, channel, partner)
        met = guard.partner.split(" ")
        if met[0] == "any" and not (guard.kind == "from" and met[1:2] == list(guard.value)):
            rest = [m.put_set(body.place(met[1]), m.just(partner))] + rest
        for variable, tokens in assignments(guard):
            kind = body.process.types[variable]
            if kind[0] == "int":
                rest.append(m.put(body.place(variable), body.amount(tokens).cut(kind[1])))
            else:
                rest.append(m.put_set(body.place(variable), body.remotes(tokens), kind[0]))
        moves = [first] + [line.rstrip(";") for line in self.statements(rest, "")]
        next_state = "goto " + self.names.state(body.process, guard.goto)
        if len(moves) == 1:
            return "%s -> %s" % (first, next_state)
        return "atomic { %s ->\n       %s; %s }" % (moves[0], "; ".join(moves[1:]), next_state)

    def options(self, body, guard):
        """The options of a guard: one for each remote where the home may meet any."""
        condition = body.open(guard)
        if guard.kind == "tau" or guard.partner == "home":
            channel = ("up" if guard.kind == "to" else "down", "_pid")
            return [self.option(body, guard, condition, channel, None)]
        way = "down" if guard.kind == "to" else "up"
        if not guard.partner.startswith("any "):
            return [self.option(body, guard, condition, (way, body.place(guard.partner)), None)]
        return [self.option(body, guard, m.both([condition, body.targets(guard, remote)]),
                            (way, remote), remote) for remote in self.numbers()]

    def process(self, body, head):
        """The lines of a process."""
        lines = [head]
        for variable, kind in body.process.types.items():
            first = {"node": "none", "set": "0"}.get(kind[0], body.process.variables[variable])
            spelled = {"node": "byte", "set": self.number_type(2 ** self.machine.remotes)}.get(
                kind[0]) or self.number_type(kind[1])
            lines.append("  %s %s = %s;" % (spelled, body.place(variable), first))
        states = body.process.states
        if any(line.find("(got)") >= 0 for guards in states.values() for guard in guards
               for line in self.options(body, guard)):
            lines.append("  int got;")
        lines.append("  goto %s;" % self.names.state(body.process, body.process.start))
        for state, guards in states.items():
            lines.append("%s:" % self.names.state(body.process, state))
            lines.append("  if")
            for guard in guards:
                lines.append("  /* %s goto %s */" % (" ".join(guard.parts()), guard.goto))
                lines += ["  :: " + option for option in self.options(body, guard)]
            if not guards:
                lines.append("  :: false")
            lines.append("  fi;")
        return lines + ["}", ""]

    def text(self):
        """The whole model."""
        protocol = self.protocol
        home, remote = self.bodies
        lines = ["/* %s with %d remote%s, at the atomic level: rendezvous channels. */" % (
            protocol.name, self.machine.remotes, "" if self.machine.remotes == 1 else "s")]
        messages = ", ".join(self.names.messages.values()) or "nothing"
        lines += (HEAD % (self.machine.remotes, messages)).split("\n")
        lines += self.process(remote, "active [N] proctype Remote() {")
        lines += self.process(home, "active proctype Home() {")

        def stands(number, states):
            return m.either([m.word("Remote[%s]@%s" % (number, self.names.state(
                protocol.remote, state))) for state in states])
        self.machine.invariants = claims_of(protocol, stands)
        return "\n".join(lines + self.claims() + [""])


def written(protocol, remotes):
    """The text of the model."""
    return Writer(protocol, remotes).text()
