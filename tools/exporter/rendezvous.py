"""The rendezvous meaning of a protocol with N remotes as a machine: a rule for each event."""
from exporter import machine as m
from exporter.guards import Body, names_remotes, variables_that_matter
from exporter.names import Names


def fields_of(process, names):
    """The fields in which a process keeps its state and its variables."""
    enum = "HomeState" if process is names.home else "RemoteState"
    fields = [m.Field("state", ("enum", enum), names.state(process, process.start))]
    for variable, kind in process.types.items():
        name = names.field(variable)
        if kind[0] == "int":
            fields.append(m.Field(name, ("number", kind[1]), process.variables[variable]))
        else:
            fields.append(m.Field(name, ("remotes",), about=kind[0]))
    return fields


def states_of(protocol, names):
    """The types of the states."""
    return {word: [names.state(process, state) for state in process.states]
            for word, process in (("HomeState", protocol.home), ("RemoteState", protocol.remote))}


def line(who, state, number, guard):
    """A guard in words, for a comment."""
    return "%-6s %s/%d  %s goto %s" % (who, state, number, " ".join(guard.parts()), guard.goto)


def listed(process):
    """The guards of a process: state, number and guard of each."""
    return [(state, number, guard) for state, guards in process.states.items()
            for number, guard in enumerate(guards)]


def claim_of(text, stands):
    """The condition that a claim states; `stands` tells that a remote is in one of these states."""
    words = text.split(" ")
    if words[0] == "atmost":
        states = sorted(set(words[3:]), key=words.index)
        return m.at_most(int(words[1]), lambda remote: stands(remote, states))
    return m.no_two(lambda remote: stands(remote, [words[1]]), lambda remote: stands(remote, [words[3]]))


def claims_of(protocol, stands):
    """The claims of the file, each with its text."""
    return [("claim %d: %s" % (number, text), claim_of(text, stands))
            for number, text in enumerate(protocol.claims)]


class Rendezvous:
    """Writes the machine of a protocol."""

    def __init__(self, protocol, remotes, forget):
        self.protocol, self.remotes, self.forget = protocol, remotes, forget
        self.names = Names(protocol)
        self.home = self.body(protocol.home, "home")

    def body(self, process, at):
        """A process whose state and variables are kept there."""
        matter = variables_that_matter(process) if self.forget else None
        return Body(process, at, self.names, self.protocol.messages, matter)

    def remote(self, remote):
        """The process of this remote."""
        return self.body(self.protocol.remote, "remote[%s]" % remote)

    def home_rules(self):
        """The local steps of the home."""
        return [m.Rule("tau home %s/%d" % (state, number),
                       m.both([self.home.stands(state), self.home.open(guard)]),
                       self.home.move(state, guard), (line("home", state, number, guard),))
                for state, number, guard in listed(self.protocol.home) if guard.kind == "tau"]

    def remote_rules(self, remote):
        """The events of this remote: its local steps, then what goes up, then what goes down."""
        own = self.remote(remote)
        rules = [m.Rule("tau %s/%d" % (state, number),
                        m.both([own.stands(state), own.open(guard)]), own.move(state, guard),
                        (line("remote", state, number, guard),))
                 for state, number, guard in listed(self.protocol.remote) if guard.kind == "tau"]
        return rules + self.meetings(own, remote, "up") + self.meetings(own, remote, "down")

    def meetings(self, own, remote, way):
        """The rendezvous with this remote, one for each two guards that fit."""
        kinds = ("from", "to") if way == "up" else ("to", "from")
        rules = []
        for at, number, guard in listed(self.protocol.home):
            for state, other, partner in listed(self.protocol.remote):
                if (guard.kind, partner.kind) == kinds and guard.message == partner.message:
                    rules.append(self.meeting(own, remote, way, (at, number, guard),
                                              (state, other, partner)))
        return rules

    def meeting(self, own, remote, way, at_home, at_remote):
        """The rendezvous of a guard of the home and one of the remote. The receiver moves first: so
        what it gets is still computed from the sender's variables as they were."""
        condition = m.both([self.home.stands(at_home[0]), own.stands(at_remote[0]),
                            self.home.open(at_home[2]), own.open(at_remote[2]),
                            self.home.targets(at_home[2], remote)])
        if way == "up":
            value = own.sent(at_remote[2])
            moves = (self.home.move(at_home[0], at_home[2], remote, value)
                     + own.move(at_remote[0], at_remote[2]))
        else:
            value = self.home.sent(at_home[2])
            moves = (own.move(at_remote[0], at_remote[2], None, value)
                     + self.home.move(at_home[0], at_home[2], remote))
        name = "%s %s %s/%d %s/%d" % ((way, at_home[2].message) + at_home[:2] + at_remote[:2])
        return m.Rule(name, condition, moves, (line("home", *at_home), line("remote", *at_remote)))

    def stands(self, remote, states):
        """The remote is in one of these states."""
        return m.either([self.remote(remote).stands(state) for state in states])

    def machine(self):
        """The whole."""
        protocol, names = self.protocol, self.names
        title = ["%s with %d remote%s, at the atomic level: a rule for each event." % (
            protocol.name, self.remotes, "" if self.remotes == 1 else "s")]
        if self.forget:
            title.append("A variable that doesn't matter in a state has its first value there.")
        return m.Machine(
            title, self.remotes, states_of(protocol, names),
            [m.Record("Home", fields_of(protocol.home, names)),
             m.Record("OneRemote", fields_of(protocol.remote, names))],
            [m.Field("home", ("record", "Home")),
             m.Field("remote", ("record", "OneRemote"), of_remote=True)],
            [], [], self.home_rules(), self.remote_rules, claims_of(protocol, self.stands))


def is_symmetric(protocol):
    """Whether remotes can be exchanged: no variable of a remote names remotes."""
    return not names_remotes(protocol)
