"""The controllers of a protocol with N remotes and K slots as a machine: a rule for each row of the
table and for each way in which a request that arrives is dealt with."""
from exporter import machine as m
from exporter.abstraction import DOWN, UP, abstraction
from exporter.rendezvous import Rendezvous, claims_of, fields_of, line, listed, states_of

REMOTE = ("remote",)
MESSAGE, KIND = ("enum", "Message"), ("enum", "Kind")
NO_MESSAGE, NOT_WAITING = "NoMessage", "NotWaiting"


class Controllers(Rendezvous):
    """Writes the machine of a protocol's controllers. `replies` has the reply of each message that
    has one in this mode."""

    def __init__(self, protocol, remotes, slots, mode, replies, forget):
        super().__init__(protocol, remotes, forget)
        self.slots, self.table_mode, self.replies = slots, mode, replies
        self.home_outputs = [one for one in listed(protocol.home) if one[2].kind == "to"]
        self.home_inputs = [one for one in listed(protocol.home) if one[2].kind == "from"]
        self.remote_outputs = [one for one in listed(protocol.remote) if one[2].kind == "to"]

    # ------------------------------------------------------------ what is kept

    def values(self):
        """The fields of a value, one for numbers and one for nodes and sets, where messages carry
        such."""
        kinds = [kind for kind in self.protocol.messages.values() if kind]
        bounds = [kind[1] for kind in kinds if kind[0] == "int"]
        fields = [m.Field("number", ("number", max(bounds)))] if bounds else []
        if any(kind[0] != "int" for kind in kinds):
            fields.append(m.Field("remotes", ("remotes",)))
        return fields

    def records(self):
        """The types of records."""
        message = m.Field("message", MESSAGE, NO_MESSAGE)
        home = fields_of(self.protocol.home, self.names) + [
            m.Field("waits", ("enum", "HomeWaits"), NOT_WAITING, about="by which guard it waits"),
            m.Field("awaits", ("remotes",), about="on whom it waits"),
            m.Field("held", ("number", self.slots + 1), about="how many requests it holds")]
        remote = fields_of(self.protocol.remote, self.names) + [
            m.Field("mode", ("enum", "Mode"), "Idle"),
            m.Field("slot", ("record", "Slot"), about="a request of the home, or NoMessage")]
        return [
            m.Record("Packet", [m.Field("kind", KIND, "Nothing"), message] + self.values()),
            m.Record("Slot", [message] + self.values()),
            m.Record("Held", [m.Field("place", ("number", self.slots + 1)), message] + self.values(),
                     "a request that the home holds: its place in the order of arrival, 0 for none"),
            m.Record("Link", [m.Field("up", ("record", "Packet"), count=UP),
                              m.Field("ups", ("number", UP + 1)),
                              m.Field("down", ("record", "Packet"), count=DOWN),
                              m.Field("downs", ("number", DOWN + 1))],
                     "the packets on the two links of a remote, the first to arrive first"),
            m.Record("Home", home), m.Record("OneRemote", remote)]

    def enums(self):
        """The types of names."""
        enums = states_of(self.protocol, self.names)
        enums["Message"] = [NO_MESSAGE] + [self.names.message(one) for one in self.protocol.messages]
        enums["Kind"] = ["Nothing", "Request", "Reply", "Ack", "Nack"]
        enums["Mode"] = ["Idle", "Waiting", "Due"]
        enums["HomeWaits"] = [NOT_WAITING] + [self.waits(*one[:2]) for one in self.home_outputs]
        return enums

    @staticmethod
    def waits(state, number):
        """That the home waits by this guard, as a constant."""
        return "W_%s_%d" % (state, number)

    def message(self, guard):
        """The message of a guard, as a constant."""
        return self.names.message(guard.message)

    def fields(self, at, other=None):
        """Statements that copy a message and its value from another place, or clear them."""
        found = []
        for field in [m.Field("message", MESSAGE, NO_MESSAGE)] + self.values():
            place = "%s.%s" % (at, field.name)
            if field.type[0] == "remotes":
                found.append(m.put_set(place, m.kept("%s.%s" % (other, field.name)) if other else m.NONE))
            else:
                found.append(m.put(place, m.word(
                    "%s.%s" % (other, field.name) if other else field.first or "0")))
        return found

    def packet(self, at, other=None):
        """Statements that copy a packet, or clear it."""
        kind = m.word(other + ".kind" if other else "Nothing")
        return [m.put(at + ".kind", kind)] + self.fields(at, other)

    def carried(self, guard, at):
        """The value that is kept there, as the guard takes it."""
        kind = self.protocol.messages[guard.message]
        if not kind:
            return None
        return m.word(at + ".number") if kind[0] == "int" else m.kept(at + ".remotes", kind[0])

    def send(self, way, remote, kind, body=None, guard=None):
        """Statements that put a packet on a link: the value first, then the rest."""
        done = []
        message = NO_MESSAGE
        if guard is not None:
            message = self.message(guard)
            carries = self.protocol.messages[guard.message]
            at = "link[%s].%s[link[%s].%ss]" % (remote, way.lower(), remote, way.lower())
            if carries and carries[0] == "int":
                done.append(m.put(at + ".number", body.sent(guard)))
            elif carries:
                done.append(m.put_set(at + ".remotes", body.sent(guard), carries[0]))
        return done + [m.call("Put" + way, remote, kind, message)]

    # ------------------------------------------------------------ functions and procedures

    def procedures(self):
        """What puts a packet on a link and takes one off, and what holds a request and lets it
        go."""
        made = []
        for way, most in (("Up", UP), ("Down", DOWN)):
            low = way.lower()
            count = "link[r].%ss" % low
            at = "link[r].%s[%s]" % (low, count)
            made.append(m.Procedure("Put" + way, [("r", REMOTE), ("what", KIND), ("which", MESSAGE)], [
                m.must(m.compare(m.word(count), "<", m.word(most)),
                       "at most %d packets are on %s link" % (most, "an up" if most == UP else "a down")),
                m.put(at + ".kind", m.word("what")), m.put(at + ".message", m.word("which")),
                m.put(count, ("sum", "+", m.word(count), m.word(1)))],
                "A packet is put on the %s link; its value is there already." % low))
            shifts = []
            for number in range(most):
                shifts += self.packet("link[r].%s[%d]" % (low, number), "link[r].%s[%d]" % (
                    low, number + 1) if number + 1 < most else None)
            made.append(m.Procedure("Take" + way, [("r", REMOTE)], shifts + [
                m.put(count, ("sum", "-", m.word(count), m.word(1)))],
                "The first packet is taken off the %s link." % low))
        made.append(m.Procedure("Hold", [("r", REMOTE)], [
            m.must(m.compare(m.word("home.held"), "<", m.word(self.slots)), "a slot is free"),
            m.must(m.same("held[r].place", 0), "one request of each remote is held at most"),
            m.put("home.held", ("sum", "+", m.word("home.held"), m.word(1))),
            m.put("held[r].place", m.word("home.held"))] + self.fields("held[r]", "link[r].up[0]"),
            "The request that arrives is held as the last one."))
        made.append(m.Procedure("Release", [("r", REMOTE)], [
            m.each_remote(lambda i: [m.when((
                m.compare(m.word("held[r].place"), "<", m.word("held[%s].place" % i)),
                [m.put("held[%s].place" % i, ("sum", "-", m.word("held[%s].place" % i), m.word(1)))]))]),
            m.put("held[r].place", m.word(0)),
            m.put("home.held", ("sum", "-", m.word("home.held"), m.word(1)))] + self.fields("held[r]"),
            "The held request leaves its slot, and later ones move up."))
        return made

    def completing(self, guard_at, remote, which):
        """A request of the remote with this message completes this guard of the home."""
        state, _, guard = guard_at
        return m.both([self.home.stands(state), m.same(which, self.message(guard)),
                       self.home.open(guard), self.home.targets(guard, remote)])

    def functions(self):
        """What is asked of a configuration."""
        boolean = ("flag",)
        held = m.word("home.held")
        used = m.choice(self.idle(), held, ("sum", "+", held, m.word(1)))
        completes = m.ask("Completes", "link[r].up[0].message", "r")
        return [
            m.Function("Completes", [("which", MESSAGE), ("r", REMOTE)], boolean, m.either(
                [self.completing(one, "r", "which") for one in self.home_inputs]),
                "A request of remote r completes a guard of the home's state, or of the one that it left."),
            m.Function("SomeHeldCompletes", [], boolean, m.some_remote(
                lambda i: m.ask("Completes", "held[%s].message" % i, i)),
                "Some request that is held completes a guard."),
            m.Function("IsTarget", [("r", REMOTE)], boolean, m.either(
                [m.both([self.home.stands(state), self.home.open(guard), self.home.targets(guard, "r")])
                 for state, _, guard in self.home_outputs]), "Remote r is a target of an open output."),
            m.Function("SomeTarget", [], boolean, m.some_remote(lambda i: m.ask("IsTarget", i)),
                       "Some open output has a target."),
            m.Function("Used", [], ("number", self.slots + 1), used,
                       "How many slots are not free: a home that waits keeps one for the answer."),
            m.Function("IsKept", [("r", REMOTE)], boolean, m.either([
                m.compare(m.ask("Used"), "<", m.word(self.slots - 1)),
                m.both([m.compare(m.ask("Used"), "=", m.word(self.slots - 1)), completes])]),
                "The request that arrives is kept: two slots are free, or one and it completes a guard."),
            m.Function("Displaces", [("r", REMOTE)], boolean, m.both([
                self.idle(), m.compare(held, "=", m.word(self.slots)), completes,
                m.negated(m.ask("SomeHeldCompletes"))]),
                "The request that arrives displaces the last held one: no slot is free, and no held request completes a guard."),
        ] + abstraction(self)

    # ------------------------------------------------------------ steps of the home

    def idle(self):
        """The home is idle."""
        return m.same("home.waits", NOT_WAITING)

    def back(self):
        """Statements by which the home waits no longer."""
        return [m.put("home.waits", m.word(NOT_WAITING)), m.put_set("home.awaits", m.NONE)]

    def home_rules(self):
        """The local steps of the home."""
        rules = super().home_rules()
        for rule in rules:
            rule.name = rule.name.replace("tau home", "home tau")
            rule.condition = m.both([self.idle(), rule.condition])
        return rules

    def take_rules(self, remote):
        """The home takes a request that it holds, by the first guard that this completes."""
        rules = []
        which = "held[%s].message" % remote
        for state, number, guard in self.home_inputs:
            earlier = [self.protocol.home.states[state][other] for other in range(number)]
            before = [m.negated(m.both([self.home.open(one), self.home.targets(one, remote)]))
                      for one in earlier if one.kind == "from" and one.message == guard.message]
            condition = m.both([self.idle(), self.completing((state, number, guard), remote, which)] + before)
            reply = self.replies.get(guard.message)
            answer = ([m.put("owed[%s]" % remote, m.word(self.names.message(reply)))] if reply
                      else self.send("Down", remote, "Ack"))
            moves = self.home.move(state, guard, remote, self.carried(guard, "held[%s]" % remote))
            rules.append(m.Rule("home take %s/%d" % (state, number), condition,
                                moves + [m.call("Release", remote)] + answer,
                                (line("home", state, number, guard),)))
        return rules

    def send_rules(self, remote):
        """The home pays a reply that it owes, or sends a request."""
        rules = []
        replies = set(self.replies.values())
        for state, number, guard in self.home_outputs:
            condition = m.both([self.idle(), self.home.stands(state), self.home.open(guard),
                                self.home.targets(guard, remote)])
            about = (line("home", state, number, guard),)
            if guard.message in replies:
                rules.append(m.Rule("home pay %s/%d" % (state, number), m.both(
                    [condition, m.same("owed[%s]" % remote, self.message(guard))]),
                    self.send("Down", remote, "Reply", self.home, guard)
                    + [m.put("owed[%s]" % remote, m.word(NO_MESSAGE))]
                    + self.home.move(state, guard, remote), about))
            free = [m.same("owed[%s]" % remote, NO_MESSAGE), m.negated(m.ask("SomeHeldCompletes")),
                    m.compare(m.word("home.held"), "<=", m.word(self.slots - 2)),
                    m.same("held[%s].place" % remote, 0)]
            rules.append(m.Rule("home send %s/%d" % (state, number), m.both([condition] + free),
                                self.send("Down", remote, "Request", self.home, guard)
                                + [m.put("home.waits", m.word(self.waits(state, number))),
                                   m.put_set("home.awaits", m.just(remote))], about))
        return rules

    def drop_rules(self, remote):
        """The home gives up a request that stands in the way of its own."""
        condition = m.both([
            self.idle(), m.negated(m.same("held[%s].place" % remote, 0)),
            m.negated(m.ask("SomeHeldCompletes")), m.ask("SomeTarget"),
            m.either([m.compare(m.word("home.held"), ">=", m.word(self.slots - 1)),
                      m.ask("IsTarget", remote)])])
        return [m.Rule("home drop", condition,
                       [m.call("Release", remote)] + self.send("Down", remote, "Nack"))]

    # ------------------------------------------------------------ steps of a remote

    def mode_is(self, remote, mode):
        """The remote is idle, waits or is due."""
        return m.same("remote[%s].mode" % remote, mode)

    def mode(self, remote, mode):
        """The remote is idle, waits or is due from now on."""
        return m.put("remote[%s].mode" % remote, m.word(mode))

    def own_rules(self, remote):
        """Local steps, requests and replies of the remote."""
        own = self.remote(remote)
        replies = set(self.replies.values())
        slot = "remote[%s].slot" % remote
        rules = []
        for state, number, guard in listed(self.protocol.remote):
            about = (line("remote", state, number, guard),)
            if guard.kind == "tau":
                rules.append(m.Rule("remote tau %s/%d" % (state, number), m.both(
                    [self.mode_is(remote, "Idle"), own.stands(state), own.open(guard)]),
                    own.move(state, guard), about))
            if guard.kind != "to":
                continue
            rules.append(m.Rule("remote send %s" % state, m.both(
                [self.mode_is(remote, "Idle"), own.stands(state)]),
                self.fields(slot) + self.send("Up", remote, "Request", own, guard)
                + [self.mode(remote, "Waiting")], about))
            if guard.message in replies:
                rules.append(m.Rule("remote reply %s" % state, m.both(
                    [self.mode_is(remote, "Due"), own.stands(state)]),
                    self.send("Up", remote, "Reply", own, guard) + own.move(state, guard)
                    + [self.mode(remote, "Idle")], about))
        return rules

    def answer_rules(self, remote):
        """The remote answers the request in its slot, by the first open input, or by a nack."""
        own = self.remote(remote)
        slot = "remote[%s].slot" % remote
        rules = []
        for state, guards in self.protocol.remote.states.items():
            if any(guard.kind == "to" for guard in guards):
                continue
            here = m.both([self.mode_is(remote, "Idle"), own.stands(state)])
            inputs = [(number, guard) for number, guard in enumerate(guards) if guard.kind == "from"]
            for number, guard in inputs:
                before = [m.negated(own.open(one)) for other, one in inputs
                          if other < number and one.message == guard.message]
                answer = ([self.mode(remote, "Due")] if guard.message in self.replies
                          else self.send("Up", remote, "Ack"))
                rules.append(m.Rule("remote answer %s/%d" % (state, number), m.both(
                    [here, m.same(slot + ".message", self.message(guard)), own.open(guard)] + before),
                    own.move(state, guard, None, self.carried(guard, slot)) + self.fields(slot) + answer,
                    (line("remote", state, number, guard),)))
            none = [m.negated(m.both([m.same(slot + ".message", self.message(guard)), own.open(guard)]))
                    for _, guard in inputs]
            rules.append(m.Rule("remote answer %s none" % state, m.both(
                [here, m.negated(m.same(slot + ".message", NO_MESSAGE))] + none),
                self.fields(slot) + self.send("Up", remote, "Nack")))
        return rules

    # ------------------------------------------------------------ a packet arrives

    def only_input(self, process, guard):
        """The only guard of the next state, which takes the reply of this output's message."""
        return process.states[guard.goto][0]

    def up_rules(self, remote):
        """A packet arrives at the home."""
        first = "link[%s].up[0]" % remote
        awaited = m.contains(m.kept("home.awaits"), remote)
        take = m.call("TakeUp", remote)

        def comes(kind):
            return m.same(first + ".kind", kind)
        rules, answers = [], [m.both([awaited, comes("Nack")])]
        for state, number, guard in self.home_outputs:
            waits = m.same("home.waits", self.waits(state, number))
            moves = self.home.move(state, guard, remote)
            reply = self.replies.get(guard.message)
            if reply:
                taker = self.only_input(self.protocol.home, guard)
                condition = m.both([awaited, waits, comes("Reply"),
                                    m.same(first + ".message", self.names.message(reply))])
                moves = moves + self.home.move(guard.goto, taker, remote, self.carried(taker, first))
            else:
                condition = m.both([awaited, waits, comes("Ack")])
            answers.append(condition)
            rules.append(m.Rule("up %s %s/%d" % ("reply" if reply else "ack", state, number), condition,
                                moves + self.back() + [take], (line("home", state, number, guard),)))
        asked = comes("Request")
        return rules + [m.Rule("up nack", answers[0], self.back() + [take])] + self.request_rules(
            remote, awaited, asked) + [
                m.Rule("up, not expected", m.both([m.negated(comes("Nothing")), m.negated(asked)]
                                                  + [m.negated(one) for one in answers]),
                       [m.must(m.FALSE, "what arrives at the home is expected")])]

    def request_rules(self, remote, awaited, asked):
        """A request arrives at the home: it is as good as a nack, or it is kept, displaces another
        one or is nacked."""
        take, hold = m.call("TakeUp", remote), m.call("Hold", remote)
        free = m.both([m.negated(awaited), asked])
        kept, displaces = m.ask("IsKept", remote), m.ask("Displaces", remote)
        held = m.word("home.held")
        room = [m.each_remote(lambda i: [m.when((
            m.compare(m.word("held[%s].place" % i), "=", held),
            [m.put("held[%s].place" % i, m.word(0))] + self.fields("held[%s]" % i)
            + self.send("Down", i, "Nack")))]),
            m.put("home.held", ("sum", "-", held, m.word(1)))]
        return [
            m.Rule("up request, as good as a nack", m.both([awaited, asked]),
                   self.back() + [hold, take]),
            m.Rule("up request, kept", m.both([free, kept]), [hold, take]),
            m.Rule("up request, displaces", m.both([free, displaces]), room + [hold, take]),
            m.Rule("up request, nacked", m.both([free, m.negated(kept), m.negated(displaces)]),
                   [take] + self.send("Down", remote, "Nack"))]

    def down_rules(self, remote):
        """A packet arrives at the remote."""
        own = self.remote(remote)
        first, slot = "link[%s].down[0]" % remote, "remote[%s].slot" % remote
        take = m.call("TakeDown", remote)
        waits, idle = self.mode_is(remote, "Waiting"), self.mode_is(remote, "Idle")

        def comes(kind):
            return m.same(first + ".kind", kind)
        rules, answers = [], [m.both([waits, comes("Nack")]), m.both([waits, comes("Request")]),
                              m.both([idle, comes("Request")])]
        for state, number, guard in self.remote_outputs:
            moves = own.move(state, guard)
            reply = self.replies.get(guard.message)
            if reply:
                taker = self.only_input(self.protocol.remote, guard)
                condition = m.both([waits, own.stands(state), comes("Reply"),
                                    m.same(first + ".message", self.names.message(reply))])
                moves = moves + own.move(guard.goto, taker, None, self.carried(taker, first))
            else:
                condition = m.both([waits, own.stands(state), comes("Ack")])
            answers.append(condition)
            rules.append(m.Rule("down %s %s/%d" % ("reply" if reply else "ack", state, number), condition,
                                moves + [self.mode(remote, "Idle"), take],
                                (line("remote", state, number, guard),)))
        return rules + [
            m.Rule("down nack", answers[0], [self.mode(remote, "Idle"), take]),
            m.Rule("down request, dropped", answers[1], [take]),
            m.Rule("down request, to the slot", answers[2],
                   [m.must(m.same(slot + ".message", NO_MESSAGE), "the slot is empty")]
                   + self.fields(slot, first) + [take]),
            m.Rule("down, not expected", m.both(
                [m.negated(comes("Nothing"))] + [m.negated(one) for one in answers]),
                [m.must(m.FALSE, "what arrives at a remote is expected")])]

    # ------------------------------------------------------------ the whole

    def remote_rules(self, remote):
        """The steps that have to do with this remote."""
        return [rule for rules in (self.take_rules, self.send_rules, self.drop_rules, self.own_rules,
                                   self.answer_rules, self.up_rules, self.down_rules)
                for rule in rules(remote)]

    def stands(self, remote, states):
        """The remote stands in one of these states in the protocol."""
        return m.either([m.compare(m.ask("AbstractState", remote), "=", m.word(
            self.names.state(self.protocol.remote, state))) for state in states])

    def bounds(self):
        """What is bounded beside what the types bound and what is looked at where a packet is
        put."""
        waits = m.negated(self.idle())
        held = m.word("home.held")
        return [("a slot is left while the home waits", m.either(
            [self.idle(), m.compare(held, "<", m.word(self.slots))])),
            ("with one more slot free, some held request completes a guard", m.negated(m.both(
                [waits, m.compare(held, "=", m.word(self.slots - 1)),
                 m.negated(m.ask("SomeHeldCompletes"))])))]

    def machine(self):
        """The whole."""
        title = ["%s with %d remote%s, %d slots, mode %s: the controllers, a rule for each row." % (
            self.protocol.name, self.remotes, "" if self.remotes == 1 else "s", self.slots, self.table_mode)]
        if self.forget:
            title.append("A variable that doesn't matter in a state has its first value there.")
        variables = [
            m.Field("home", ("record", "Home")),
            m.Field("held", ("record", "Held"), of_remote=True),
            m.Field("owed", MESSAGE, NO_MESSAGE, of_remote=True),
            m.Field("remote", ("record", "OneRemote"), of_remote=True),
            m.Field("link", ("record", "Link"), of_remote=True)]
        return m.Machine(title, self.remotes, self.enums(), self.records(), variables, self.functions(),
                         self.procedures(), self.home_rules(), self.remote_rules,
                         self.bounds() + claims_of(self.protocol, self.stands))
