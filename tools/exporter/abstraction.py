"""The abstraction as functions of the controllers' machine: the states of the processes in the
protocol. A process that waits may have been granted its request and not know it yet."""
from exporter import machine as m

UP, DOWN = 2, 3


def lies(way, remote, kind):
    """A packet of this kind is on a link."""
    return m.either([m.same("link[%s].%s[%d].kind" % (remote, way, number), kind)
                     for number in range(UP if way == "up" else DOWN)])


def after(process, guard):
    """The state after a guard."""
    return guard.goto


def after_reply(process, guard):
    """The state after an output and the only guard of its next state, which takes the reply."""
    rest = process.states[guard.goto]
    return rest[0].goto if len(rest) == 1 and rest[0].kind == "from" else None


def chosen(outputs, test, leads, otherwise):
    """The state to which the output leads whose test holds; `leads` answers its name."""
    result = m.word(otherwise)
    for state, number, guard in reversed(outputs):
        goal = leads(guard)
        if goal is not None:
            result = m.choice(test(state, number), m.word(goal), result)
    return result


def remote_functions(controllers):
    """The abstract state of a remote."""
    process, kind = controllers.protocol.remote, ("enum", "RemoteState")
    at = "remote[r].state"

    def state(name):
        return controllers.names.state(process, name)

    def leads(after_it):
        return chosen(controllers.remote_outputs, lambda name, _: m.same(at, state(name)),
                      lambda guard: after_it(process, guard) and state(after_it(process, guard)), at)
    granted = m.either([lies("down", "r", "Ack"), m.negated(m.same("owed[r]", "NoMessage"))])
    return [
        m.Function("AfterRequest", [("r", ("remote",))], kind, leads(after),
                   "The state after the guard by which remote r waits."),
        m.Function("AfterReply", [("r", ("remote",))], kind, leads(after_reply),
                   "The state after that guard and the one that takes the reply."),
        m.Function("AbstractState", [("r", ("remote",))], kind, m.choice(
            m.negated(m.same("remote[r].mode", "Waiting")), m.word(at),
            m.choice(lies("down", "r", "Reply"), m.ask("AfterReply", "r"),
                     m.choice(granted, m.ask("AfterRequest", "r"), m.word(at)))),
            "The abstraction: the state of remote r in the protocol.")]


def home_functions(controllers):
    """The abstract state of the home."""
    process, kind = controllers.protocol.home, ("enum", "HomeState")
    at = "home.state"

    def state(name):
        return controllers.names.state(process, name)

    def leads(after_it):
        return chosen(controllers.home_outputs,
                      lambda name, number: m.same("home.waits", controllers.waits(name, number)),
                      lambda guard: after_it(process, guard) and state(after_it(process, guard)), at)

    def awaited(test):
        return m.some_remote(lambda i: m.both([m.contains(m.kept("home.awaits"), i), test(i)]))
    replied = awaited(lambda i: lies("up", i, "Reply"))
    granted = awaited(lambda i: m.either([lies("up", i, "Ack"), m.same("remote[%s].mode" % i, "Due")]))
    return [
        m.Function("HomeAfterRequest", [], kind, leads(after),
                   "The state after the guard by which the home waits."),
        m.Function("HomeAfterReply", [], kind, leads(after_reply),
                   "The state after that guard and the one that takes the reply."),
        m.Function("AbstractHomeState", [], kind, m.choice(
            controllers.idle(), m.word(at),
            m.choice(replied, m.ask("HomeAfterReply"),
                     m.choice(granted, m.ask("HomeAfterRequest"), m.word(at)))),
            "The abstraction: the state of the home in the protocol.")]


def abstraction(controllers):
    """All of it."""
    return remote_functions(controllers) + home_functions(controllers)
