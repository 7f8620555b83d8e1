"""The guards of a protocol as expressions and statements of a machine, and which variables
matter."""
import re

from exporter import machine as m

ATOM = re.compile(r"(.+) (eq|ne|lt|le|in|notin) (.+)")
RELATIONS = {"eq": "=", "ne": "!=", "lt": "<", "le": "<="}


class Amount:
    """A number that is computed: its expression and the greatest value that it can have. Where it
    is a sum of which the remainder modulo 65,536 is still to be taken, `sum` is the sum's two
    sides."""

    def __init__(self, expression, most, parts=None):
        self.expression, self.most, self.parts = expression, most, parts

    def cut(self, bound):
        """What is kept of the number where it is stored as an `int` of this bound."""
        if self.parts and m.WORD % bound == 0:
            left, constant = self.parts
            if constant is not None:
                return remainder(("sum", "+", left, m.word(constant % bound)), bound)
            return remainder(self.expression[2], bound)
        if self.most < bound:
            return self.expression
        return remainder(self.expression, bound)


def remainder(expression, bound):
    """The remainder of the expression modulo the bound."""
    return ("sum", "%", expression, m.word(bound))


def total(left, sign, right):
    """The sum or difference of two amounts modulo 65,536."""
    constant = right.expression[1] if right.expression[1].isdigit() else None
    if left.expression[1].isdigit() and constant is not None:
        value = int(left.expression[1]) + (int(constant) if sign == "+" else -int(constant))
        return Amount(m.word(value % m.WORD), value % m.WORD)
    if sign == "+":
        plain = ("sum", "+", left.expression, right.expression)
        if left.most + right.most < m.WORD:
            return Amount(plain, left.most + right.most)
        step = int(constant) if constant is not None else None
    else:
        step = m.WORD - int(constant) if constant is not None else None
        plain = ("sum", "+", left.expression, m.word(step)) if constant is not None else (
            "sum", "-", ("sum", "+", left.expression, m.word(m.WORD)), right.expression)
    return Amount(remainder(plain, m.WORD), m.WORD - 1, (left.expression, step))


class Body:
    """A process of the protocol whose variables and state are kept in places that begin so."""

    def __init__(self, process, at, names, messages, matter=None):
        self.process, self.at, self.names, self.messages = process, at, names, messages
        self.matter = matter

    def place(self, variable):
        """Where a variable is kept."""
        return "%s.%s" % (self.at, self.names.field(variable))

    def kept(self, variable):
        """The remotes that a variable names."""
        return m.kept(self.place(variable), self.process.types[variable][0])

    def state(self):
        """Where the state is kept."""
        return self.at + ".state"

    def kind(self, term):
        """int, node or set."""
        if term in ("none", "empty"):
            return "node" if term == "none" else "set"
        return "int" if term.isdigit() else self.process.types[term][0]

    def amount(self, tokens):
        """The number that the tokens spell."""
        def one(term):
            if term.isdigit():
                return Amount(m.word(term), int(term))
            return Amount(m.word(self.place(term)), self.process.types[term][1] - 1)
        if len(tokens) == 1:
            return one(tokens[0])
        return total(one(tokens[0]), tokens[1], one(tokens[2]))

    def remotes(self, tokens):
        """The node or set that the tokens spell."""
        def one(term):
            return m.NONE if term in ("none", "empty") else self.kept(term)
        if len(tokens) == 1:
            return one(tokens[0])
        left, right = one(tokens[0]), one(tokens[2])
        if right == m.NONE:
            return left
        return ("with" if tokens[1] == "+" else "without", left, right)

    def atom(self, text):
        """The condition that one comparison states."""
        left, relation, right = ATOM.fullmatch(text).groups()
        left, right = left.split(" "), right.split(" ")
        if relation in ("in", "notin"):
            met = m.meet(self.remotes(left), self.remotes(right))
            return met if relation == "in" else m.negated(met)
        if self.kind(left[0]) == "int":
            return m.compare(self.amount(left).expression, RELATIONS[relation],
                             self.amount(right).expression)
        same = m.equal(self.remotes(left), self.remotes(right))
        return same if relation == "eq" else m.negated(same)

    def open(self, guard):
        """The guard is open."""
        return m.both([self.atom(text) for text in atoms(guard)])

    def targets(self, guard, remote):
        """The remote is a target of this guard of the home."""
        words = guard.partner.split(" ")
        if words[0] != "any":
            return m.contains(self.kept(words[0]), remote)
        return m.contains(self.kept(words[3]), remote) if len(words) > 2 else m.TRUE

    def stands(self, state):
        """The process is in this state."""
        return m.same(self.state(), self.names.state(self.process, state))

    def sent(self, guard):
        """The value that an output sends: its expression, or None where the message carries
        nothing."""
        kind = self.messages[guard.message]
        if not kind:
            return None
        if kind[0] == "int":
            return self.amount(guard.value).cut(kind[1])
        return self.remotes(guard.value)

    def complete(self, guard, partner, value):
        """The statements that complete the guard, with this partner and this value."""
        met = guard.partner.split(" ")
        done = []
        if met[0] == "any":
            done.append(m.put_set(self.place(met[1]), m.just(partner)))
        if guard.kind == "from" and guard.value:
            variable, kind = guard.value[0], self.messages[guard.message]
            if kind[0] == "int":
                got = Amount(value, kind[1] - 1)
                done.append(m.put(self.place(variable), got.cut(self.process.types[variable][1])))
            else:
                done.append(m.put_set(self.place(variable), value, kind[0]))
        for variable, tokens in assignments(guard):
            kind = self.process.types[variable]
            if kind[0] == "int":
                done.append(m.put(self.place(variable), self.amount(tokens).cut(kind[1])))
            else:
                done.append(m.put_set(self.place(variable), self.remotes(tokens), kind[0]))
        return done

    def enter(self, guard):
        """The statement by which the process goes to the guard's next state."""
        return m.put(self.state(), m.word(self.names.state(self.process, guard.goto)))

    def forget(self, state, guard):
        """The statements that give first values to what doesn't matter behind the guard."""
        if self.matter is None:
            return []
        before, after = self.matter[state], self.matter[guard.goto]
        gone = [variable for variable in self.process.variables
                if variable not in after and (variable in before or variable in written(guard))]
        return [self.reset(variable) for variable in gone]

    def reset(self, variable):
        """The statement that gives the variable its first value."""
        if self.process.types[variable][0] == "int":
            return m.put(self.place(variable), m.word(self.process.variables[variable]))
        return m.put_set(self.place(variable), m.NONE, self.process.types[variable][0])

    def move(self, state, guard, partner=None, value=None):
        """All that the process does where it completes the guard in this state."""
        return self.complete(guard, partner, value) + self.forget(state, guard) + [self.enter(guard)]


def atoms(guard):
    """The comparisons of a guard's condition."""
    return guard.when.split(" and ") if guard.when else []


def assignments(guard):
    """The assignments of a guard: each variable with the tokens of its new value."""
    pairs = [text.split(" = ") for text in guard.do.split(", ")] if guard.do else []
    return [(variable, tokens.split(" ")) for variable, tokens in pairs]


# ---------------------------------------------------------------- variables that matter

def written(guard):
    """The variables that a guard writes."""
    met = guard.partner.split(" ")
    found = {met[1]} if met[0] == "any" else set()
    if guard.kind == "from":
        found |= set(guard.value)
    return found | {variable for variable, _ in assignments(guard)}


def matters_before(guard, after, variables):
    """The variables that matter before a guard, where these matter behind it."""
    needed = set(after)
    for variable, tokens in reversed(assignments(guard)):
        needed.discard(variable)
        needed |= set(tokens) & variables
    if guard.kind == "from":
        needed -= set(guard.value)
    met = guard.partner.split(" ")
    if met[0] == "any":
        needed.discard(met[1])
        needed |= set(met[3:])
    else:
        needed |= set(met) & variables
    if guard.kind == "to":
        needed |= set(guard.value) & variables
    for text in atoms(guard):
        needed |= set(text.split(" ")) & variables
    return needed


def variables_that_matter(process):
    """For each state the variables that may be read there, or later, before they are written."""
    variables = set(process.variables)
    found = {state: set() for state in process.states}
    changed = True
    while changed:
        changed = False
        for state, guards in process.states.items():
            for guard in guards:
                more = matters_before(guard, found[guard.goto], variables) - found[state]
                if more:
                    found[state] |= more
                    changed = True
    return found


def names_remotes(protocol):
    """Whether a remote has a variable that names remotes."""
    return any(kind[0] != "int" for kind in protocol.remote.types.values())
