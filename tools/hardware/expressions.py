"""Conditions, values and assignments of guards as SystemVerilog, of exact width.

An int is a number of as many bits as its type needs, and `+` and `-` are modulo 65,536 as in the
language: 16 bits, or fewer where the result is cut anyway. A node is a bit that says whether there
is a remote, and its number, which is 0 where there is none. A set has a bit for each remote.
"""
from design import bits_for

INT_LIMIT = 65536


def is_power(number):
    """Whether a number is a power of two."""
    return number & (number - 1) == 0


class Scope:
    """The variables of a process, as signals: their types, and how the signal of each is named."""

    def __init__(self, design, types, signal):
        self.design, self.types, self.signal = design, types, signal

    def kind(self, words):
        """Which kind of value an expression has: int, node or set."""
        first = words[0]
        if first[0].isdigit():
            return "int"
        return {"none": "node", "empty": "set"}.get(first) or self.types[first][0]

    # ---- ints

    def limit(self, words):
        """A number that the value of an int expression is below."""
        limits = [int(word) + 1 if word[0].isdigit() else self.types[word][1] for word in words[::2]]
        if len(words) == 1:
            return limits[0]
        total = sum(limits) - 1
        return total if words[1] == "+" and total <= INT_LIMIT else INT_LIMIT

    def int_term(self, word, width):
        """An operand, modulo 2^width."""
        if word[0].isdigit():
            return "%d'd%d" % (width, int(word) % (1 << width))
        return resized(self.signal(word), bits_for(self.types[word][1]), width)

    def int_value(self, words, width):
        """An int expression, modulo 2^width."""
        if len(words) == 1:
            return self.int_term(words[0], width)
        return "%s %s %s" % (self.int_term(words[0], width), words[1], self.int_term(words[2], width))

    def int_stored(self, words, modulus):
        """An int expression as a type `int` of this modulus stores it."""
        width = bits_for(modulus)
        if is_power(modulus) or self.limit(words) <= modulus:
            return self.int_value(words, width)
        wide = bits_for(self.limit(words))
        return "%d'((%s) %% %d'd%d)" % (width, self.int_value(words, wide), wide, modulus)

    # ---- nodes and sets

    def node(self, word):
        """A node."""
        return "{1'b0, %d'd0}" % self.design.id_width if word == "none" else self.signal(word)

    def set_value(self, words):
        """A set expression."""
        first = "%d'd0" % self.design.remotes if words[0] == "empty" else self.signal(words[0])
        if len(words) == 1:
            return first
        return "%s_pkg::%s(%s, %s)" % (self.design.name, "set_with" if words[1] == "+" else "set_without",
                                       first, self.node(words[2]))

    def value(self, words, kind):
        """An expression as a value of this type."""
        if kind[0] == "int":
            return self.int_stored(words, kind[1])
        return self.node(words[0]) if kind[0] == "node" else self.set_value(words)

    # ---- conditions

    def condition(self, guard):
        """The condition of a guard; empty where it has none."""
        return " && ".join("(%s)" % self.atom(*atom) for atom in guard.atoms)

    def atom(self, left, relation, right):
        """A comparison."""
        kind = self.kind(left)
        if relation in ("in", "notin"):
            return "%s_pkg::set_has(%s, %s) == 1'b%d" % (self.design.name, self.set_value(right),
                                                         self.node(left[0]), relation == "in")
        sign = {"eq": "==", "ne": "!=", "lt": "<", "le": "<="}[relation]
        if kind == "int":
            width = max(bits_for(self.limit(left)), bits_for(self.limit(right)))
            texts = [self.int_value(words, width) for words in (left, right)]
        elif kind == "node":
            texts = [self.node(words[0]) for words in (left, right)]
        else:
            texts = [self.set_value(words) for words in (left, right)]
        return "%s %s %s" % tuple([grouped(texts[0]), sign, grouped(texts[1])])

    def targets(self, guard):
        """The remotes that a guard of the home may meet, as a set."""
        words = guard.partner
        if len(words) == 1:
            return "%s_pkg::node_set(%s)" % (self.design.name, self.signal(words[0]))
        return self.signal(words[3]) if len(words) == 4 else "{%d{1'b1}}" % self.design.remotes

    # ---- values under way

    def payload(self, guard, way):
        """The value that an output sends, as wide as the payload of a packet."""
        width = self.design.payload_width(way)
        kind = self.design.messages[guard.message].carries
        if not kind:
            return "%d'd0" % width
        return padded(self.value(guard.sends, kind), self.design.width(kind), width)


def grouped(text):
    """The text in parentheses where it has an operator."""
    return "(%s)" % text if " " in text and not text.startswith("{") else text


def resized(signal, has, width):
    """A signal of so many bits as one of another width."""
    if has == width:
        return signal
    return "%s[%d:0]" % (signal, width - 1) if has > width else "{%d'd0, %s}" % (width - has, signal)


def padded(text, has, width):
    """A value with zeros in front, up to this width."""
    return grouped(text) if has == width else "{%d'd0, %s}" % (width - has, grouped(text))


def came(design, payload, carries, kind):
    """The payload of a message that carries this type, as a variable of that type stores it."""
    value = "%s[%d:0]" % (payload, design.width(carries) - 1)
    if kind[0] != "int":
        return value
    has, width = bits_for(carries[1]), bits_for(kind[1])
    if carries[1] <= kind[1] or is_power(kind[1]):
        return "%s[%d:0]" % (payload, width - 1) if width <= has \
            else "{%d'd0, %s}" % (width - has, value)
    return "%d'(%s %% %d'd%d)" % (width, value, has, kind[1])


def completed(scope, guard, partner, payload):
    """The assignments by which a guard is completed: the partner, the value that came, its own."""
    design, lines = scope.design, []
    if guard.kind != "tau" and guard.partner[0] == "any":
        lines.append("%s = {1'b1, %s};" % (scope.signal(guard.partner[1]), partner))
    if guard.binds:
        carries = design.messages[guard.message].carries
        value = came(design, payload, carries, scope.types[guard.binds])
        lines.append("%s = %s;" % (scope.signal(guard.binds), value))
    for variable, words in guard.assigns:
        lines.append("%s = %s;" % (scope.signal(variable), scope.value(words, scope.types[variable])))
    return lines


def first_value(design, kind, first):
    """The first value of a variable."""
    return "%d'd%s" % (design.width(kind), first if kind[0] == "int" else 0)
