"""Values as the program prints them, and what expressions and comparisons come to with them, by
docs/LANGUAGE.md.

A value is an int, a node's text (`none`, or `#` and a number) or a frozenset of numbers; None where
it isn't known.
"""


def value_of(text):
    """The value that a printed text is."""
    if text.isdigit():
        return int(text)
    if text.startswith("{"):
        return frozenset(int(number) for number in text[1:-1].split(",") if number)
    return text if text == "none" or text.startswith("#") else None


def text_of(value):
    """A value as the program prints it."""
    if isinstance(value, frozenset):
        return "{%s}" % ",".join(str(number) for number in sorted(value))
    return str(value)


def remote_of(node):
    """The number of the remote that a node names, or None."""
    return int(node[1:]) if isinstance(node, str) and node.startswith("#") else None


def evaluate(tokens, variables):
    """The value of an expression: its tokens, and the printed values of variables by name."""
    def term(token):
        return frozenset() if token == "empty" else value_of(variables.get(token, token))

    values = [term(token) for token in tokens[::2]]
    if len(values) == 1:
        return values[0]
    first, second = values
    adds = tokens[1] == "+"
    if isinstance(first, int) and isinstance(second, int):
        return (first + second if adds else first - second) % 65536
    if isinstance(first, frozenset) and isinstance(second, str):
        node = frozenset() if second == "none" else frozenset([remote_of(second)])
        return first | node if adds else first - node
    return None


def tokens_of(expression):
    """The tokens of an expression, a Part of protocol.py."""
    texts = [term.text for term in expression.terms]
    return texts if expression.operator is None else [texts[0], expression.operator, texts[1]]


HOLDS = {
    "eq": lambda left, right: left == right,
    "ne": lambda left, right: left != right,
    "lt": lambda left, right: left < right,
    "le": lambda left, right: left <= right,
    "in": lambda left, right: remote_of(left) in right,
    "notin": lambda left, right: remote_of(left) not in right,
}


def holds(comparison, variables):
    """Whether a comparison, a Part of protocol.py, holds; None where that can't be told."""
    left, right = (evaluate(tokens_of(side), variables)
                   for side in (comparison.left, comparison.right))
    if left is None or right is None:
        return None
    return HOLDS[comparison.relation](left, right)


def is_target(guard, variables, remote):
    """Whether the remote of this number is a target of a guard of the home."""
    partner = guard.partner
    if partner.kind != "any":
        return remote_of(variables.get(partner.variable.text)) == remote
    return partner.set is None or remote in value_of(variables.get(partner.set.text, "{}"))


def is_open(guard, variables):
    """Whether all comparisons of a guard hold."""
    return all(holds(comparison, variables) for comparison in guard.conditions)
