"""A machine of guarded rules, which the printers write in the language of a checker.

An expression is a tuple whose first item says what it is. A place where something is kept is a
text, as `home.memory` or `remote[r].line`, and so is a constant. A node is a set of remotes of at
most one.
"""
import dataclasses

WORD = 65536

# ---------------------------------------------------------------- expressions

TRUE, FALSE = ("and",), ("or",)
NONE = ("none",)


def word(text):
    """A place, a constant or a number."""
    return ("word", str(text))


def compare(left, relation, right):
    """A comparison of two numbers or constants; the relation is one of = != < <=."""
    return ("compare", relation, left, right)


def same(place, constant):
    """The place holds the constant."""
    return compare(word(place), "=", word(constant))


def both(parts):
    """All of these hold."""
    flat = []
    for part in parts:
        if part == FALSE:
            return FALSE
        flat += part[1:] if part[0] == "and" else [part]
    return flat[0] if len(flat) == 1 else ("and",) + tuple(flat)


def either(parts):
    """One of these holds at least."""
    flat = []
    for part in parts:
        if part == TRUE:
            return TRUE
        flat += part[1:] if part[0] == "or" else [part]
    return flat[0] if len(flat) == 1 else ("or",) + tuple(flat)


def negated(part):
    """This doesn't hold."""
    if part in (TRUE, FALSE):
        return FALSE if part == TRUE else TRUE
    return part[1] if part[0] == "not" else ("not", part)


def some_remote(test):
    """Some remote passes the test, which is given the remote's name."""
    return ("some", test)


def at_most(most, test):
    """At most so many remotes pass the test."""
    return ("at most", most, test)


def no_two(first, second):
    """No two different remotes pass the one the first and the other the second test."""
    return ("no two", first, second)


def choice(condition, yes, no):
    """One of two numbers or constants."""
    return ("choice", condition, yes, no)


def ask(name, *arguments):
    """What a function of the machine answers."""
    return ("ask", name) + arguments


def kept(place, kind="node"):
    """The set of remotes that is kept in this place, as a node or as a set."""
    return ("kept", place, kind)


def just(remote):
    """The set of this remote alone."""
    return ("just", remote)


def contains(remotes, remote):
    """The remote is in the set."""
    return ("contains", remotes, remote)


def meet(left, right):
    """The two sets have a remote in common."""
    return ("meet", left, right)


def equal(left, right):
    """The two sets have the same remotes."""
    return ("equal", left, right)


# ---------------------------------------------------------------- statements

def put(place, value):
    """The number or constant is kept in this place from now on."""
    return ("put", place, value)


def put_set(place, remotes, kind="node"):
    """The set is kept in this place from now on, as a node or as a set."""
    return ("put set", place, remotes, kind)


def when(*cases, otherwise=()):
    """The statements of the first case whose condition holds: each case is (condition,
    statements)."""
    return ("when", cases, list(otherwise))


def call(name, *arguments):
    """Carries a procedure of the machine out."""
    return ("call", name) + arguments


def must(condition, text):
    """An error with this text where the condition doesn't hold."""
    return ("must", condition, text)


def each_remote(body):
    """The statements of `body`, which is given the remote's name, for each remote."""
    return ("each", body)


def copy(place, other):
    """A whole record is copied."""
    return ("copy", place, other)


# ---------------------------------------------------------------- the machine

@dataclasses.dataclass
class Field:
    """What is kept: its name, its type and its first value. The type is ("number", N) for 0 to N -
    1, ("enum", NAME), ("remotes",), ("flag",), or ("record", NAME), with `count` of them where it
    is an array, and `of_remote` where it is one with an entry for each remote."""
    name: str
    type: tuple
    first: str = ""
    count: int = 0
    of_remote: bool = False
    about: str = ""


@dataclasses.dataclass
class Record:
    """A type of record."""
    name: str
    fields: list
    about: str = ""


@dataclasses.dataclass
class Function:
    """A function without effect: `parameters` are (name, type), `type` is its result's."""
    name: str
    parameters: list
    type: tuple
    value: tuple
    about: str


@dataclasses.dataclass
class Procedure:
    """A procedure; a parameter is (name, type)."""
    name: str
    parameters: list
    body: list
    about: str


@dataclasses.dataclass
class Rule:
    """A step: where the condition holds it may be taken."""
    name: str
    condition: tuple
    statements: list
    about: tuple = ()


@dataclasses.dataclass
class Machine:
    """The whole: `rules` and `remote_rules` are the steps, the latter given a remote's name."""
    title: list
    remotes: int
    enums: dict
    records: list
    variables: list
    functions: list
    procedures: list
    rules: list
    remote_rules: object
    invariants: list
