"""A reader of protocol files for explanations: pieces with their lines, and the parts that a file
spells, by the grammar of docs/LANGUAGE.md.

The program `rvc` is the judge of a file. This reader only finds words for what the program has
answered; where the two disagree, the explanations say less.
"""
import re

RESERVED = set(
    "protocol version message up down int node set home remote var start state tau from to any in "
    "notin eq ne lt le and when do goto none empty claim atmost not with".split()
)
SYMBOLS = set(";{}(),?!+-=")
PIECE = re.compile(r"[ \t\r\n]+|//[^\n]*|[A-Za-z0-9_]+|.", re.S)
NUMBER, NAME, END = "a number", "a name", "the end of the file"


class Piece:
    """A piece of a file: its text, its line, where it begins, and what it is: a symbol or reserved
    word (then `kind` is its text), NUMBER, NAME, END, or nothing that stands in a protocol (None).
    """

    def __init__(self, text, line, begin):
        self.text, self.line, self.begin, self.end = text, line, begin, begin + len(text)
        if text in SYMBOLS or text in RESERVED:
            self.kind = text
        elif re.fullmatch("0|[1-9][0-9]{0,4}", text):
            self.kind = NUMBER
        elif re.fullmatch("[A-Za-z_][A-Za-z0-9_]*", text):
            self.kind = NAME
        else:
            self.kind = None


def pieces_of(text):
    """The pieces of a file, and behind them one for its end. Bytes stand as characters."""
    pieces, line = [], 1
    for found in PIECE.finditer(text):
        word = found.group()
        if not (word[0] in " \t\r\n" or word.startswith("//")):
            pieces.append(Piece(word, line, found.start()))
        line += word.count("\n")
    end = Piece("", line, len(text))
    end.kind = END
    return pieces + [end]


class Part:
    """A part of a protocol with its own fields, and the pieces from its first to its last."""

    def __init__(self, first, **fields):
        self.first, self.last = first, first
        self.line = first.line
        self.__dict__.update(fields)


class Misfit(Exception):
    """No protocol begins with the pieces up to this one: what could stand in its place, and the
    piece before it (None at the front)."""

    def __init__(self, piece, wanted, before, version):
        super().__init__(piece.text)
        self.piece, self.wanted, self.before, self.version = piece, wanted, before, version


class Reader:
    """Reads by the grammar, piece after piece."""

    def __init__(self, text):
        self.text, self.pieces, self.at, self.wanted = text, pieces_of(text), 0, []
        self.version = 1

    def sees(self, *kinds):
        """Says whether the next piece is of one of these kinds; notes what could stand there."""
        self.wanted += [kind for kind in kinds if kind not in self.wanted]
        return self.pieces[self.at].kind in kinds

    def take(self, *kinds):
        """The next piece, which has to be of one of these kinds."""
        piece = self.pieces[self.at]
        if not self.sees(*kinds):
            before = self.pieces[self.at - 1] if self.at else None
            raise Misfit(piece, self.wanted, before, self.version)
        self.at, self.wanted = self.at + 1, []
        return piece

    def comes(self, kind):
        """Takes the next piece where it is of this kind, and says whether it was."""
        return self.sees(kind) and bool(self.take(kind))

    def closed(self, part):
        """The part, which ends with the piece that was taken last."""
        part.last = self.pieces[self.at - 1]
        return part

    def protocol(self):
        header = Part(self.take("protocol"), name=self.take(NAME))
        if self.comes("version"):
            if self.pieces[self.at].text != "2":
                before = self.pieces[self.at - 1]
                raise Misfit(self.pieces[self.at], ["2"], before, 1)
            self.take(NUMBER)
            self.version = 2
        self.take(";")
        file = Part(header.first, header=self.closed(header), messages=[], claims=[])
        file.text, file.version = self.text, self.version
        while self.sees("message"):
            file.messages.append(self.message())
        file.home = self.process("home")
        file.remote = self.process("remote")
        while self.version == 2 and self.sees("claim"):
            file.claims.append(self.claim())
        self.take(END)
        return file

    def message(self):
        part = Part(self.take("message"), name=self.take(NAME))
        part.way = self.take("up", "down").text
        part.type = self.type() if self.sees("int", "node", "set") else None
        self.take(";")
        return self.closed(part)

    def type(self):
        """A type: its word, and the number behind `int`."""
        word = self.take("int", "node", "set").text
        return word, self.take(NUMBER) if word == "int" else None

    def process(self, which):
        part = Part(self.take(which), which=which, variables=[], states=[])
        self.take("{")
        while self.sees("var"):
            part.variables.append(self.variable())
        part.start = Part(self.take("start"), name=self.take(NAME))
        self.take(";")
        self.closed(part.start)
        while self.sees("state"):
            part.states.append(self.state())
        self.take("}")
        return self.closed(part)

    def variable(self):
        part = Part(self.take("var"), name=self.take(NAME))
        part.type = self.type()
        self.take("=")
        part.initial = self.take(NUMBER, "none", "empty")
        self.take(";")
        return self.closed(part)

    def state(self):
        part = Part(self.take("state"), name=self.take(NAME), guards=[])
        self.take("{")
        while self.sees("tau", "from", "to"):
            part.guards.append(self.guard())
        self.take("}")
        return self.closed(part)

    def guard(self):
        first = self.take("tau", "from", "to")
        part = Part(first, action=first.text, partner=None, message=None, bound=None, value=None)
        part.conditions, part.assignments = [], []
        if part.action != "tau":
            part.partner = self.partner()
            self.take("?" if part.action == "from" else "!")
            part.message = self.take(NAME)
            if self.comes("("):
                if part.action == "from":
                    part.bound = self.take(NAME)
                else:
                    part.value = self.expression()
                self.take(")")
        self.closed(part)
        part.action_last = part.last
        if self.comes("when"):
            part.conditions.append(self.comparison())
            while self.comes("and"):
                part.conditions.append(self.comparison())
        part.condition_last = self.pieces[self.at - 1]
        if self.comes("do"):
            part.assignments.append(self.assignment())
            while self.comes(","):
                part.assignments.append(self.assignment())
        self.take("goto")
        part.goto = self.take(NAME)
        self.take(";")
        return self.closed(part)

    def partner(self):
        """A partner: `home`; a variable; or `any` with a variable and perhaps a set."""
        first = self.take("home", NAME, "any")
        if first.kind != "any":
            return Part(first, kind=first.kind, variable=first, set=None)
        part = Part(first, kind="any", variable=self.take(NAME), set=None)
        if self.comes("in"):
            part.set = self.take(NAME)
        return part

    def expression(self):
        terms = [self.term()]
        operator = None
        if self.sees("+", "-"):
            operator = self.take("+", "-").text
            terms.append(self.term())
        return self.closed(Part(terms[0], terms=terms, operator=operator))

    def term(self):
        return self.take(NUMBER, NAME, "none", "empty")

    def comparison(self):
        left = self.expression()
        relation = self.take("eq", "ne", "lt", "le", "in", "notin").text
        return self.closed(Part(left.first, left=left, relation=relation, right=self.expression()))

    def assignment(self):
        variable = self.take(NAME)
        self.take("=")
        return self.closed(Part(variable, variable=variable, value=self.expression()))

    def claim(self):
        first = self.take("claim")
        if self.take("atmost", "not").text == "atmost":
            part = Part(first, kind="atmost", number=self.take(NUMBER))
            self.take("in")
            part.states = [self.take(NAME)]
            while self.sees(NAME):
                part.states.append(self.take(NAME))
        else:
            part = Part(first, kind="not", number=None, states=[self.take(NAME)])
            self.take("with")
            part.states.append(self.take(NAME))
        self.take(";")
        return self.closed(part)


def read_protocol(text):
    """The protocol that a file spells, whose bytes stand as characters; a Misfit where none."""
    return Reader(text).protocol()
