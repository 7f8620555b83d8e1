"""A protocol file as an editor has it open: what is wrong with it, where each name is declared and
used, and what may come at a place.

Places are offsets in the text. A file that spells no protocol keeps the names that its tokens
declare, so that completion goes on while one is typing.
"""
import os
import re
import subprocess
import sys

sys.path.insert(0, os.path.join(os.path.dirname(os.path.dirname(os.path.realpath(__file__))), "tools"))
from desk import TOP, Misfit, first_fault, read_protocol  # noqa: E402
from advice import advice, expressions  # noqa: E402
from explain import CODES, sure  # noqa: E402
from faults import type_text  # noqa: E402
from layout import spaced  # noqa: E402
from protocol import NAME, RESERVED, Reader, pieces_of  # noqa: E402

SECONDS = 5
WORDS = {
    "tau": "a local step: the process moves by itself",
    "from": "an input, `from PARTNER ? MESSAGE` or `from PARTNER ? MESSAGE(x)`: takes a message",
    "to": "an output, `to PARTNER ! MESSAGE` or `to PARTNER ! MESSAGE(e)`: sends a message",
    "any": "`any x`: every remote; the node variable x gets the number of the one that is met",
    "in": "`any x in s`: each remote in the set s; in a condition, `x in s`: the remote is in the set",
    "notin": "`x notin s`: the remote isn't in the set",
    "when": "the condition: comparisons, joined by `and`; it sees the variables from before the guard",
    "do": "assignments, made from left to right, each cut to its variable's N",
    "goto": "the next state",
    "start": "the state in which the process begins",
    "up": "a message from a remote to the home",
    "down": "a message from the home to a remote",
    "int": "`int N`: the numbers from 0 to N - 1; what is stored is the remainder modulo N",
    "node": "the number of a remote, or `none`",
    "set": "a set of numbers of remotes; `empty` at first",
    "claim": "what must hold of the states of the remotes; for files of version 2",
    "atmost": "`claim atmost M in X Y ..;`: at most M remotes are in one of these states",
    "eq": "equal", "ne": "not equal", "lt": "below", "le": "at most",
}


class Document:
    """A text and what is known of it."""

    def __init__(self, text):
        # Each byte of the file is a character, as the readers have it.
        self.text = text.encode("utf-8", "replace").decode("latin-1")
        self.pieces = pieces_of(self.text)
        try:
            self.file, self.misfit = read_protocol(self.text), None
        except Misfit as misfit:
            self.file, self.misfit = None, misfit
        self.names = self.declared() if self.file is None else self.all_names()

    # Names: pairs of a piece and (kind, process), where the kind is message, variable or state.

    def declared(self):
        """The names that tokens declare, as far as they go."""
        found, process = [], None
        for before, piece in zip(self.pieces, self.pieces[1:]):
            if before.kind in ("home", "remote") and piece.kind == "{":
                process = before.kind
            kind = {"message": "message", "var": "variable", "state": "state"}.get(before.kind)
            if kind and piece.kind == NAME:
                found.append((piece, (kind, None if kind == "message" else process), True))
        return found

    def all_names(self):
        """All names, each with what it is and whether it is declared there."""
        found = [(message.name, ("message", None), True) for message in self.file.messages]
        for process in (self.file.home, self.file.remote):
            found += self.names_of(process)
        for claim in self.file.claims:
            found += [(name, ("state", "remote"), False) for name in claim.states]
        return found

    def names_of(self, process):
        """The names in a process."""
        which = process.which
        found = [(variable.name, ("variable", which), True) for variable in process.variables]
        found.append((process.start.name, ("state", which), False))
        for state in process.states:
            found.append((state.name, ("state", which), True))
            for guard in state.guards:
                found.append((guard.goto, ("state", which), False))
                found += [(piece, ("message", None), False) for piece in [guard.message] if piece]
                uses = [guard.bound] if guard.bound is not None else []
                if guard.partner is not None and guard.partner.kind != "home":
                    uses += [guard.partner.variable, guard.partner.set]
                uses += [assignment.variable for assignment in guard.assignments]
                uses += [term for value in expressions(guard) for term in value.terms
                         if term.kind == NAME]
                found += [(piece, ("variable", which), False) for piece in uses if piece is not None]
        return found

    def name_at(self, place):
        """The name at a place: its piece and what it is; None where there is none."""
        for piece, what, declares in self.names:
            if piece.begin <= place <= piece.end:
                return piece, what, declares
        return None

    def uses(self, place):
        """The pieces with the same name for the same thing, and whether each declares it."""
        named = self.name_at(place)
        if named is None:
            return []
        return [(piece, declares) for piece, what, declares in self.names
                if what == named[1] and piece.text == named[0].text]

    # Diagnostics.

    def problems(self, program):
        """What is wrong: begin, end, whether it is a fault (else advice), code, and sentences."""
        fault = self.fault(program)
        if fault is not None:
            return [self.problem(*fault)]
        if self.file is None:
            return []
        found = []
        for one in advice(self.file):
            part = one.part
            begin = part.first.begin if hasattr(part, "first") else part.begin
            end = part.last.end if hasattr(part, "last") else part.end
            found.append((begin, end, False, None, one.text))
        return found

    def fault(self, program):
        """The line and the code of the first fault, by the program's `check` where it is at hand;
        None where there is none."""
        if program:
            try:
                done = subprocess.run([program, "check", "/dev/stdin"], stdout=subprocess.PIPE,
                                      input=self.text.encode("latin-1"), timeout=SECONDS,
                                      stderr=subprocess.DEVNULL, env=dict(os.environ, RVC_QUIET="1"))
                found = re.fullmatch(rb"error file line (\d+) code (\d+)\n", done.stdout)
                if done.returncode in (0, 2):
                    return tuple(map(int, found.groups())) if found else None
            except (OSError, subprocess.SubprocessError):
                pass
        if self.misfit is not None:
            return self.misfit.piece.line, 1
        fault = first_fault(self.file)
        return (fault.line, fault.code) if fault is not None else None

    def problem(self, line, code):
        """A fault with its place and its sentences."""
        name, meaning, mend = CODES[code]
        place, sentences, _ = sure(self.text, line, code)
        begin = place if place is not None else self.begin_of(line)
        end = self.text.find("\n", begin)
        end = len(self.text) if end < 0 else end
        if code == 1 and place is not None:
            piece = next(piece for piece in self.pieces if piece.begin == place)
            end = piece.end if piece.text else end
        told = " ".join((sentences or [meaning]) + ([mend] if mend else []))
        return begin, max(end, begin), True, code, "code %d, %s: %s" % (code, name, told)

    def begin_of(self, line):
        """Where a line begins, behind its blanks."""
        rows = self.text.split("\n")[: line - 1]
        begin = sum(len(row) + 1 for row in rows)
        while self.text[begin : begin + 1] in (" ", "\t"):
            begin += 1
        return begin

    # Hover.

    def hover(self, place, problems):
        """What is shown at a place, in Markdown; None where nothing is."""
        for begin, end, _, code, text in problems:
            if begin <= place <= end and code is not None:
                return "%s\n\n%s" % (text, page_of_code(code))
        named = self.name_at(place)
        if named is not None and self.file is not None:
            return self.hover_name(*named[:2])
        for piece in self.pieces:
            if piece.begin <= place < piece.end and piece.kind in WORDS:
                return "`%s`: %s" % (piece.text, WORDS[piece.kind])
        return None

    def hover_name(self, piece, what):
        """A name: its declaration and where it is used."""
        kind, which = what
        process = {"home": self.file.home, "remote": self.file.remote}.get(which)
        parts = {"message": self.file.messages, "variable": process and process.variables,
                 "state": process and process.states}[kind]
        part = next((part for part in parts if part.name.text == piece.text), None)
        if part is None:
            return None
        uses = len(self.uses(piece.begin)) - 1
        if kind == "state":
            return "```\nstate %s\n```\nof the %s: %d guards, line %d; named %d times elsewhere" % (
                piece.text, which, len(part.guards), part.line, uses)
        row = spaced(self.text[part.first.begin : part.last.end])
        of = "carries %s" % type_text(part.type) if part.type else "carries nothing"
        if kind == "variable":
            of = "of the %s" % which
        return "```\n%s\n```\n%s, line %d; named %d times elsewhere" % (row, of, part.line, uses)

    # Completion.

    def completion(self, place):
        """What may come at a place: pairs of a text and what it is."""
        before = re.sub(r"[A-Za-z0-9_]*\Z", "", self.text[:place])
        reader = Reader(before)
        try:
            reader.protocol()
            return []
        except Misfit as misfit:
            wanted = misfit.wanted if misfit.piece.text == "" else []
        words = [(kind, "word") for kind in wanted if kind in RESERVED]
        pieces = [piece for piece in reader.pieces if piece.text]
        if NAME not in wanted or not pieces:
            return words
        kind, which = self.kind_wanted(pieces)
        return [(name, kind) for name in self.known(kind, which)] + words

    @staticmethod
    def kind_wanted(pieces):
        """Of which kind a name is that comes behind these pieces, and of which process."""
        kinds = [piece.kind for piece in pieces]
        which = None
        for first, second in zip(kinds, kinds[1:]):
            if first in ("home", "remote") and second == "{":
                which = first
        if "claim" in kinds[kinds.index("remote") if "remote" in kinds else 0 :]:
            return "state", "remote"
        last = kinds[-1]
        if last in ("goto", "start"):
            return "state", which
        if last in ("?", "!"):
            return "message", (which, last)
        if last in ("message", "var", "state", "protocol"):
            return "new", None
        return "variable", which

    def known(self, kind, which):
        """The declared names of a kind: messages by who takes or sends them."""
        if kind == "message":
            way = "up" if which in (("home", "?"), ("remote", "!")) else "down"
            ways = dict(re.findall(r"message\s+(\w+)\s+(up|down)", self.text))
            return [name for name in ways if ways[name] == way]
        return list(dict.fromkeys(piece.text for piece, what, declares in self.names
                                  if declares and what == (kind, which)))

    def symbols(self):
        """Declarations: name, kind, the process, and the piece."""
        return [(piece.text, what[0], what[1], piece) for piece, what, declares in self.names
                if declares]


def page_of_code(code):
    """The section of docs/CODES.md on a code, or nothing."""
    try:
        with open(os.path.join(TOP, "docs", "CODES.md"), encoding="utf-8") as file:
            found = re.search(r"^## Code %d: .*?(?=^## |\Z)" % code, file.read(), re.M | re.S)
    except OSError:
        return ""
    return found.group().strip() if found else ""
