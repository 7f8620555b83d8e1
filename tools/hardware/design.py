"""The controllers of a protocol as they are to be built: names, widths, guards, and rows that can fire.

A `Design` is made of what the program prints: the protocol in its canonical form (`rvc print`) and
the rows of its two controllers (`rvc json`).
"""
import dataclasses
import re

RELATIONS = ("eq", "ne", "lt", "le", "in", "notin")

def bits_for(count):
    """How many bits tell this many things apart: at least one."""
    return max(1, (count - 1).bit_length())


def upper_case(name):
    """A name as constants are written: `FillX` as FILL_X."""
    return re.sub(r"(?<=[a-z0-9])(?=[A-Z])", "_", name).upper()


class Names:
    """Names that differ: one that is taken gets a number."""

    def __init__(self):
        self.taken = set()

    def give(self, wanted):
        """The name that is wanted, or that name with a number."""
        name, count = wanted, 1
        while name in self.taken:
            count += 1
            name = "%s_%d" % (wanted, count)
        self.taken.add(name)
        return name


@dataclasses.dataclass
class Message:
    """A message: `carries` is a type or (), `reply` the message that answers it or None."""
    name: str
    is_up: bool
    carries: tuple
    reply: str
    constant: str = ""


@dataclasses.dataclass
class Guard:
    """A guard: `partner` is a list of words, `sends` an expression or (), `binds` a variable or None."""
    number: int
    kind: str
    partner: list
    message: str
    sends: tuple
    binds: str
    atoms: list
    assigns: list
    goto: str
    text: str


@dataclasses.dataclass
class Row:
    """A row of a controller. `at` and `to` are places as (state, kind), `guard` its guard or None."""
    at: tuple
    on: str
    puts: str
    does: str
    to: tuple
    number: int
    fires: bool = False

    def text(self):
        """The row as the table prints it."""
        return "%s %s: %s, %s, %s" % (place_text(self.at), self.on, self.puts, self.does,
                                      place_text(self.to))


def place_text(place):
    """A place as the table writes it."""
    state, kind, guard = place
    return state if not kind else "%s/%d%s" % (state, guard, kind)


def place_of(text):
    """The place that a table writes so: its state, "" or "*" or "!", and its guard."""
    found = re.fullmatch(r"(\w+)(?:/(\d+)([*!]))?", text)
    return (found.group(1), found.group(3) or "", int(found.group(2) or 0))


def guard_of(number, guard):
    """A guard of the protocol file, cut into its parts."""
    atoms = []
    for atom in guard.when.split(" and ") if guard.when else []:
        words = atom.split()
        at = next(place for place, word in enumerate(words) if word in RELATIONS)
        atoms.append((words[:at], words[at], words[at + 1:]))
    assigns = []
    for assign in guard.do.split(", ") if guard.do else []:
        words = assign.split()
        assigns.append((words[0], words[2:]))
    is_input = guard.kind == "from"
    return Guard(number, guard.kind, guard.partner.split(), guard.message,
                 () if is_input else guard.value, guard.value[0] if is_input and guard.value else None,
                 atoms, assigns, guard.goto, "%s goto %s" % (" ".join(guard.parts()), guard.goto))


class Controller:
    """The home's controller or a remote's: its process, its rows, and the places that it can reach."""

    def __init__(self, word, process, rows):
        self.word = word
        self.types = process.types
        self.first = process.variables
        self.start = (process.start, "", 0)
        self.guards = {state: [guard_of(number, guard) for number, guard in enumerate(guards)]
                       for state, guards in process.states.items()}
        self.rows = [self.row(row) for row in rows]
        self.constants = {}

    def row(self, row):
        """A row of the JSON text."""
        at = place_of(row["at"])
        digits = re.search(r" (\d+)$", row["on"])
        number = at[2] if at[1] else int(digits.group(1)) if digits else 0
        return Row(at, row["on"], row["puts"], row["does"], place_of(row["to"]), number)

    def guard(self, row):
        """The guard of a row."""
        return self.guards[row.at[0]][row.number]

    def places(self):
        """The places that can be reached: states, then transient and due ones, in the order of rows."""
        reached = {self.start} | {row.to for row in self.rows if row.fires}
        order = [(state, "", 0) for state in self.guards] + [row.at for row in self.rows]
        return list(dict.fromkeys(place for place in order if place in reached))

    def name_places(self):
        """Gives each place its constant."""
        names = Names()
        for place in self.places():
            state, kind, number = place
            words = [self.word, upper_case(state)]
            if kind == "*":
                words += [upper_case(self.guards[state][number].message), "WAIT"]
            elif kind == "!":
                words.append("DUE")
            self.constants[place] = names.give("_".join(words).upper())

    def fired(self, *triggers):
        """The rows that can fire and have a trigger that begins with one of these words."""
        return [row for row in self.rows if row.fires and row.on.startswith(triggers)]

    def of_state(self, rows):
        """These rows by their place, in the order of the table."""
        found = {}
        for row in rows:
            found.setdefault(row.at, []).append(row)
        return found


class Design:
    """Both controllers of a protocol in a mode, for so many remotes and slots."""

    def __init__(self, protocol, table, remotes, slots):
        self.name = protocol.name
        self.mode = table["mode"]
        self.remotes, self.slots = remotes, slots
        self.entries = min(remotes, slots)
        self.id_width = bits_for(remotes)
        self.messages = {}
        for message in table["messages"]:
            self.messages[message["name"]] = Message(
                message["name"], message["up"], protocol.messages[message["name"]], message["reply"])
        self.home = Controller("home", protocol.home, table["home"])
        self.remote = Controller("remote", protocol.remote, table["remote"])
        self.claims = protocol.claims
        self.mark_rows()
        self.home.name_places()
        self.remote.name_places()
        for way in ("up", "down"):
            names = Names()
            for message in self.going(way):
                message.constant = names.give("%s_%s" % (way.upper(), upper_case(message.name)))

    def going(self, way):
        """The messages that go this way."""
        return [message for message in self.messages.values() if message.is_up == (way == "up")]

    def owed(self):
        """The messages that the home may owe, in the order of the file."""
        named = {row.puts[4:] for row in self.home.rows if row.fires and row.puts.startswith("owe ")}
        return [message for name, message in self.messages.items() if name in named]

    def guard_count(self, controller):
        """The greatest number of guards of a state, at least one."""
        return max([1] + [len(guards) for guards in controller.guards.values()])

    # ---- which rows can fire

    def mark_rows(self):
        """Marks the rows that can fire. A place is reached and a packet comes only by a row that can
        fire itself; conditions aren't looked at, so a row that is marked may still never fire."""
        reached = {(self.home.word, self.home.start), (self.remote.word, self.remote.start)}
        while True:
            count = len(reached)
            for controller in (self.home, self.remote):
                for row in controller.rows:
                    self.mark_row(controller, row, reached)
            if len(reached) == count:
                return

    def mark_row(self, controller, row, reached):
        """Marks a row that can fire by what is reached, and adds what it reaches."""
        if (controller.word, row.at) not in reached or not self.may_come(controller, row, reached):
            return
        row.fires = True
        reached.add((controller.word, row.to))
        if row.puts == "ack":
            reached.add((controller.word, "ack " + controller.guard(row).message))
        elif row.puts != "nothing":
            reached.add((controller.word, row.puts))

    def may_come(self, controller, row, reached):
        """Whether the trigger of a row can happen."""
        other = "remote" if controller.word == "home" else "home"
        word = row.on.split()[0]
        if word in ("tau", "send"):
            return True
        if row.on == "answer none":
            return any(by == other and str(what).startswith("request ") for by, what in reached)
        message = controller.guard(row).message
        if word == "pay":
            return ("home", "owe " + message) in reached
        if word in ("take", "answer"):
            return (other, "request " + message) in reached
        if row.on == "got ack":
            return (other, "ack " + message) in reached
        if row.on == "got nack":
            return controller.word == "remote" or ("remote", "nack") in reached
        if row.on == "got request":
            return any(by == other and str(what).startswith("request ") for by, what in reached)
        return (other, "reply " + row.on.split()[2]) in reached

    def left_out(self):
        """The rows that nothing can reach, as text."""
        return ["%s: %s" % (controller.word, row.text()) for controller in (self.home, self.remote)
                for row in controller.rows if not row.fires]

    # ---- widths

    def width(self, kind):
        """The bits of a value of this type; none for ()."""
        if not kind:
            return 0
        if kind[0] == "int":
            return bits_for(kind[1])
        return self.id_width + 1 if kind[0] == "node" else self.remotes

    def payload_width(self, way):
        """The bits of the widest value that goes this way, at least one."""
        return max([1] + [self.width(message.carries) for message in self.going(way)])

    def message_width(self, way):
        """The bits of a message's number."""
        return bits_for(len(self.going(way)))

    def packet_width(self, way):
        """The bits of a packet: its kind, its message and its value."""
        return 2 + self.message_width(way) + self.payload_width(way)
