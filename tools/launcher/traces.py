"""Traces, as `rv`, `run`, `boot`, `lossy` and `lines` write them, in parts.

`block_of` reads the first line of a block, `standing_of` a line that shows where a process is;
docs/FORMATS.md has both.
"""
import dataclasses
import re

COUNT = r"(?:0|[1-9][0-9]*)"
EVENT = re.compile(r"tau home N|tau N N|up N N N|down N N N".replace("N", COUNT))
STEP = re.compile((r"home (?:tau N|take N|send N N|drop N)|remote N (?:tau N|send|answer|reply)"
                   r"|(?:up|down) N").replace("N", COUNT))
MOVE = re.compile(r"net N (?:up|down) (?:resend|lose|copy|pass) N".replace("N", COUNT))
BLOCK = re.compile(r"(%s) ([^:]+): (.+)" % COUNT)
LINE = re.compile(r"  (?:home|remote (%s)) ([A-Za-z_][A-Za-z0-9_]*(?:/%s>%s|[*!])?)(.*)"
                  % (COUNT, COUNT, COUNT))
LINK = re.compile(r"  link (N) (up|down) put (N) got (N) flight\[([0-9,]*)\]".replace("N", COUNT))
VARIABLE = re.compile(r" ([A-Za-z_][A-Za-z0-9_]*)=([0-9]+|none|#[0-9]+|\{[0-9,]*\})")
HOME_LISTS = re.compile(r" held\[([^\]]*)\] owed\[([^\]]*)\]")
REMOTE_LISTS = re.compile(r" slot\[([^\]]*)\] up\[([^\]]*)\] down\[([^\]]*)\]")
CLAIM = re.compile(r"claim (%s) broken" % COUNT)
PLACE = re.compile(r"([A-Za-z_][A-Za-z0-9_]*)(?:/(N)>(N)|([*!]))?".replace("N", COUNT))
MOST_REMOTES = 64


@dataclasses.dataclass
class Standing:
    """Where a process is: its place, its variables, and in a trace of `run` its lists."""
    place: str
    variables: dict
    lists: dict

    @property
    def state(self):
        """The state of the place."""
        return PLACE.fullmatch(self.place).group(1)

    @property
    def waits(self):
        """Whether it has sent a request and waits for the answer."""
        return ">" in self.place or self.place.endswith("*")

    @property
    def due(self):
        """Whether it is a remote that is to send a reply."""
        return self.place.endswith("!")

    def but_links(self):
        """The lists that aren't links."""
        return {name: items for name, items in self.lists.items() if name not in ("up", "down")}

    def differs(self, before):
        """Whether more than its links isn't as before; what isn't known of `before` was empty."""
        if before is None:
            return True
        return (self.place, self.variables) != (before.place, before.variables) or any(
            items != before.lists.get(name, []) for name, items in self.but_links().items())

    def changes(self, before):
        """The place and what else isn't as before, on one line."""
        parts = [self.place]
        for name, value in self.variables.items():
            if before is None or before.variables.get(name) != value:
                parts.append("%s=%s" % (name, value))
        for name, items in self.but_links().items():
            if items != (before.lists.get(name, []) if before else []):
                parts.append("%s[%s]" % (name, ",".join(items)))
        return " ".join(parts)

    def whole(self):
        """All of it, a line for each part."""
        return ([self.place] + ["%s=%s" % pair for pair in self.variables.items()]
                + ["%s[%s]" % (name, ",".join(items)) for name, items in self.lists.items()])


def split_items(text):
    """The items of a list, at the commas that are in no value."""
    return re.findall(r"(?:[^,(]|\([^)]*\))+", text)


def standing_of(line):
    """The process of a line (None for the home) and its Standing; None where it is no such line."""
    match = LINE.fullmatch(line)
    if not match or int(match.group(1) or 0) >= MOST_REMOTES:
        return None
    process = None if match.group(1) is None else int(match.group(1))
    rest, variables = match.group(3), {}
    found = VARIABLE.match(rest)
    while found:
        variables[found.group(1)] = found.group(2)
        rest = rest[found.end():]
        found = VARIABLE.match(rest)
    names = ("held", "owed") if process is None else ("slot", "up", "down")
    texts = (HOME_LISTS if process is None else REMOTE_LISTS).fullmatch(rest)
    if rest and not texts:
        return None
    lists = dict(zip(names, map(split_items, texts.groups()))) if texts else {}
    return process, Standing(match.group(2), variables, lists)


def start_of(process, controllers):
    """Where a process, a Part of protocol.py, is at the start; with its lists where it is one of the
    controllers."""
    names = ("held", "owed") if process.which == "home" else ("slot", "up", "down")
    variables = {variable.name.text: "{}" if variable.initial.text == "empty"
                 else variable.initial.text for variable in process.variables}
    return Standing(process.start.name.text, variables,
                    {name: [] for name in names} if controllers else {})
