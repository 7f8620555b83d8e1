"""Names of events and steps: the lines in numbers that a line with names may be, and the other way.

A Namer looks the names up in the states in which everyone is (Standings of traces.py by number, None
for the home).
"""
import re


class UnknownName(Exception):
    """A name that isn't declared, and which are."""


NUMBER = r"(0|[1-9][0-9]{0,4})"
NAME = r"([A-Za-z_][A-Za-z0-9_]*)"
UP = re.compile(NUMBER + r"\s*:\s*" + NAME + r"(?:\(.*\))?")
DOWN = re.compile(r"home\s*->\s*" + NUMBER + r"\s*:\s*" + NAME + r"(?:\(.*\))?")
LOCAL = re.compile(r"tau\s+(?:home|" + NUMBER + r")\s+goto\s+" + NAME)
LOCAL_STEP = re.compile(r"(?:home|remote\s+" + NUMBER + r")\s+tau\s+goto\s+" + NAME)


class Namer:
    """The names of a protocol, and the guards that fit them where everyone is."""

    def __init__(self, file, level):
        self.file, self.level = file, level

    def guards(self, standings, who):
        """The guards of the state in which a process is; none where there is no such process."""
        if who not in standings:
            return []
        process = self.file.home if who is None else self.file.remote
        state = standings[who].state
        return next(one.guards for one in process.states if one.name.text == state)

    def having(self, standings, who, action, message):
        """The numbers of the guards that send (`to`) or take (`from`) a message."""
        return [number for number, guard in enumerate(self.guards(standings, who))
                if guard.action == action and guard.message.text == message]

    def local(self, standings, who, state):
        """The numbers of the local steps to a state."""
        return [number for number, guard in enumerate(self.guards(standings, who))
                if guard.action == "tau" and guard.goto.text == state]

    def fitting(self, standings, text):
        """The lines in numbers that a text may be, in the order of the guards; None where the text
        has no names."""
        found = UP.fullmatch(text)
        if found:
            self.known(found.group(2), "message")
            return self.upward(standings, int(found.group(1)), found.group(2))
        found = DOWN.fullmatch(text)
        if found:
            self.known(found.group(2), "message")
            return self.downward(standings, int(found.group(1)), found.group(2))
        found = (LOCAL if self.level == "rv" else LOCAL_STEP).fullmatch(text)
        if found:
            who = None if found.group(1) is None else int(found.group(1))
            self.known(found.group(2), "state of the %s" % ("home" if who is None else "remote"))
            form = ("tau %s %d" if self.level == "rv" else "%s tau %d")
            name = "home" if who is None else (
                "%d" if self.level == "rv" else "remote %d") % who
            return [form % (name, number)
                    for number in self.local(standings, who, found.group(2))]
        return None

    def known(self, name, what):
        """Sees that a name is declared."""
        parts = {"message": self.file.messages, "state of the home": self.file.home.states,
                 "state of the remote": self.file.remote.states}[what]
        names = [part.name.text for part in parts]
        if name not in names:
            raise UnknownName("no %s is named %s; there are %s" % (what, name, ", ".join(names)))

    def upward(self, standings, remote, message):
        """Remote J sends a message."""
        sends = self.having(standings, remote, "to", message)
        if self.level == "run":
            return ["remote %d send" % remote] if sends else []
        return ["up %d %d %d" % (remote, at_home, number)
                for at_home in self.having(standings, None, "from", message) for number in sends]

    def downward(self, standings, remote, message):
        """The home sends remote J a message."""
        sends = self.having(standings, None, "to", message)
        if self.level == "run":
            return ["home send %d %d" % (number, remote) for number in sends]
        return ["down %d %d %d" % (remote, number, at_remote) for number in sends
                for at_remote in self.having(standings, remote, "from", message)]

    def named(self, standings, text):
        """An event or a step by its names; None where it names nothing."""
        words = text.split(" ")
        if self.level == "rv" and words[0] == "tau" or words[-2:-1] == ["tau"]:
            who = next((int(word) for word in words[:2] if word.isdigit()), None)
            guard = self.numbered(standings, who, words[-1])
            return guard and "%s goto %s" % (text.rpartition(" ")[0], guard.goto.text)
        if self.level == "run" and words[:2] == ["home", "send"]:
            guard = self.numbered(standings, None, words[2])
            return guard and guard.message and "home -> %s: %s" % (words[3], guard.message.text)
        if len(words) == 3 and words[2] == "send":
            guard = self.numbered(standings, int(words[1]), "0")
            return guard and guard.message and "%s: %s" % (words[1], guard.message.text)
        if len(words) == 4 and words[0] in ("up", "down"):
            guard = self.numbered(standings, None, words[2])
            if guard is None or guard.message is None:
                return None
            form = "%s: %s" if words[0] == "up" else "home -> %s: %s"
            return form % (words[1], guard.message.text)
        return None

    def numbered(self, standings, who, number):
        """A guard by its number, or None."""
        guards = self.guards(standings, who)
        return guards[int(number)] if int(number) < len(guards) else None
