"""What a status from 1 to 7 of the program `rvc` means, in words for a person.

`explanation` takes the words of the command line, the status and an `Again`, by which the answer is
had once more where everything that was read can be read again. Where it can't, or where the file
or the schedule has changed meanwhile, it says less.
"""
import errno
import os
import re
import stat
import subprocess

from forms import READ_STANDARD_INPUT, path_in, shown, word_fault
from protocol import END, NAME, NUMBER, RESERVED, Misfit, read_protocol
from faults import first_fault, listed
from refusals import refused_lines
from traces import BLOCK, EVENT, STEP

TOP = os.path.dirname(os.path.dirname(os.path.dirname(os.path.realpath(__file__))))
SECONDS = 20
FILE_LIMIT = 65536
STORE_LIMIT = 262144
LINE_LIMIT = 256
SCHEDULE_LIMIT = 64 << 20
TAIL = 1 << 20

# Of each code: its name, what it means, and how to mend it.
CODES = {
    1: ("no protocol", "Read from the front, this line has the first piece with which the file "
        "can no longer become a protocol.", ""),
    10: ("too many", "There is more here than the limit.",
         "Join what belongs together, or let a local step go to a second state with the rest."),
    11: ("name too long", "A declared name has at most 32 bytes.", "Shorten the name."),
    12: ("duplicate", "The name is declared already.", "Rename one of the two."),
    13: ("unknown", "A name isn't declared.", "Declare it, or look for a typo."),
    14: ("wrong type", "Types don't agree.", ""),
    15: ("wrong direction", "A message goes the other way.",
         "Turn the guard round, or the message's direction; if both sides need to send it, "
         "declare two messages."),
    16: ("not a star", "A remote meets `home` alone, and the home meets remotes.", ""),
    17: ("active mixed", "An output of a remote is the only guard of its state.",
         "Put the output into a state of its own, and go there by a `tau`."),
    18: ("active condition", "An output of a remote has no condition.",
         "Put the condition on the local step that leads to the state with the output."),
    19: ("bad number", "A number is out of range.", ""),
}

EVENTS = """  tau home G     a local step of the home, by guard G of its state
  tau J G        a local step of remote J, by guard G of its state
  up J H R       remote J sends by its guard R, and the home takes it by its guard H
  down J H R     the home sends by its guard H, and remote J takes it by its guard R
A line may also be blank; `//` begins a comment. Guards and remotes are counted from 0."""

STEPS = """  home tau G       a local step of the home, by guard G of its state
  home take J      the home takes the request that it holds of remote J
  home send G J    the home sends to remote J by its guard G: the reply that it owes J, or a request
  home drop J      the home gives up the request that it holds of remote J
  remote J tau G   a local step of remote J, by guard G of its state
  remote J send    remote J sends its request
  remote J answer  remote J answers the request in its slot
  remote J reply   remote J sends the reply that is due
  up J             the first packet on the up link of remote J arrives at the home
  down J           the first packet on the down link of remote J arrives there
A line may also be blank; `//` begins a comment. Guards and remotes are counted from 0."""

NET_LINES = """  net J up resend P    the packet at place P of the window of this wire is sent once more
  net J up lose P      the frame at place P of its flight is lost
  net J up copy P      this frame is duplicated
  net J up pass P      this frame arrives, and is received if it is the next one
  net J down resend P  the same of the wire down to remote J
  net J down lose P
  net J down copy P
  net J down pass P"""

LINE_STEPS = """  at A home tau G       the step `home tau G` of cache line A, as `run` has it
  at A home take J      and so on, with each step that delivers nothing
  at A home send G J
  at A home drop J
  at A remote J tau G
  at A remote J send
  at A remote J answer
  at A remote J reply
  up J                  the first packet on the shared up link of remote J arrives
  down J                the first packet on the shared down link of remote J arrives
A line may also be blank; `//` begins a comment. Lines, guards and remotes are counted from 0."""

# Of each command that reads a schedule: what its lines are called, their forms, and the section of
# FORMATS.md that has them.
SCHEDULES = {
    "rv": ("event", EVENTS, "Schedules of events"),
    "run": ("step", STEPS, "Schedules of steps"),
    "boot": ("step", STEPS, "Schedules of steps"),
    "lossy": ("step", NET_LINES + "\n" + STEPS, "Moves of a network"),
    "lines": ("step", LINE_STEPS, "Steps of many lines"),
}


class Again:
    """Has the program answer once more, where what it read can be read once more."""

    def __init__(self, program, words, start, copy=None, answer=None):
        """`start` is where standard input stood before the run, or None where it can't be read
        again; `copy` a Copy of it, and `answer` the status and the end of the text, where they
        were kept."""
        self.program, self.words, self.start = program, words, start
        self.copy, self.answer = copy, answer

    def run(self, words, schedule=None):
        """The status and the end of the text of a run with these words; (None, b"") where it
        takes too long or can't be started."""
        given = subprocess.DEVNULL if schedule is None else schedule
        try:
            run = subprocess.run([self.program, *words], stdin=given, stdout=subprocess.PIPE,
                                 stderr=subprocess.DEVNULL, timeout=SECONDS)
        except (OSError, subprocess.SubprocessError):
            return None, b""
        return run.returncode, run.stdout[-TAIL:]

    def file(self, path):
        """The text of the file with its bytes as characters, up to one past the limit; None where
        it can't be read again."""
        try:
            if not stat.S_ISREG(os.stat(path).st_mode):
                return None
            with open(path, "rb") as file:
                return file.read(file_limit(self.words) + 1).decode("latin-1")
        except (OSError, ValueError):
            return None

    def verdict(self):
        """The answer to the file: the status and the text of `check`, or of the command where it
        refuses more. The file is opened here, as its path may speak of a stream of this process,
        as /dev/stdin does."""
        words = ["check", "/dev/stdin"]
        if self.words[0] in ("store", "boot"):
            words = [self.words[0], "/dev/stdin"] + self.words[2:]
        try:
            with open(self.words[1], "rb") as file:
                return self.run(words, file)
        except OSError:
            return None, b""

    def schedule(self):
        """Standard input from where it stood, as a descriptor of its own, or None."""
        if self.copy is not None:
            return self.copy.kept()
        if self.start is None:
            return None
        try:
            again = os.open("/proc/self/fd/0", os.O_RDONLY)
            if self.start:
                os.lseek(again, self.start, os.SEEK_SET)
        except OSError:
            return None
        return again

    def replay(self):
        """The answer to the schedule: the status and the end of the text."""
        if self.answer is not None:
            return self.answer
        again = self.schedule()
        if again is None:
            return None, b""
        try:
            return self.run(self.words, again)
        finally:
            os.close(again)


class Answered:
    """Stands for an Again where the answer and copies of what was read are at hand."""

    def __init__(self, words, answer, file, schedule):
        """The words, the status and the text, and where the copies are (or None)."""
        self.words, self.answer, self.copy, self.copied = words, answer, file, schedule

    def file(self, path):
        if self.copy is None:
            return None
        with open(self.copy, "rb") as file:
            return file.read().decode("latin-1")

    def verdict(self):
        return self.answer

    def replay(self):
        return self.answer

    def schedule(self):
        return os.open(self.copied, os.O_RDONLY) if self.copied else None

    def run(self, words, schedule=None):
        return None, b""


def file_limit(words):
    """How many bytes the file of these words may have."""
    return STORE_LIMIT if words[0] == "boot" else FILE_LIMIT


def explanation(words, status, again):
    """Lines that tell a person what this status means, for these words."""
    if status == 1:
        return usage(words)
    path = path_in(words)
    if status == 5:
        return unwritten()
    if status == 6:
        return ["Memory ran out (status 6): what was written is only the front of the answer."]
    if path is None:
        return []
    reads = words[0] in READ_STANDARD_INPUT
    if status == 2:
        return refused_file(words[0], path, again)
    if status == 3 and words[0] == "audit":
        return refused_trace(words, again)
    if status == 3 and reads:
        return refused_schedule(words[0], again)
    if status == 4:
        return unreadable(path, reads)
    if status == 7 and reads:
        return broken_claim(words[0], path, again)
    return []


def refusals(words, seen, again):
    """Lines that say which lines of a schedule were refused, and why the first one was. `seen` is
    what was Seen of the trace."""
    schedule, descriptor = None, again.schedule() if seen.refused else None
    if descriptor is not None:
        with open(descriptor, "rb") as file:
            schedule = file.read(SCHEDULE_LIMIT).decode("latin-1")
    text = again.file(words[1])
    if text is not None and words[0] == "boot":
        text = text_of_store(text)
    return refused_lines(words, seen, schedule, text)


def text_of_store(image):
    """The text of the protocol in a control store: its head has 40 bytes, and the length of the
    text is at byte 16."""
    return image[40 : 40 + int.from_bytes(image[16:24].encode("latin-1"), "big")]


def page(name, section=None):
    """Where a page of the documents, or a section of it, stands, as a path from here."""
    path = os.path.join(TOP, "docs", name)
    near = os.path.relpath(path)
    near = path if near.startswith("..") else near
    return "%s, section \"%s\"" % (near, section) if section else near


def usage(words):
    """Status 1."""
    fault = word_fault(words)
    if fault is None:
        return ["These arguments are invalid: `./rvc --help` lists the commands."]
    return ["Invalid arguments. " + fault, "`./rvc --help` lists the commands."]


def refused_file(command, path, again):
    """Status 2."""
    if command == "boot":
        return refused_store(path, again)
    text = again.file(path)
    status, answer = again.verdict() if text is not None else (None, b"")
    if status != 2:
        return ["%s is refused (status 2). Standard output has the line and the code; the file "
                "can't be read a second time, so there are no details here." % shown(path),
                "More: %s, a section for each code" % page("CODES.md")]
    if answer == b"error file too long\n":
        return ["%s: the file is too long: it may have at most 65,536 bytes." % shown(path),
                "More: " + page("LIMITS.md", "A protocol file")]
    if answer == b"error file text too long\n":
        return ["%s: the canonical form of the protocol, as `print` writes it, is too long: it may "
                "have at most 65,536 bytes." % shown(path),
                "More: " + page("FORMATS.md", "The image of `store`")]
    found = re.fullmatch(rb"error file line (\d+) code (\d+)\n", answer)
    if not found or int(found.group(2)) not in CODES:
        return ["%s is refused (status 2); standard output says why." % shown(path)]
    return at_line(path, text, int(found.group(1)), int(found.group(2)))


# Of each text for a file that is no control store: what it means.
STORES = {
    b"error file too long\n": "it has more than 262,144 bytes",
    b"error image head\n": "it doesn't begin as one does, or hasn't the length that its head says",
    b"error image text\n": "its text isn't the canonical form of a well-formed protocol",
    b"error image rows\n": "its head has other numbers of rows than the table of its protocol "
                          "in its mode",
}


def refused_store(path, again):
    """Status 2 of `boot`."""
    status, answer = again.verdict()
    more = ["More: " + page("FORMATS.md", "The image of `store`")]
    row = re.fullmatch(rb"error image row (\d+)\n", answer)
    if status == 2 and row:
        return ["%s is no control store (status 2): row %d of it, counted from 0 with the home's "
                "first, isn't that of the table of its protocol in its mode."
                % (shown(path), int(row.group(1)))] + more
    if status == 2 and answer in STORES:
        return ["%s is no control store (status 2): %s." % (shown(path), STORES[answer])] + more
    return ["%s is no control store (status 2); standard output says why." % shown(path)] + more


def at_line(path, text, line, code):
    """A fault with its line, what it means, and where there is more of it."""
    name, meaning, mend = CODES[code]
    place, sentences, before = sure(text, line, code)
    told = ["%s:%d: code %d, %s" % (shown(path), line, code, name)]
    if before not in (None, line):
        told += source_line(text, before, None)
    told += source_line(text, line, place)
    told += sentences or [meaning]
    if mend:
        told.append(mend)
    return told + ["More: " + page("CODES.md", "Code %d: %s" % (code, name))]


def sure(text, line, code):
    """Where the fault begins, sentences on it, and the line of what stands before it, where that
    belongs to it; (None, [], None) where this reader finds another fault."""
    try:
        file = read_protocol(text)
    except Misfit as misfit:
        if code != 1 or misfit.piece.line != line:
            return None, [], None
        before = misfit.before.line if misfit.before else None
        return misfit.piece.begin, misfit_sentences(misfit, text), before
    fault = first_fault(file)
    if fault is None or (fault.line, fault.code) != (line, code):
        return None, [], None
    return fault.part.first.begin, fault.sentences, None


def source_line(text, line, place):
    """The line of the file, from the fault on where it is long. Nothing where the line is empty."""
    rows = text.split("\n")
    row = rows[line - 1] if line <= len(rows) else ""
    if place is not None and len(row) > 100:
        before = sum(len(other) + 1 for other in rows[: line - 1])
        row = ".. " + row[place - before :]
    row = seen(row.rstrip())
    if not row.strip():
        return []
    return ["%6d | %s" % (line, row if len(row) <= 100 else row[:98] + "..")]


def seen(row):
    """A line whose bytes stand as characters, as it can stand on a terminal."""
    row = row.encode("latin-1").decode("utf-8", "replace").expandtabs(4)
    return "".join(letter if letter.isprintable() else "?" for letter in row)


# What a file begins with that is saved in another encoding than plain ASCII.
MARKS = {"\xef\xbb\xbf": "a byte order mark: save it as UTF-8 without one, or as ASCII",
         "\xff\xfe": "the byte order mark of UTF-16: save it as ASCII or UTF-8",
         "\xfe\xff": "the byte order mark of UTF-16: save it as ASCII or UTF-8"}


def misfit_sentences(misfit, text):
    """Sentences on the first piece with which no protocol begins."""
    piece, before = misfit.piece, misfit.before
    for mark, meaning in MARKS.items():
        if piece.begin == 0 and text.startswith(mark):
            return ["The file begins with %s." % meaning]
    if "\0" in text[:200] and text[:200].count("\0") * 3 > len(text[:200]):
        return ["Every second byte is 0: the file is UTF-16. Save it as ASCII or UTF-8."]
    wanted = [kind if kind in (NUMBER, NAME, END) else "`%s`" % kind for kind in misfit.wanted]
    where = "At the front" if before is None else "After `%s`" % before.text
    if before is not None and before.line != piece.line:
        where += " on line %d" % before.line
    if len(wanted) == 1:
        can = "%s only %s may come." % (where, wanted[0])
    else:
        can = "%s may come %s or %s." % (where, ", ".join(wanted[:-1]), wanted[-1])
    if piece.kind == END:
        return ["The file ends here, and something is missing. " + can]
    named = "`%s`" % piece.text if " " < piece.text <= "~" else "A byte %d" % ord(piece.text)
    told = ["%s isn't allowed there%s. %s" % (named, why(misfit), can)]
    if before is not None and {";", "}"} & set(misfit.wanted) and (
            before.line != piece.line or piece.kind in RESERVED or piece.kind == "}"):
        told.append("A missing `;` or `}` is reported at the next piece: look at what is before it, "
                    "too.")
    return told


# What this language has in place of words and symbols of others.
ELSEWHERE = {
    "bool": "there is no `bool`; `int 2` has the numbers 0 and 1",
    "boolean": "there is no `boolean`; `int 2` has the numbers 0 and 1",
    "enum": "there is no `enum`; number the cases, as an `int N`",
    "const": "there are no constants; write the number",
    "if": "there is no `if`; a guard has a condition after `when`",
    "then": "there is no `then`; after the condition come `do` and `goto`",
    "true": "there is no `true`; a guard without a condition is always open",
    "or": "there is no `or`; write the guard twice",
    "not": "there is no `not`; use `ne`, `notin`, or turn `lt` and `le` round",
    ":=": "an assignment is `x = e`",
    "<": "`a < b` is `a lt b`, `a <= b` is `a le b`",
    ">": "`a > b` is `b lt a`, `a >= b` is `b le a`",
    "*": "there are no products",
    "[": "there are no arrays",
    ":": "a message is declared as `message NAME up` or `down`, a variable as `var NAME TYPE = FIRST`",
    "/": "only `//` begins a comment",
    "#": "comments begin with `//`",
}


def why(misfit):
    """Why a piece fits nowhere or not here, as words to follow a sentence."""
    piece, wanted = misfit.piece, misfit.wanted
    text = piece.text
    if text in RESERVED and NAME in wanted:
        return ": it is a reserved word, and no name"
    if text in ELSEWHERE and not (text == "not" and "claim" in wanted):
        return ": " + ELSEWHERE[text]
    if text.lower() in wanted and text != text.lower():
        return ": reserved words are written small, `%s`" % text.lower()
    if text in "+-" and wanted == ["="]:
        name = misfit.before.text
        return ": there is no `%s%s%s`; write `%s = %s %s 1`" % (name, text, text, name, name, text)
    if text in "+-" and "goto" in wanted:
        return ": an expression has one `+` or `-`; use two assignments, `x = a + b, x = x + c`"
    if text == "," and ")" in wanted:
        return ": a message carries one value; send two messages, one after the other"
    if text == "claim" and "home" in wanted:
        return ": claims come at the end of the file, after the remote"
    if piece.kind is None:
        if text.isdigit():
            return ": a number is 0, or has up to five digits and no leading zero"
        if text[0].isdigit():
            return ": a name doesn't begin with a digit, and a number has decimal digits alone"
        if ord(text) > 126 or ord(text) < 32:
            return ": outside of comments a file is plain ASCII"
        return ": no token begins with it"
    if text == "claim" and misfit.version == 1:
        return ": a file has claims only if its header says `version 2`"
    if text == "=" and "eq" in misfit.wanted:
        return ": equality is `eq`"
    if text == "when" and "goto" in misfit.wanted:
        return ": the condition comes before the assignments"
    return ""


# Status 3.

def refused_schedule(command, again):
    """Status 3."""
    _, forms, section = SCHEDULES[command]
    status, answer = again.replay()
    last = answer[:-1].split(b"\n")[-1] if status == 3 else b""
    found = re.fullmatch(rb"error schedule line (\d+)", last)
    more = ["More: " + page("FORMATS.md", section)]
    if last == b"error schedule too long":
        return ["The schedule is refused (status 3): it has more than 1,000,000 lines."] + more
    if not found:
        return ["A line of the schedule is refused (status 3); the last line on standard output "
                "has its number. A line has at most 256 bytes, and is one of:", forms] + more
    number = int(found.group(1))
    line = schedule_line(again.schedule(), number)
    if line is None:
        return ["Line %d of the schedule is refused (status 3). A line has at most 256 bytes, "
                "and is one of:" % number, forms] + more
    told = ["Line %d of the schedule is refused (status 3):" % number]
    told.append("%6d | %s" % (number, seen(line[:90].decode("latin-1")).rstrip()))
    return told + [line_fault(command, line), forms] + more


def refused_trace(words, again):
    """Status 3 of `audit`."""
    more = ["More: " + page("FORMATS.md", "The text of `audit`")]
    status, answer = again.replay()
    found = re.fullmatch(rb"error trace line (\d+)\n", answer) if status == 3 else None
    if not found:
        return ["A line of the trace is refused (status 3); standard output has its number."] + more
    number = int(found.group(1))
    told = ["Line %d of the trace is refused (status 3): it isn't what `run` can write there."
            % number]
    line = schedule_line(again.schedule(), number)
    if line:
        told.append("%6d | %s" % (number, seen(line[:90].decode("latin-1")).rstrip()))
    return told + odd_trace(words, again.schedule(), line) + more


def odd_trace(words, descriptor, line):
    """A sentence on a trace of another command, or of another number of remotes."""
    found = BLOCK.fullmatch((line or b"").decode("latin-1"))
    if found and EVENT.fullmatch(found.group(2)) and found.group(3) in ("moved", "refused"):
        return ["This is a trace of `rv`, and `audit` reads those of `run` and `boot`."]
    if found and found.group(2).startswith("net ") or found and found.group(3) == "waiting":
        return ["This is a trace of `lossy`, and `audit` reads those of `run` and `boot`."]
    if found and found.group(2).startswith("line "):
        return ["This is a trace of `lines`, and `audit` reads those of `run` and `boot`."]
    if descriptor is None:
        return []
    with open(descriptor, "rb") as file:
        text = file.read(SCHEDULE_LIMIT).decode("latin-1")
    shown = text.rpartition("\nabstract\n")[2]
    remotes = len(re.findall(r"^  remote \d+ ", shown, re.M)) if shown != text else 0
    if remotes and remotes != int(words[2]):
        return ["The trace is of a run with %d remote%s, and `audit` is called with %s." % (
            remotes, "s" * (remotes != 1), words[2])]
    return []


def schedule_line(descriptor, number):
    """A line of a schedule without its LF, up to one byte past the limit, or None."""
    if descriptor is None:
        return None
    with open(descriptor, "rb") as file:
        for _ in range(number - 1):
            while True:
                row = file.readline(1 << 16)
                if not row:
                    return None
                if row.endswith(b"\n"):
                    break
        line = file.readline(LINE_LIMIT + 2)
    return line[:-1] if line.endswith(b"\n") else line


def line_fault(command, line):
    """Why a line is no event or no step, as a sentence; the forms of one follow it."""
    if len(line) > LINE_LIMIT:
        return "It has more than 256 bytes, with its blanks and its comment. A line is one of:"
    words = [word for word in re.split("[ \t\r]+", line.decode("latin-1").split("//")[0]) if word]
    told = words_fault(SCHEDULES[command], words) if words else ""
    return told + "A line is one of:"


# Of events and steps: what a line of the other kind looks like, and what is said of it.
OF_OTHERS = {
    "event": (STEP, "This is a step of the controllers, as `run` and `boot` read it; `rv` reads events "
              "of the protocol."),
    "step": (EVENT, "This is an event of the protocol, as `rv` reads it; the controllers take steps."),
}


def words_fault(schedule, words):
    """Why these words are none of the forms, as a sentence with a space behind it; nothing where
    that can't be told."""
    kind, text, _ = schedule
    forms = [row[2:].split("  ")[0].split(" ") for row in text.split("\n") if row[:2] == "  "]
    other = OF_OTHERS.get(kind)
    if other and other[0].fullmatch(" ".join(words)):
        return other[1] + " "
    likely = [form for form in forms if form[0] == words[0]]
    if not likely:
        return "`%s` begins no %s. " % (seen(words[0]), kind)
    # A word that tells one form from another: `home`, or what is done.
    for place in (1, 2, 3, 4):
        named = [form[place] for form in likely if len(form) > place and form[place].islower()]
        if not named or len(words) <= place:
            continue
        exact = [form for form in likely if len(form) > place and form[place] == words[place]]
        if exact:
            likely = exact
            continue
        if len(named) == len(likely):
            known = list(dict.fromkeys(named))
            return "After `%s` comes %s or %s, and here is `%s`. " % (
                " ".join(likely[0][:place]), ", ".join(known[:-1]), known[-1], seen(words[place]))
        likely = [form for form in likely if not form[place].islower()]
    form = likely[0]
    if len(words) != len(form):
        lengths = sorted({len(form) - 1 for form in likely})
        count = "comes 1 word" if lengths == [1] else "come %d words" % lengths[0]
        count += " or more" if len(lengths) > 1 else ""
        return "After `%s` %s, and here are %d. " % (form[0], count, len(words) - 1)
    for name, word in zip(form, words):
        if not name.islower() and not re.fullmatch("0|[1-9][0-9]{0,4}", word):
            return ("`%s` is no number here: it is 0, or has up to five digits and no leading "
                    "zero. " % seen(word))
    return ""


# Status 4 and 5.

def unreadable(path, reads):
    """Status 4."""
    reason = file_fault(path)
    if reason:
        named = "`%s`" % shown(path) if path else "The empty path"
        return ["%s can't be read (status 4): %s." % (named, reason)]
    if reads:
        return ["Standard input can't be read (status 4)%s." % input_fault()]
    return ["`%s` can't be read (status 4)." % shown(path)]


def file_fault(path):
    """Why a file can't be read, or None where that can't be told, as where it can be now."""
    try:
        mode = os.stat(path).st_mode
        if stat.S_ISDIR(mode):
            return "it is a folder"
        if stat.S_ISREG(mode):
            os.close(os.open(path, os.O_RDONLY))
        return None
    except OSError as error:
        if error.errno == errno.ENOENT and os.path.islink(path):
            return "it is a link to a file that isn't there"
        return {
            errno.ENOENT: "there is no such file",
            errno.ENOTDIR: "a part of the path is no folder",
            errno.EACCES: "permission is denied",
            errno.ELOOP: "its links go round in a circle",
            errno.ENAMETOOLONG: "the path is too long",
        }.get(error.errno, os.strerror(error.errno))
    except ValueError:
        return None


def input_fault():
    """Why standard input can't be read, as words to follow a sentence."""
    try:
        if stat.S_ISDIR(os.fstat(0).st_mode):
            return ": it is a folder"
        if mode_of(0) == os.O_WRONLY:
            return ": it is open for writing alone"
    except OSError:
        return ": it is closed"
    return ""


def mode_of(descriptor):
    """How a descriptor was opened: to read, to write, or both."""
    import fcntl

    return fcntl.fcntl(descriptor, fcntl.F_GETFL) & os.O_ACCMODE


def unwritten():
    """Status 5."""
    text = "The answer can't be written whole (status 5)"
    try:
        mode = os.fstat(1).st_mode
        if mode_of(1) == os.O_RDONLY:
            return [text + ": standard output is open for reading alone."]
    except OSError:
        return [text + ": standard output is closed."]
    if stat.S_ISFIFO(mode) or stat.S_ISSOCK(mode):
        return [text + ": the reader of standard output takes no more."]
    return [text + ": standard output takes no more (is a disk full?)."]


# Status 7.

def broken_claim(command, path, again):
    """Status 7."""
    more = ["More: " + page("LANGUAGE.md", "Claims")]
    text, where = again.file(path), "%s:%d"
    if text is not None and command == "boot":
        text, where = text_of_store(text), "%s, line %d of its text"
    claims, file = [], None
    if text is not None:
        try:
            file = read_protocol(text)
            claims = file.claims
        except Misfit:
            pass
    status, answer = again.replay()
    if status != 7 and text is not None:
        # What breaks before any event or step does so over an empty schedule too.
        status, answer = again.run(again.words)
    found = None
    if status == 7:
        found = re.search(rb"(?:^|\n)claim (\d+) broken\nend\n([^\0]*)\Z", answer)
    if found and int(found.group(1)) < len(claims):
        number = int(found.group(1))
        told = [(where + ": claim %d is broken (status 7)%s") % (
            shown(path), claims[number].line, number, moment(command, answer[: found.start()]))]
        told += source_line(text, claims[number].line, claims[number].first.begin)
        told.append("It says that " + in_words(claims[number]) + ".")
        # Of a run claims speak of what the controllers stand for.
        return told + standing(claims[number], found.group(2).split(b"abstract\n")[-1]) + more
    told = ["A claim of %s is broken (status 7)." % shown(path)]
    if len(claims) == 1:
        told.append("The file has one, on line %d: %s." % (claims[0].line, in_words(claims[0])))
    elif claims:
        told.append("Standard output has its number, I of `claim I broken`:")
        told += ["  %2d  line %d: %s" % (number, claim.line, in_words(claim))
                 for number, claim in enumerate(claims)]
    else:
        told.append("Standard output has its number, I of `claim I broken`; claims are counted "
                    "from 0, in the order of the file.")
    return told + more


def moment(command, before):
    """When a claim is broken: behind which event or step."""
    items = re.findall(rb"(?:^|\n)(\d+) ([a-z0-9 ]+): (?!refused)[^\n]+(?=\n|\Z)", before)
    if items:
        number, item = (part.decode() for part in items[-1])
        return " after %s %s, `%s`" % (SCHEDULES[command][0], number, item)
    return " at the start" if not before else ""


def in_words(claim):
    """What a claim says."""
    names = [name.text for name in claim.states]
    if claim.kind == "not":
        if names[0] == names[1]:
            return "no two remotes are in %s" % names[0]
        return "no remote is in %s while another is in %s" % tuple(names)
    names = list(dict.fromkeys(names))
    where = names[0] if len(names) == 1 else ", ".join(names[:-1]) + " or " + names[-1]
    most = int(claim.number.text)
    if most == 0:
        return "no remote is in %s" % where
    if most == 1:
        return "at most one remote is in %s" % where
    return "at most %d remotes are in %s" % (most, where)


def standing(claim, end):
    """Which remotes stand where the claim doesn't allow them to."""
    states = {name.text for name in claim.states}
    found = re.findall(r"^  remote (\d+) ([A-Za-z0-9_]+)(?= |$)", end.decode("latin-1"), re.M)
    texts = ["remote %s in %s" % (remote, state) for remote, state in found if state in states]
    if not texts:
        return []
    if len(texts) > 8:
        texts = texts[:8] + ["%d more" % (len(texts) - 8)]
    return ["Here: %s." % listed(texts)]
