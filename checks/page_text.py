"""The text of pages and of the files that they show: the pieces of a page, the commands of a block,
what a sentence names, and what becomes of a file that is changed as a page says."""
import collections
import difflib
import re

HERE = re.compile(r"<<-?\s*(['\"]?)(\w+)\1")
FENCE = re.compile(r"( *)(```+)\s*([^`]*)$")
CODE = re.compile(r"`([^`]+)`")
WELL_FORMED = re.compile(r"ok (\w+) messages \d+ home \d+ remote \d+")
ANSWER = r"error file line \d+ code \d+|error file too long|ok \w+ messages \d+ home \d+ remote \d+"
FILE = re.compile(r"[\w./-]+\.(?:rv|events|trace)")
NAMED = re.compile(r"`(%s)`:$" % FILE.pattern)
OF_COMMAND = re.compile(r"from `(\./rvc [^`]*)`:$")
ANSWERED = re.compile(r"(?:`\./rvc [^`]*` (?:answers|writes)(?: of it)?:? )?`(%s)`" % ANSWER)
ANSWERED_BEFORE = re.compile(r"`(%s)`:$" % ANSWER)
# A line of a block that shows what the program reads or writes.
LOOKS_TRIED = re.compile(
    r"\$ |\./rvc |\d+ (?:tau|up|down) .*: (?:moved|refused)$|table \w+ (?:plain|lean)$|%s" % ANSWER
)
PLACEHOLDER = re.compile(r"\b[A-Z]+\b|\.\.$")

# A piece of a page. Its kind is "heading", "prose", "block", "indented" or "table"; its text is a
# string, but the lines of a block, and the line and the cells of each row of a table.
Part = collections.namedtuple("Part", "kind line text label")


def read(path):
    """The text of a file."""
    with open(path, encoding="utf-8", newline="") as file:
        return file.read()


def cells(line):
    """The cells of a line of a table."""
    inner = re.sub(r"^\||(?<!\\)\|$", "", line.strip())
    return [cell.strip().replace("\\|", "|") for cell in re.split(r"(?<!\\)\|", inner)]


def code(cell):
    """The text of a cell that is code and nothing else, or None."""
    found = CODE.fullmatch(cell)
    return found and found.group(1)


def parts(text):
    """The pieces of a page, in order."""
    lines = text.split("\n")
    found, at = [], 0

    def until(ended):
        """The number of the first line from here on where this holds."""
        end = at + 1
        while end < len(lines) and not ended(lines[end]):
            end += 1
        return end

    while at < len(lines):
        line, fence, label = lines[at], FENCE.match(lines[at]), ""
        if fence:
            end = until(lambda one: one.strip() == fence.group(2))
            kind, label = "block", fence.group(3).strip()
            piece = [re.sub("^" + fence.group(1), "", one) for one in lines[at + 1 : end]]
            end += 1
        elif re.match("#+ ", line):
            kind, piece, end = "heading", line, at + 1
        elif line.startswith("|"):
            end = until(lambda one: not one.startswith("|"))
            kind = "table"
            piece = [(number + 1, cells(lines[number])) for number in range(at, end)]
            piece = piece[:1] + piece[2:]
        elif re.match(" {4}", line) and not re.match(r" *([-*]|\d+\.) ", line):
            kind, piece, end = "indented", line.strip(), at + 1
        elif line.strip():
            end = until(lambda one: not one.strip() or one[0] in "#|" or FENCE.match(one))
            kind, piece = "prose", " ".join(one.strip() for one in lines[at:end])
        else:
            at += 1
            continue
        found.append(Part(kind, at + 1, piece, label))
        at = end
    return found


def anchors(text):
    """What a link can name in a page: its headings, as the forges that show it spell them."""
    found = []
    for part in parts(text):
        if part.kind == "heading":
            name = re.sub(r"\[([^\]]*)\]\([^)]*\)", r"\1", part.text.lstrip("#").strip())
            name = re.sub(r"[^\w\- ]", "", name.lower()).replace(" ", "-")
            found.append(name)
    return [
        "%s-%d" % (name, found[:at].count(name)) if name in found[:at] else name
        for at, name in enumerate(found)
    ]


def commands(lines):
    """The commands of a block: for each the number of its line, its script, and the lines that are
    shown behind it."""
    found, at = [], 0
    while at < len(lines):
        number, line = at + 1, lines[at]
        at += 1
        if not line.startswith("$ "):
            found[-1][2].append(line)
            continue
        command = [line[2:]]
        while re.search(r"(?:\\|\||&&)$", command[-1]) and at < len(lines):
            command.append(re.sub("^> ", "", lines[at]))
            at += 1
        for _, word in HERE.findall("\n".join(command)):
            ends = lines.index(word, at) + 1
            command += lines[at:ends]
            at = ends
        found.append((number, "\n".join(command), []))
    return found


def last_program(script):
    """The program whose status is that of a script, as far as its first lines tell."""
    here = HERE.search(script)
    end = script.find("\n", here.start()) if here else -1
    words = re.split(r"[|;&\n]\s*", script if end < 0 else script[:end])[-1].split()
    return words[0] if words else ""


def agrees(shown, written):
    """Says whether these lines are the text that was written; a line `..` stands for any lines."""
    text = "".join(line + "\n" for line in shown)
    if ".." not in shown:
        return text == written
    pattern = "".join(
        r"(?:.*\n)*?" if line == ".." else re.escape(line + "\n") for line in shown
    )
    return re.fullmatch(pattern, written) is not None


def difference(shown, written):
    """What differs, in some lines."""
    lines = list(
        difflib.unified_diff(shown, written.splitlines(), "shown", "written", n=1, lineterm="")
    )
    if not lines and written and not written.endswith("\n"):
        return ": its last line doesn't end"
    return "".join("\n    " + line for line in lines[:24])


def changed(base, line, text):
    """A file with another text in the place of this line, or behind its last one."""
    rows = base.rstrip("\n").split("\n")
    if not 1 <= line <= len(rows) + 1:
        return None
    rows[line - 1 : line] = [text]
    return "\n".join(rows) + "\n"


def without(text, told):
    """A file without a guard, or a part of one, in the first state of this name that has it. It is
    told as "`guard` in `state`", "`part` before `other` in `state`" or likewise with "after"; `..`
    stands for anything. None where there is none."""
    names = CODE.findall(told)
    if len(names) < 2:
        return None
    pattern = re.escape(names[0]).replace(re.escape(".."), ".*")
    pattern = r"\n *" + pattern if names[0].endswith(";") else " " + pattern
    if "` before `" in told:
        pattern += "(?= %s)" % re.escape(names[1])
    if "` after `" in told:
        pattern = "(?<=%s)%s" % (re.escape(names[1]), pattern)
    for section in re.finditer(r"\n  state %s \{.*?\n  \}" % re.escape(names[-1]), text, re.S):
        mended = re.sub(pattern, "", section.group(), 1)
        if mended != section.group():
            return text[: section.start()] + mended + text[section.end() :]
    return None


def remotes_of(trace):
    """How many remotes stand at the end of a trace."""
    return trace.rpartition("\nend\n")[2].count("  remote ")


def looks_tried(lines):
    """Says whether a line shows what the program reads or writes."""
    return any(LOOKS_TRIED.match(line) and not PLACEHOLDER.search(line) for line in lines)


def two_by_two(spans):
    """Code, two by two; one pair of nothing where there is none."""
    marked = ["`%s`" % span for span in spans]
    return list(zip(marked[0::2], marked[1::2])) or [("", "")]


def files(text):
    """The paths of protocols, schedules and traces that a text names."""
    return [span for span in CODE.findall(text) if FILE.fullmatch(span)]
