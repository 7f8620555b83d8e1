"""Trials of checks/desk on the tools that look at runs: tools/measure and tools/report."""
import html.parser
import json
import os
import re
import shutil
import subprocess
import tempfile
import xml.dom.minidom

from desk_texts import example, kept

FACTOR, TERM = 6364136223846793005, 1442695040888963407
# Of a word of the summary of `drive`: the name of the row of tools/measure.
SAME = {"steps": "steps", "events": "events", "requests": "requests", "acks": "acks",
        "nacks": "nacks", "replies": "replies"}


def lines_in_order(guards, remotes):
    """All lines of steps in the order in which docs/FORMATS.md lists them for `drive`."""
    ours, theirs, all_of = range(guards), range(guards), range(remotes)
    lines = ["home tau %d" % guard for guard in ours] + ["home take %d" % one for one in all_of]
    lines += ["home send %d %d" % (guard, one) for guard in ours for one in all_of]
    lines += ["home drop %d" % one for one in all_of]
    lines += ["remote %d tau %d" % (one, guard) for one in all_of for guard in theirs]
    for what in ("send", "answer", "reply"):
        lines += ["remote %d %s" % (one, what) for one in all_of]
    return lines + ["up %d" % one for one in all_of] + ["down %d" % one for one in all_of]


def driven_steps(tried, words, count, seed):
    """The steps that `drive` takes, chosen by its numbers among those that the program takes."""
    taken, x = [], seed
    for _ in range(count):
        offered, rest = [], lines_in_order(5, int(words[1]))
        while rest:
            # What is refused changes nothing, so one run asks on until a line is taken.
            trace = tried.run([tried.program, "run"] + words, "\n".join(taken + rest) + "\n")[1]
            said = re.findall(r"^\d+ [^:]+: (.*)$", trace, re.M)[len(taken):]
            moved = next((at for at, one in enumerate(said) if one != "refused"), len(rest))
            offered += rest[moved:moved + 1]
            rest = rest[moved + 1:]
        x = (FACTOR * x + TERM) % 2**64
        if not offered:
            break
        taken.append(offered[(x >> 33) % len(offered)])
    return taken


def table_of(text):
    """The rows of the table that tools/measure writes: names and columns."""
    rows = {}
    for row in text.splitlines():
        found = re.match(r"( ?\S.*?)  +(\S.*)$", row)
        if found and not row.startswith("  "):
            rows.setdefault(found.group(1), re.split("  +", found.group(2)))
    return rows


def try_measure(tried):
    """The counts of `drive` over the steps that it takes; runs by hand; a sweep, its picture."""
    for words, count, seed in ((["migratory.rv", "2", "2", "lean"], 40, 7),
                               (["invalidate.rv", "2", "2", "plain"], 40, 3)):
        words = [example(words[0])] + words[1:]
        drive = dict(row.split(" ") for row in tried.rvc(
            ["drive"] + words + [str(count), str(seed)]).splitlines())
        steps = driven_steps(tried, words, count, seed)
        found = tried.tool("measure", [words[0], words[1], words[3], words[2], "--steps", "-"],
                           "\n".join(steps) + "\n")
        rows = table_of(found[1])
        for word, name in SAME.items():
            tried.see("measure, %s of %s" % (word, words), rows.get(name) == [drive[word]],
                      (rows.get(name), drive[word], found[2]))
    text = tried.tool("measure", [example("migratory.rv"), "1", "lean", "2", "--steps",
                                  example("migratory.steps")])[1]
    rows = table_of(text)
    # The request is sent by step 2, taken by step 4 and answered by step 5, the last event.
    by_hand = {"steps": "6", "events": "3", "packets an event": "0.67", "steps until taken, most": "2",
               "requests of remotes taken": "1", "steps until answered, most": "3",
               "longest wait, remote 0": "2", "last event at step": "5"}
    tried.see("measure by hand", {name: rows[name][0] for name in by_hand} == by_hand, rows)
    found = [(title, re.findall(r"^ +(\S+) +(\d+) +(#*)$", part, re.M)) for title, part in re.findall(
        r"^(steps until \w+, lean, K 2)\n((?: .*\n?)*)", text, re.M)]
    mark = "#" * 50
    tried.see("measure by hand: histograms", found == [
        ("steps until taken, lean, K 2", [("1", "0", ""), ("2", "1", mark)]),
        ("steps until answered, lean, K 2", [("1", "0", ""), ("2", "0", ""), ("3-4", "1", mark)])], text)
    sweep(tried)
    for words, status in ((["x.rv", "2", "lean", "2"], 1), ([example("lock.rv"), "65", "lean", "2"], 1),
                          ([example("lock.rv"), "2", "lean"], 2), ([example("lock.rv"), "2", "2"], 2),
                          ([example("lock.rv"), "2", "lean", "2", "--steps", "no such"], 1)):
        found = tried.tool("measure", words)
        tried.see("measure %s" % words[1:], found[0] == status and found[2], found)


def sweep(tried):
    """A sweep of modes and slots: its columns, that it is the same twice, its picture."""
    with tempfile.TemporaryDirectory() as folder:
        name = os.path.join(folder, "picture.svg")
        words = [example("library/mi.rv"), "3", "plain", "lean", "2", "3", "--count", "300", "--svg", name]
        found = tried.tool("measure", words)
        rows = table_of(found[1])
        tried.see("measure: a sweep", found[0] == 0 and len(rows["events"]) == 4
                  and rows["replies"][:2] == ["0", "0"] and rows["steps"] == 4 * ["300"], found)
        tried.see("measure: twice the same", tried.tool("measure", words)[1] == found[1], "it differs")
        with open(name, encoding="ascii") as file:
            picture = file.read()
        groups = xml.dom.minidom.parseString(picture).getElementsByTagName("g")
        tried.see("measure: a picture", len(groups) == 9, len(groups))
        # A wait for which nothing ever comes: the request of a remote that nobody takes.
        found = tried.tool("measure", [example("small.rv"), "1", "plain", "2", "--steps", "-"],
                           "remote 0 send\nup 0\n" + "up 0\n" * 5)
        rows = table_of(found[1])
        tried.see("measure: a wait without end", rows["longest wait, remote 0"] == ["1+"], rows)
    stutters = "home send 0 0\ndown 0\nremote 0 answer\nup 0\n" * 500
    with kept("protocol p; message a down; home { var j node = none; start H; state H { to any j ! a goto "
              "H; } } remote { start R; state R { } }") as path:
        found = tried.tool("measure", [path, "1", "plain", "2", "--steps", "-"], stutters)
    tried.see("measure: nothing happens", "no event in the last 2000 steps" in found[1], found[1][-300:])


class Page(html.parser.HTMLParser):
    """A page: whether its elements are closed in order, and what it has."""

    def __init__(self, text):
        super().__init__()
        self.open, self.wrong, self.nodes, self.links, self.hidden, self.rows = [], [], [], [], 0, 0
        self.texts = {}
        self.feed(text)

    def handle_starttag(self, tag, attributes):
        values = dict(attributes)
        if tag not in ("meta", "input"):
            self.open.append((tag, values))
        self.links += [value for name, value in attributes if name in ("src", "href")]
        if "data-node" in values:
            self.nodes.append(values["data-node"])
        if tag == "tr" and any(values.get("class") == "rows" for _, values in self.open):
            self.rows += 1
            self.hidden += "hidden" in values

    def handle_startendtag(self, tag, attributes):
        self.handle_starttag(tag, attributes)
        self.handle_endtag(tag)

    def handle_endtag(self, tag):
        if tag in ("meta", "input"):
            return
        if not self.open or self.open.pop()[0] != tag:
            self.wrong.append(tag)

    def handle_data(self, data):
        for _, values in self.open:
            if "id" in values:
                self.texts[values["id"]] = self.texts.get(values["id"], "") + data


def try_report(tried):
    """A page for examples: its graphs, its tables, its trace; and in Chromium, if that is there."""
    for name, words, steps in (("migratory.rv", ["1", "2", "lean"], "migratory.steps"),
                               ("invalidate.rv", ["4", "2", "lean"], "invalidate.steps"),
                               ("library/barrier.rv", ["2", "2", "plain"], None)):
        path = example(name)
        with tempfile.TemporaryDirectory() as folder:
            out = os.path.join(folder, "page.html")
            call = [path] + words + (["--steps", example(steps)] if steps else []) + ["-o", out]
            found = tried.tool("report", call)
            if not tried.see("report " + name, found == (0, "", ""), found):
                continue
            with open(out, encoding="utf-8") as file:
                text = file.read()
            look_at_page(tried, name, path, text)
            if steps:
                with open(example(steps), encoding="latin-1") as file:
                    look_at_player(tried, name, [path] + words, file.read(), text)
            if name == "migratory.rv":
                with tried.if_installed():
                    open_in_chromium(tried, path, words, out)
    for words, status in ((["no such", "-o", "x"], 1), ([path], 2), ([path, "2", "-o", "x"], 2),
                          ([path, "2", "1", "lean", "-o", "x"], 1)):
        tried.see("report %s" % words[1:], tried.tool("report", words)[0] == status, "status")


def look_at_page(tried, name, path, text):
    """A page is whole, names nothing outside, and has each state and each row."""
    page = Page(text)
    tried.see("report: elements, " + name, not page.open and not page.wrong, (page.open, page.wrong))
    tried.see("report: alone, " + name, not page.links and "http" not in text.replace(
        "http://www.w3.org/2000/svg", ""), page.links)
    states = re.fullmatch(r"ok \S+ messages \d+ home (\d+) remote (\d+)\n", tried.rvc(["check", path]))
    tried.see("report: states, " + name, len(page.nodes) == sum(map(int, states.groups())), page.nodes)
    tables = [json.loads(tried.rvc(["json", path, mode])) for mode in ("plain", "lean")]
    rows = sum(len(table["home"]) + len(table["remote"]) for table in tables)
    # Each of the two tables has a row of titles.
    tried.see("report: rows, " + name, page.rows == rows + 2, (page.rows, rows))


def look_at_player(tried, name, words, steps, text):
    """The trace to play ends where `run` ends, and has a picture for each step."""
    shots = json.loads(Page(text).texts["shots"])
    trace = tried.rvc(["run"] + words, steps)
    end = [re.sub(r"^  (home|remote \d+) ", "", row)
           for row in trace.partition("\nend\n")[2].partition("abstract")[0].splitlines()]
    tried.see("report: the end, " + name, [one[0] for one in shots[-1]["at"]] == end,
              (shots[-1]["at"], end))
    told = re.findall(r"^(\d+ [^:\n]+): (.*)$", trace, re.M)
    tried.see("report: steps, " + name, [(shot["step"], shot["said"]) for shot in shots[1:]] == told,
              "other steps")


def open_in_chromium(tried, path, words, out):
    """In Chromium: the script shows step 4 and the rows with a nack; a picture of the page."""
    browser = next(filter(None, map(shutil.which, ("chromium", "chromium-browser", "google-chrome"))), None)
    if browser is None:
        print("desk: not tried: the page in Chromium, which isn't installed")
        return
    folder = os.path.dirname(out)
    picture = os.path.join(folder, "page.png")
    command = [browser, "--headless", "--no-sandbox", "--disable-gpu", "--user-data-dir=" + folder,
               "--window-size=1300,2400", "--virtual-time-budget=3000"]
    where = "file://%s#step=4&filter=nack" % out
    done = subprocess.run(command + ["--dump-dom", where], stdout=subprocess.PIPE, timeout=120,
                          stderr=subprocess.DEVNULL, check=False)
    page = Page(done.stdout.decode("utf-8"))
    # By hand, from docs/REFINEMENT.md: step 4 takes the request, and the remote is in R*.
    tried.see("report in Chromium: the step", page.texts.get("step") == "4 home take 0"
              and page.texts.get("said") == "up 0 0 0 req"
              and "G o=none j=#0 d=0 held[] owed[0:gr]" in page.texts.get("states", ""), page.texts.get(
                  "states"))
    rows = [row for mode in ("plain", "lean") for row in re.findall(
        r"^  .*", tried.rvc(["table", path, mode]), re.M)]
    expected = sum("nack" in row for row in rows)
    tried.see("report in Chromium: the filter", page.rows - 2 - page.hidden == expected
              and page.texts.get("shown") == "%d of %d rows" % (expected, len(rows)),
              (page.texts.get("shown"), expected))
    subprocess.run(command + ["--screenshot=" + picture, where], stdout=subprocess.DEVNULL,
                   stderr=subprocess.DEVNULL, timeout=120, check=False)
    good = os.path.exists(picture) and os.path.getsize(picture) > 20000
    tried.see("report in Chromium: a picture", good, "no picture, or an empty one")


# One cache line of two that asks for the line; and the same steps alone.
OF_LINES = "at 1 remote 0 tau 0\nat 1 remote 0 send\nup 0\nat 1 home take 0\nat 1 home send 0 0\ndown 0\n"
ALONE = "remote 0 tau 0\nremote 0 send\nup 0\nhome take 0\nhome send 0 0\ndown 0\n"
# The same over a network that hands each frame on at once.
OF_NETWORK = ("remote 0 tau 0\nremote 0 send\nnet 0 up pass 0\nup 0\nhome take 0\nhome send 0 0\n"
              "net 0 down pass 0\ndown 0\n")
WRONG_WORDS = [([], "FILE is missing"), (["x.rv"], "N, or --pairs, is missing"),
               (["x.rv", "0"], "`0` is no N"), (["x.rv", "2", "-t"], "`-t` is no word here"),
               (["x.rv", "2", "--trace", "a", "b"], "`b` is one word too many")]


def try_pictures(tried):
    """Charts of `lines` and `lossy` beside that of `run`; grey places; wrong words of tools/walk."""
    path = example("migratory.rv")
    alone = tried.tool("chart", [path], tried.rvc(["run", path, "1", "2", "lean"], ALONE))[1]
    lines = tried.rvc(["lines", path, "1", "2", "lean", "2"], OF_LINES)
    # Line 1 does what it does alone, and nothing of it is in the chart of line 0.
    tried.see("chart of a cache line", tried.tool("chart", ["--line", "1", path], lines)[1] == alone,
              "it isn't the chart of `run`")
    tried.see("chart of the other", "req" not in tried.tool("chart", [path], lines)[1], "a request")
    tried.see("chart: no such line", tried.tool("chart", ["--line", "2", path], lines)[0] == 1, "status")
    trace = tried.rvc(["run", path, "1", "2", "lean"], ALONE)
    tried.see("chart: --line and `run`", tried.tool("chart", ["--line", "0", path], trace)[0] == 1, "status")
    text = tried.tool("chart", [path], tried.rvc(["lossy", path, "1", "2", "lean"], OF_NETWORK))[1]
    moves = re.findall(r"~ (up|down) link: (.*)", text)
    tried.see("chart of `lossy`: moves", moves == [("up", "put 1 got 1 flight[]"),
                                                   ("down", "put 1 got 1 flight[]")], moves)
    kept_rows = [re.sub(r"^ *\d+ ", "", row).rstrip() for row in text.split("\n") if "~" not in row]
    same = [re.sub(r"^ *\d+ ", "", row).rstrip() for row in alone.split("\n")]
    tried.see("chart of `lossy`: the rest", [row.split() for row in kept_rows]
              == [row.split() for row in same], "differs from the chart of `run`")
    # docs/REFINEMENT.md says of the lock in mode lean that no run comes to the rows of Wait.
    table = tried.rvc(["json", example("lock.rv"), "lean"])
    text = tried.tool("graph", ["--table", "--unreachable", example("lock.rv")], table)[1]
    grey = re.findall(r'^    "([^"]*)" \[.*color = grey', text, re.M)
    tried.see("graph: grey places", grey == ["remote Wait"], grey)
    tried.see("graph: grey takes FILE", tried.tool("graph", ["--table", "--unreachable"], table)[0] == 1,
              "status")
    for words, says in WRONG_WORDS:
        status, _, said = tried.tool("walk", words)
        tried.see("walk %s" % words, status == 1 and says in said.split("\n")[0], said[:200])
