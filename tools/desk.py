"""What the tools at the desk share: the program `rvc`, called once or fed line by line, and the
protocol file with its parts.
"""
import os
import re
import subprocess
import sys

TOP = os.path.dirname(os.path.dirname(os.path.realpath(__file__)))
sys.path.insert(0, os.path.join(TOP, "tools", "launcher"))
sys.path.insert(0, os.path.join(TOP, "tools"))
from explain import misfit_sentences  # noqa: E402
from faults import first_fault  # noqa: E402
from forms import word_fault  # noqa: E402
from program import program, quiet  # noqa: E402
from protocol import Misfit, read_protocol  # noqa: E402
from protocol_file import Fault, read_text  # noqa: E402
from traces import BLOCK, standing_of, start_of  # noqa: E402

# A line that `rv`, or `run`, always refuses: no run has so many remotes.
MARKS = {"rv": "tau 99999 0", "run": "up 99999"}


def answer(words, given=""):
    """The status and the text of a call of the program with this standard input."""
    path = program()
    try:
        done = subprocess.run([path] + words, input=given.encode("latin-1"), env=quiet(),
                              stdout=subprocess.PIPE, check=False)
    except OSError as fault:
        raise Fault("%s: %s" % (path, fault.strerror))
    if done.returncode >= 126:
        raise Fault("%s gives no answer (status %d)" % (path, done.returncode))
    return done.returncode, done.stdout.decode("latin-1")


def no_protocol(path, text, misfit):
    """The Fault of a file that spells no protocol: the line of the first error, and why."""
    return Fault("%s:%d: code 1: %s" % (path or "standard input", misfit.piece.line,
                                        " ".join(misfit_sentences(misfit, text))))


def protocol_at(path):
    """The protocol that a file spells, a Part of protocol.py; a Fault where it isn't well-formed."""
    text = read_text(path)
    try:
        file = read_protocol(text)
    except Misfit as misfit:
        raise no_protocol(path, text, misfit)
    fault = first_fault(file)
    if fault is not None:
        raise Fault("%s:%d: code %d: %s" % (path, fault.line, fault.code, fault.sentences[0]))
    return file


class Run:
    """A run of the program by `rv` or `run`, to which lines are given one by one, and where every
    process is in it."""

    def __init__(self, file, words):
        fault = word_fault(words)
        if fault:
            raise Fault(fault)
        self.words, self.mark = words, MARKS[words[0]]
        self.standings = {who: start_of(file.home if who is None else file.remote,
                                        words[0] == "run")
                          for who in [None] + list(range(int(words[2])))}
        self.claim = None
        path = program()
        try:
            self.process = subprocess.Popen([path] + words, stdin=subprocess.PIPE, env=quiet(),
                                            stdout=subprocess.PIPE)
        except OSError as fault:
            raise Fault("%s: %s" % (path, fault.strerror))
        # What the program says before any line: a broken claim, or that it refuses the file.
        self.first = self.exchange([])

    def __enter__(self):
        return self

    def __exit__(self, *_):
        self.close()

    def close(self):
        """Ends the run."""
        if self.process.poll() is None:
            self.process.kill()
        self.process.stdin.close()
        self.process.stdout.close()
        self.process.wait()

    def exchange(self, lines):
        """Gives lines and a mark behind them; the program's lines up to its answer to the mark."""
        given = "".join(line + "\n" for line in lines + [self.mark])
        try:
            self.process.stdin.write(given.encode("latin-1"))
            self.process.stdin.flush()
        except BrokenPipeError:
            pass
        told = []
        for row in self.process.stdout:
            row = row.decode("latin-1").rstrip("\n")
            if row.endswith(" %s: refused" % self.mark):
                break
            if row == "end" and self.claim is not None:
                break
            if row.startswith("error "):
                raise Fault("%s: the program answers `%s`" % (" ".join(self.words), row))
            claim = re.fullmatch(r"claim (\d+) broken", row)
            if claim:
                self.claim = int(claim.group(1))
            told.append(row)
        return told

    def give(self, lines):
        """Gives lines of the schedule. Answers the blocks: for each its words, what is said of it,
        and the Standings that it shows; they are noted too."""
        blocks, rows, lines = [], [], list(lines)
        for at in range(0, len(lines), 100):
            # A few at a time, so that neither side waits for the other with a full pipe.
            rows += self.exchange(lines[at:at + 100])
        for row in rows:
            block, standing = BLOCK.fullmatch(row), standing_of(row)
            if block:
                blocks.append((block.group(2), block.group(3), {}))
            elif standing and blocks:
                blocks[-1][2][standing[0]] = standing[1]
                self.standings[standing[0]] = standing[1]
        return blocks
