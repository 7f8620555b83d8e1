"""Runs rumur and Spin on what tools/export writes, and reads what they found."""
import collections
import os
import re
import shutil
import subprocess
import sys
import time

from program import calling

EXPORT = os.path.join(os.path.dirname(os.path.dirname(os.path.realpath(__file__))), "export")
SECONDS = 3600
# What a checker found: how many states, how many rules or transitions, the fault, and the seconds
# of the search alone. A fault of rumur is ("stuck" or "broken", length) or its text, one of Spin
# its kind.
Found = collections.namedtuple("Found", "states events fault seconds")


class Peers:
    """Runs the checkers, in a folder of its own."""

    def __init__(self, program, folder):
        self.program, self.folder = program, folder
        self.has = {name: shutil.which(name) is not None for name in ("rumur", "spin", "gcc")}

    def rumur(self):
        """Whether rumur can be tried."""
        return self.has["rumur"] and self.has["gcc"]

    def spin(self):
        """Whether Spin can be tried."""
        return self.has["spin"] and self.has["gcc"]

    def run(self, words, allowed=(0,)):
        """What a command writes."""
        done = subprocess.run(words, cwd=self.folder, stdout=subprocess.PIPE, stderr=subprocess.STDOUT,
                              stdin=subprocess.DEVNULL, timeout=SECONDS, env=calling(self.program))
        text = done.stdout.decode("utf-8", "replace")
        if done.returncode not in allowed:
            raise RuntimeError("%s: status %d: %s" % (words[0], done.returncode, text[-300:]))
        return text

    def export(self, name, words):
        """Writes a model into the folder."""
        text = self.run([sys.executable, EXPORT] + words)
        with open(os.path.join(self.folder, name), "w") as file:
            file.write(text)

    def compile(self, numbers, words):
        """Compiles what a checker wrote. A small model is searched sooner than optimised."""
        small = len(numbers) == 1 and numbers[0] <= 2
        self.run(["gcc", "-O0" if small else "-O2", "-w"] + words)

    def build_murphi(self, path, numbers, symmetry="off", options=()):
        """Makes the search of a file's model: `symmetry` is off, heuristic or exhaustive. Schedules
        of scalarsets serve readers of counterexamples alone, and cost much time."""
        self.export("model.m", ["murphi", path] + [str(number) for number in numbers] + list(options))
        self.run(["rumur", "model.m", "-o", "model.c", "--deadlock-detection=stuck",
                  "--value-type=int32_t", "--symmetry-reduction=" + symmetry, "--threads=1",
                  "--scalarset-schedules=off", "--output-format=machine-readable", "--quiet"])
        self.compile(numbers, ["-mcx16", "model.c", "-o", "model", "-lpthread", "-latomic"])

    def murphi(self, path, numbers, symmetry="off", options=()):
        """What rumur finds in the model of a file."""
        self.build_murphi(path, numbers, symmetry, options)
        began = time.time()
        text = self.run(["./model"], (0, 1))
        seconds = time.time() - began
        states, fired = re.search(r'<summary states="(\d+)" rules_fired="(\d+)"', text).groups()
        error = re.search(r"<message>([^<]*)</message>", text)
        fault = None
        if error:
            length = len(re.findall("<transition>", text)) - 1
            kind = "stuck" if error.group(1) == "deadlock" else error.group(1)
            fault = ("broken" if "claim" in kind else kind, length)
        return Found(int(states), int(fired), fault, seconds)

    def promela(self, path, numbers, options=()):
        """What Spin finds; of its transitions the first leads to the start and isn't counted."""
        self.export("model.pml", ["promela", path] + [str(number) for number in numbers] + list(options))
        self.run(["spin", "-a", "model.pml"])
        self.compile(numbers, ["-DSAFETY", "-DNOREDUCE", "-DMEMLIM=4000", "pan.c", "-o", "pan"])
        began = time.time()
        text = self.run(["./pan", "-m1000000"])
        seconds = time.time() - began
        states = re.search(r"(\d+) states, stored", text)
        events = re.search(r"(\d+) transitions", text)
        if not states or "max search depth too small" in text:
            raise RuntimeError("pan: " + text[-300:])
        fault = None
        if not re.search("errors: 0", text):
            fault = "stuck" if "invalid end state" in text.split("\n")[0] else "broken"
        return Found(int(states.group(1)), int(events.group(1)) - 1, fault, seconds)
