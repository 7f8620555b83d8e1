"""Answers by the program `rvc` without its proofs, in about half a minute:
quick.py CRATE STRICT WORDS..

`rt try` compiles the source in CRATE (crates/rvc) and runs it once. It reads no file and no pipe of
its own, so the protocol file and standard input are read here, as the program would read them, and
handed over as copies. The status and the bytes that it answers are passed on. With `strict` for
STRICT a refused line of a schedule gives the status 125 in place of 0.
"""
import os
import re
import subprocess
import sys
import tempfile

from explain import TAIL, Answered, explanation, file_limit, refusals
from forms import READ_STANDARD_INPUT, is_text, path_in
from run import SCHEDULES, STRICT_STATUS, tell
from watch import Seen

INPUT_LIMIT = 64 << 20
# Status 126, as where the program can't be built, says that there is no answer.
NO_ANSWER = 126
PROTOCOL = "protocol.rv"
UNPROVED = ("rvc: this answer is of the unproved program, which compiles from the same source. "
            "./rvc without --quick proves it first.")


class NoAnswer(Exception):
    """Why there is no answer."""


def copied(path, limit, folder):
    """Copies the protocol file as far as the program reads it, to one byte past this limit. The
    name under which it is handed over, and where the copy is; where it can't be read, a name that
    stands for no file."""
    try:
        with open(path, "rb") as file:
            text = file.read(limit + 1)
    except (OSError, ValueError):
        return "missing.rv", None
    copy = os.path.join(folder, "protocol")
    with open(copy, "wb") as file:
        file.write(text)
    return PROTOCOL, copy


def copied_input(folder):
    """Copies standard input to its end. Answers where the copy is."""
    copy = os.path.join(folder, "input")
    size = 0
    with open(copy, "wb") as file:
        while True:
            try:
                piece = os.read(0, 1 << 16)
            except OSError as error:
                raise NoAnswer("standard input can't be read (%s)" % error.strerror)
            size += len(piece)
            if size > INPUT_LIMIT:
                raise NoAnswer("standard input has more than 64 mebibytes, the most that can be "
                               "handed over")
            if not piece:
                return copy
            file.write(piece)


def tried(crate, words, data, given):
    """The status and the text of the program, compiled without its proofs."""
    command = ["rt", "try", *data, "--", *words]
    try:
        with open(given or os.devnull, "rb") as file:
            run = subprocess.run(command, cwd=crate, stdin=file, stdout=subprocess.PIPE,
                                 stderr=subprocess.PIPE)
    except OSError as error:
        raise NoAnswer("rt try can't be started (%s)" % error.strerror)
    complaint = run.stderr.decode("utf-8", "replace")
    if re.search(r"^run=ended status=%d .*proved=no\n\Z" % run.returncode, complaint, re.M):
        return run.returncode, run.stdout
    tell(complaint.splitlines()[-20:])
    raise NoAnswer("rt try came to no answer, as the lines above say; it ends a run after a minute "
                   "or a mebibyte of output")


def answer(crate, strict, words):
    """The status of the program for these words, whose text is written."""
    with tempfile.TemporaryDirectory(prefix="rvc-quick-") as folder:
        # Words that aren't UTF-8 have no form, as no words have none.
        handed = list(words) if all(map(is_text, words)) else []
        path, data, copy, given = path_in(words), [], None, None
        if path is not None:
            handed[1], copy = copied(path, file_limit(words), folder)
            data = ["--data", "%s=%s" % (PROTOCOL, copy)] if copy else []
            if words[0] in READ_STANDARD_INPUT:
                given = copied_input(folder)
        tell(["rvc: compiling the program without its proofs, which takes about a minute"])
        status, text = tried(crate, handed, data, given)
        if not write(text):
            status = 5
        tell([UNPROVED])
        seen = Seen()
        if path is not None and words[0] in SCHEDULES:
            seen.look(text)
        if os.environ.get("RVC_QUIET") != "1":
            explain(words, status, Answered(words, (status, text[-TAIL:]), copy, given), seen)
        return STRICT_STATUS if strict and seen.refused and status == 0 else status


def explain(words, status, answered, seen):
    """Explains the status as `./rvc` does. What goes wrong here isn't told."""
    try:
        if 1 <= status <= 7:
            tell(explanation(words, status, answered))
        if status in (0, 3, 7):
            tell(refusals(words, seen, answered))
    except Exception:
        pass


def write(text):
    """Writes the text on standard output, and says whether it could be written whole."""
    try:
        while text:
            text = text[os.write(1, text) :]
    except OSError:
        return False
    return True


def main(words):
    try:
        return answer(words[0], words[1] == "strict", words[2:])
    except NoAnswer as reason:
        tell(["rvc: no answer: %s. ./rvc without --quick proves and builds the program first."
              % reason])
        return NO_ANSWER
    except KeyboardInterrupt:
        return 130


if __name__ == "__main__":
    os._exit(main(sys.argv[1:]))
