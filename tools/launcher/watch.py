"""Looks at what the program writes and what it reads while it runs, and keeps what explanations
need: `Seen` the trace up to its first refused line, and how many lines are refused; `Watch` the
same while it passes the trace on; `Copy` a copy of standard input where that can't be read a second
time.
"""
import fcntl
import os
import re
import tempfile
import threading
import time

PIECE = 1 << 16
KEPT = 64 << 20
TAIL = 1 << 20
REFUSED = re.compile(rb"^(\d+) ([^:\n]+): refused$", re.M)
FIRST = re.compile(rb"^(\d+) [^:\n]+: ", re.M)


def pipe():
    """The ends of a new pipe, which are none of the standard streams, even if one of those is
    closed."""
    low = os.pipe()
    high = [fcntl.fcntl(end, fcntl.F_DUPFD_CLOEXEC, 3) for end in low]
    for end in low:
        os.close(end)
    return high


class Seen:
    """What was seen of a trace: how many blocks there are, how many of them are refused, the number
    and the words of the first one that is, and the trace up to it."""

    def __init__(self):
        self.blocks = self.refused = 0
        self.first, self.words, self.head = None, None, bytearray()
        self.tail, self.rest = b"", b""

    def look(self, piece):
        """Looks at the whole lines so far."""
        lines, end, self.rest = (self.rest + piece).rpartition(b"\n")
        lines += end
        self.tail = (self.tail + piece)[-TAIL:]
        self.blocks += len(FIRST.findall(lines))
        found = REFUSED.findall(lines)
        if found and self.first is None:
            self.first, self.words = int(found[0][0]), found[0][1].decode("latin-1")
            at = REFUSED.search(lines).start()
            if self.head is not None:
                self.head += lines[:at]
        elif self.first is None and self.head is not None:
            self.head += lines
            if len(self.head) > KEPT:
                self.head = None
        self.refused += len(found)


class Watch(Seen):
    """Passes the program's output on to standard output, and looks at its lines."""

    def __init__(self):
        super().__init__()
        self.failed = False
        self.reader, self.writer = pipe()
        self.thread = threading.Thread(target=self.pass_on, daemon=True)

    def begin(self):
        """Begins, once the program has its end of the pipe."""
        os.close(self.writer)
        self.thread.start()

    def pass_on(self):
        """Passes everything on. Where standard output takes no more the pipe is closed, so that the
        program finds that out too."""
        while True:
            piece = os.read(self.reader, PIECE)
            if not piece:
                break
            self.look(piece)
            try:
                while piece:
                    piece = piece[os.write(1, piece):]
            except OSError:
                self.failed = True
                break
        os.close(self.reader)


class Copy:
    """Hands a pipe on standard input over to the program, and keeps a copy. It takes from it only
    what the program waits for, so that the rest is left to whoever reads next."""

    def __init__(self):
        self.reader, self.writer = pipe()
        self.file = tempfile.TemporaryFile(prefix="rvc-input-")
        self.child, self.size = None, 0

    def begin(self, child):
        """Begins, for the program with this process number."""
        self.child = child
        os.close(self.reader)
        threading.Thread(target=self.hand_over, daemon=True).start()

    def hand_over(self):
        """Reads and writes to the end, or until the program reads no more."""
        try:
            while self.is_awaited():
                piece = os.read(0, PIECE)
                if not piece:
                    break
                self.size += len(piece)
                if self.size <= KEPT:
                    self.file.write(piece)
                    self.file.flush()
                while piece:
                    piece = piece[os.write(self.writer, piece):]
        except OSError:
            pass
        os.close(self.writer)

    def is_awaited(self):
        """Waits until the program waits for more; False where it has ended."""
        pause = 0.0002
        while True:
            state = self.seen("stat").rpartition(b")")[2].split()[:1]
            where = self.seen("wchan")
            if state in ([b"Z"], [b"X"]) or not state and os.path.exists("/proc/self"):
                return False
            if state in ([], [b"S"]) and (b"read" in where or where in (b"", b"0")):
                return True
            time.sleep(pause)
            pause = min(pause * 2, 0.01)

    def seen(self, name):
        """What the system tells of the program; nothing where it tells nothing."""
        try:
            with open("/proc/%d/%s" % (self.child, name), "rb") as file:
                return file.read()
        except OSError:
            return b""

    def kept(self):
        """A descriptor of the copy, or None where it isn't whole."""
        if self.size > KEPT:
            return None
        return os.open("/proc/self/fd/%d" % self.file.fileno(), os.O_RDONLY)
