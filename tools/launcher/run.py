"""Runs the program `rvc`, and says on standard error what a status from 1 to 7 means and which lines
of a schedule were refused, and why: run.py PROGRAM IGNORED INPUT STRICT WORDS..

The program has the words, the environment, the folder, the standard streams and the exit status as
if it had been called itself; a signal to this process is handed on to it. Where it reads a schedule
its output is passed on by this process, which counts the refused lines, and so is a pipe on
standard input, as far as the program reads it. IGNORED are the signals that the caller ignores, as
SigIgn of /proc/self/status tells them: Python ignores some of its own accord, which the program
isn't to do. INPUT is the descriptor of standard input, which is another than 0 where Python can't
start with it, as with a folder. STRICT is `strict` where a refused line gives the status 125 in
place of 0, else `-`.
"""
import os
import signal
import stat
import subprocess
import sys

from forms import READ_STANDARD_INPUT, path_in
from watch import Copy, Watch

STRICT_STATUS = 125
SCHEDULES = [command for command in READ_STANDARD_INPUT if command != "audit"]

HANDED_ON = [signal.SIGHUP, signal.SIGINT, signal.SIGQUIT, signal.SIGTERM, signal.SIGUSR1,
             signal.SIGUSR2]


def ran(program, words, ignored, copy=None, watch=None):
    """Runs the program, and hands signals on to it. Answers its exit status, or ends as it did by
    a signal. Its input comes through a Copy, its output goes through a Watch, where there is one."""
    def is_ignored(number):
        return ignored >> (number - 1) & 1

    waited = [number for number in HANDED_ON if not is_ignored(number)] + [signal.SIGCHLD]
    signal.signal(signal.SIGCHLD, signal.SIG_DFL)
    mask = signal.pthread_sigmask(signal.SIG_BLOCK, waited)
    by_python = [number for number in (signal.SIGPIPE, signal.SIGXFSZ) if not is_ignored(number)]
    streams = [(os.POSIX_SPAWN_DUP2, copy.reader, 0)] if copy else []
    streams += [(os.POSIX_SPAWN_DUP2, watch.writer, 1)] if watch else []
    child = os.posix_spawn(program, [program, *words], os.environ, file_actions=streams,
                           setsigmask=mask, setsigdef=by_python)
    if watch:
        watch.begin()
    if copy:
        copy.begin(child)
    while True:
        number = signal.sigwait(waited)
        if number != signal.SIGCHLD:
            os.kill(child, number)
            continue
        ended, status = os.waitpid(child, os.WNOHANG)
        if ended:
            break
    if watch:
        watch.thread.join()
    signal.pthread_sigmask(signal.SIG_SETMASK, mask)
    if os.WIFSIGNALED(status):
        end_by(os.WTERMSIG(status))
    return os.WEXITSTATUS(status)


def end_by(number):
    """Ends this process by a signal."""
    import resource

    resource.setrlimit(resource.RLIMIT_CORE, (0, 0))
    if number != signal.SIGKILL:
        signal.signal(number, signal.SIG_DFL)
    os.kill(os.getpid(), number)


def place_of_input():
    """Where standard input stands, if what comes of it can be read again; else None."""
    try:
        mode = os.fstat(0)
        if stat.S_ISREG(mode.st_mode):
            return os.lseek(0, 0, os.SEEK_CUR)
        if stat.S_ISCHR(mode.st_mode) and mode.st_rdev == os.stat("/dev/null").st_rdev:
            return 0
    except OSError:
        pass
    return None


def tell(lines):
    """Writes lines on standard error, if it can be written."""
    text = "".join(line + "\n" for line in lines).encode("utf-8", "replace")
    try:
        while text:
            text = text[os.write(2, text) :]
    except OSError:
        pass


def explain(program, words, status, place, copy, watch):
    """Explains a status, and what was refused. What goes wrong here is no fault of the program's,
    and isn't told."""
    try:
        from explain import Again, explanation, refusals

        again = Again(program, words, place, copy, watch and (status, watch.tail))
        if 1 <= status <= 7:
            tell(explanation(words, status, again))
        if watch and status in (0, 3, 7):
            tell(refusals(words, watch, again))
    except Exception:
        pass


def is_piped(program, words):
    """Whether standard input is a pipe from which the program reads, so that a copy is kept: words
    and file are right, and nothing ends the run before it reads."""
    try:
        mode = os.fstat(0).st_mode
        if not (stat.S_ISFIFO(mode) or stat.S_ISSOCK(mode)):
            return False
        if not stat.S_ISREG(os.stat(words[1]).st_mode):
            return False
        status = subprocess.run([program, *words], stdin=subprocess.DEVNULL,
                                stdout=subprocess.DEVNULL, stderr=subprocess.DEVNULL).returncode
    except (OSError, ValueError):
        return False
    return status == (3 if words[0] == "audit" else 0)


def is_writable():
    """Whether standard output is open for writing."""
    import fcntl

    try:
        return fcntl.fcntl(1, fcntl.F_GETFL) & os.O_ACCMODE != os.O_RDONLY
    except OSError:
        return False


def await_terminal(command):
    """Tells a person at a terminal what is waited for."""
    what = {"rv": "events, one a line, such as `tau 0 0` or `up 0 0 0`",
            "audit": "a trace, as `run` writes it",
            "lines": "steps of cache lines, one a line, such as `at 0 remote 0 send` or `up 0`"}
    tell(["rvc: %s reads %s, from this terminal; Ctrl-D ends them" % (
        command, what.get(command, "steps, one a line, such as `remote 0 send` or `up 0`"))])


def main(words):
    program, ignored, given, strict = words[0], int(words[1], 16), int(words[2]), words[3]
    words = words[4:]
    if given:
        os.dup2(given, 0)
        os.close(given)
    if signal.getsignal(signal.SIGINT) is signal.default_int_handler:
        signal.signal(signal.SIGINT, signal.SIG_DFL)
    place = place_of_input()
    quiet = os.environ.get("RVC_QUIET") == "1"
    copy = watch = None
    if path_in(words) is not None and words[0] in READ_STANDARD_INPUT:
        if not quiet and is_piped(program, words):
            copy = Copy()
        if words[0] in SCHEDULES and is_writable():
            watch = Watch()
        if not quiet and os.isatty(0) and os.isatty(2):
            await_terminal(words[0])
    try:
        status = ran(program, words, ignored, copy, watch)
    except OSError as error:
        tell(["rvc: %s can't be started: %s" % (program, error.strerror)])
        return 126
    if watch and watch.failed:
        status = 5
    if not quiet:
        explain(program, words, status, place, copy, watch)
    if strict == "strict" and watch and watch.refused and status == 0:
        return STRICT_STATUS
    return status


if __name__ == "__main__":
    os._exit(main(sys.argv[1:]))
