"""Trials of checks/desk as a new user: a protocol of one's own, in a folder of one's own with links
to the repository, as docs/FIRST.md says; and what such a user is told that goes wrong."""
import os
import re
import subprocess
import tempfile

from desk_texts import TOP

LINKS = ["rvc", "examples", "tools", "docs"]
# Three remotes meet: when the third has come, the home lets all of them go on.
OWN = """\
protocol meet version 2;
message come up;
message go down;
home {
  var here set = empty;
  var n int 4 = 0;
  var who node = none;
  start Gather;
  state Gather {
    from any who ? come when n lt 2 do here = here + who, n = n + 1 goto Gather;
    from any who ? come when n eq 2 do here = here + who, n = 0 goto Release;
  }
  state Release {
    to any who in here ! go do here = here - who goto Release;
    tau when here eq empty goto Gather;
  }
}
remote {
  start Work;
  state Work {
    tau goto Come;
  }
  state Come {
    to home ! come goto Wait;
  }
  state Wait {
    from home ? go goto Work;
  }
}
claim atmost 3 in Wait;
"""
# All three come and are let go; then the home gathers again.
EVENTS = "".join("tau %d 0\nup %d %d 0\n" % (j, j, j == 2) for j in range(3)) + "".join(
    "down %d 0 0\n" % j for j in range(3)) + "tau home 1\n"
STEPS = "".join("remote %d tau 0\nremote %d send\nup %d\nhome take %d\ndown %d\n" % (5 * (j,))
                for j in range(3))
# What is typed, the status, and what the output has: whole lines if the text begins with ^.
TYPED = [
    ("./rvc check own.rv", 0, "^ok meet messages 2 home 2 remote 3$"),
    ("./rvc print own.rv | cmp - own.rv", 0, ""),
    ("./rvc rv own.rv 3 < events > trace", 0, ""),
    ("grep -c moved trace", 0, "^10$"),
    ("sed -n '/^end/,$p' trace", 0, r"^  home Gather here=\{\} n=0 who=#2$"),
    ("tools/walk own.rv 3 --trace events | cmp - trace", 0, ""),
    ("tools/walk own.rv 3", 0, "^meet with 3 remotes: 113 configurations$"),
    # With four, the fourth comes while the home lets three go, and has to wait.
    ("tools/walk own.rv 4 | sed -n 2,3p", 0, "^stuck: none$"),
    # With two nobody ever goes on: all wait, and the walk says how.
    ("tools/walk own.rv 2", 8, "// stuck after 4 events"),
    # `go` is the reply of `come`: a remote that has come awaits nothing else.
    ("./rvc table own.rv lean | grep '^  Gather'", 0, "^  Gather take 0: owe go, Gather/0, Gather$"),
    ("./rvc json own.rv plain | python3 -m json.tool", 0, '"name": "meet"'),
    ("./rvc run own.rv 3 2 plain < steps > trace.run", 0, ""),
    ("sed -n '/^abstract/,$p' trace.run", 0, r"^  home Release here=\{0,1,2\} n=0 who=#2$"),
    ("./rvc audit own.rv 3 < trace.run", 0, "^audit ok 6$"),
    ("./rvc drive own.rv 3 2 lean 2000 1", 0, "^stopped no$"),
    ("./rvc drive own.rv 2 2 lean 2000 1", 0, "^stopped yes$"),
    ("./rvc store own.rv plain > own.image && ./rvc boot own.image 3 2 < steps | cmp - trace.run",
     0, ""),
    ("sed '/^up\\|^down/!s/^/at 1 /' steps | ./rvc lines own.rv 3 2 plain 2 | grep -c '^[0-9]* line 1 .*: up '",
     0, "^3$"),
    ("tools/advise own.rv", 0, ""),
    ("tools/format --check own.rv", 0, ""),
    ("tools/graph own.rv > own.dot && ./rvc json own.rv lean | tools/graph --table own.rv > table.dot",
     0, ""),
    ("tools/chart own.rv < trace.run | head -n 20", 0, "request come"),
    ("tools/names own.rv --trace < trace | head -n 3 | grep '^[0-9]'", 0, "^1 tau 0 goto Come: moved$"),
    ("tools/names own.rv --trace --schedule < trace | tools/names own.rv 3 | sed 's_ *//.*__' | cmp - events",
     0, ""),
    ("printf 12q | tools/step own.rv 2 | tail -n 14", 0, "home"),
    ("tools/measure own.rv 3 plain 2 --steps steps", 0, "^events +6$"),
    ("tools/report own.rv 3 2 plain --steps steps -o own.html && test -s own.html", 0, ""),
    # One rule for each local step, and for each two guards that may meet.
    ("tools/export murphi own.rv 3 > own.m && grep -c '^ *rule ' own.m", 0, "^5$"),
    ("tools/rtl own.rv 3 2 lean -o rtl", 0, "meet_home.sv"),
    ("tools/rtl own.rv lean 3 2 -o other > out && diff -r rtl other", 0, ""),
    # What goes wrong is said with its line, by the launcher and by what needs no program.
    ("sed 's/goto Wait;/goto Wating;/' own.rv > typo.rv; ./rvc check typo.rv", 2,
     "Is `Wait` meant"),
    ("tools/advise typo.rv", 2, "typo.rv:24: code 13: No state of the remote is named `Wating`"),
    ("sed 's/ ! go/ ? go/' own.rv > typo.rv; tools/format typo.rv", 2, "typo.rv:14: code 1: `?`"),
    ("printf 'up 0 0 0\\n' | ./rvc --strict rv own.rv 3 > trace", 125,
     "no message can go up between the home in Gather and remote 0 in Work"),
    ("sed 's/atmost 3/atmost 2/' own.rv > less.rv; ./rvc rv less.rv 3 < events > trace", 7,
     "claim 0 is broken (status 7) after event 6"),
    ("RVC_PROGRAM=nowhere ./rvc check own.rv", 126, "RVC_PROGRAM is nowhere"),
    ("RVC_PROGRAM=nowhere tools/names own.rv 3 < events", 1, "nowhere: No such file"),
]


def files_of(folder):
    """The files of the repository that a user could write by mistake, with their times."""
    found = {}
    for name in LINKS + ["checks", "editors", "."]:
        for place, folders, names in os.walk(os.path.join(folder, name)):
            folders[:] = [] if name == "." else [one for one in folders if one != "__pycache__"]
            for one in names:
                path = os.path.join(place, one)
                found[path] = os.stat(path, follow_symlinks=False).st_mtime_ns
    return found


def try_newcomer(tried):
    """Each command that a new user types over a protocol of one's own: status and answer. Nothing is
    written into the repository."""
    before = files_of(TOP)
    with tempfile.TemporaryDirectory(prefix="rvc-scratch-") as folder:
        for name in LINKS:
            os.symlink(os.path.join(TOP, name), os.path.join(folder, name))
        for name, text in (("own.rv", OWN), ("events", EVENTS), ("steps", STEPS)):
            with open(os.path.join(folder, name), "w", encoding="ascii") as file:
                file.write(text)
        environment = {name: value for name, value in tried.environment.items() if name != "RVC_QUIET"}
        environment["PYTHONDONTWRITEBYTECODE"] = "1"
        for typed, status, says in TYPED:
            done = subprocess.run(["bash", "-o", "pipefail", "-c", typed], cwd=folder, env=environment,
                                  stdin=subprocess.DEVNULL, stdout=subprocess.PIPE, timeout=600,
                                  stderr=subprocess.STDOUT, check=False)
            text = done.stdout.decode("utf-8", "replace")
            found = re.search(says, text, re.M) if says.startswith("^") else says in text
            tried.see("a new user: %s" % typed, done.returncode == status and found,
                      "status %d: %s" % (done.returncode, text[-600:]))
    after = files_of(TOP)
    tried.see("a new user: nothing is written into the repository", before == after,
              sorted(set(before.items()) ^ set(after.items()))[:4])
