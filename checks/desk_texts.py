"""Trials of checks/desk on the tools that read a protocol's text: advice and layout."""
import contextlib
import os
import random
import re
import tempfile

TOP = os.path.dirname(os.path.dirname(os.path.realpath(__file__)))
REMOTES = 3


def example(name):
    """The path of a file of examples/."""
    return os.path.join(TOP, "examples", name)


def protocol_files(folder="examples"):
    """The protocol files under a folder of this repository."""
    found = []
    for place, _, names in os.walk(os.path.join(TOP, folder)):
        found += [os.path.join(place, name) for name in names if name.endswith(".rv")]
    return sorted(found)


@contextlib.contextmanager
def kept(text):
    """The path of a protocol file with this text, while it is needed."""
    with tempfile.TemporaryDirectory(prefix="rvc-desk-") as folder:
        path = os.path.join(folder, "some.rv")
        with open(path, "w", encoding="latin-1") as file:
            file.write(text)
        yield path

# A protocol in which nothing is to be said, and edits of it: the text, the text in its place, the
# line of the advice, and what it says.
CLEAN = """\
protocol clean version 2;
message ask up;
message give down int 4;
message back up int 4;
home {
  var holder node = none;
  var waiting set = empty;
  var count int 4 = 0;
  start Free;
  state Free {
    from any holder ? ask goto Asked;
    to any holder in waiting ! give(count) do waiting = waiting - holder goto Taken;
  }
  state Asked {
    to holder ! give(count) goto Taken;
    tau when count eq 3 do waiting = waiting + holder goto Free;
  }
  state Taken {
    from holder ? back(count) goto Free;
  }
}
remote {
  var count int 4 = 0;
  start Idle;
  state Idle {
    tau goto Ask;
  }
  state Ask {
    to home ! ask goto Wait;
  }
  state Wait {
    from home ? give(count) goto Use;
  }
  state Use {
    tau do count = count + 1 goto Use;
    tau when count lt 3 goto Back;
  }
  state Back {
    to home ! back(count) goto Idle;
  }
}
claim atmost 1 in Use Back;
"""
ADVISED = [
    ("message back up int 4;", "message back up int 4; message lost down;", 4, "`lost` isn't used"),
    ("from any holder ? ask goto Asked;", "tau goto Asked;", 2,
     "`ask` is sent (line 29) and never taken"),
    ("to home ! back(count) goto Idle;", "to home ! ask goto Idle;", 4,
     "`back` is taken (line 19) and never sent"),
    ("  var count int 4 = 0;\n  start Idle", "  var count int 4 = 0; var extra set = empty;\n"
     "  start Idle", 23, "`extra` of the remote isn't used"),
    ("state Back {", "state Gone { tau goto Idle; } state Back {", 38,
     "No path leads from the start to state `Gone` of the remote"),
    ("from any holder ? ask goto Asked;", "from any holder ? ask goto Asked; "
     "from any holder in waiting ? ask goto Free;", 11, "takes `ask` on line 11 already"),
    ("from any holder ? ask goto Asked;", "from any holder ? ask when count lt 2 goto Asked; "
     "from any holder in waiting ? ask goto Free;", 0, ""),
    ("from any holder ? ask goto Asked;", "from any holder ? ask when holder notin waiting goto "
     "Asked;", 11, "`holder notin waiting` sees the old `holder`"),
    ("from any holder ? ask goto Asked;", "from any holder ? ask when holder eq none goto Asked;", 0,
     ""),
    ("from holder ? back(count) goto Free;", "from holder ? back(count) when count lt 2 goto Free;",
     19, "`count lt 2` sees the old `count`, from before the guard, and not the value that comes"),
    ("to home ! back(count) goto Idle;", "to home ! back(4) goto Idle;", 39,
     "`4` is beyond the bound of message `back`, int 4, so 0 is kept"),
    ("to home ! back(count) goto Idle;", "to home ! back(count + 1) goto Idle;", 0, ""),
    ("message give down int 4;", "message give down int 3;", 12,
     "`count` may be up to 3, and message `give`, int 3 keeps numbers below 3"),
    ("message give down int 4;", "message give down int 5;", 32, "carries numbers below 5"),
    ("do count = count + 1 goto", "do count = 9 goto", 35, "`9` is beyond the bound of `count`"),
    ("when count lt 3", "when count eq 4", 36, "`count eq 4` never holds"),
    ("when count lt 3", "when 4 le count", 36, "`4 le count` never holds"),
    ("when count lt 3", "when count lt 4", 0, ""),
    ("when count lt 3", "when count lt 2 and 2 lt count", 36, "conditions on `count` never hold"),
    ("when count lt 3", "when count lt 3 and count ne 0 and 1 le count", 0, ""),
    ("do waiting = waiting - holder goto Taken", "goto Taken", 0, ""),
    ("atmost 1 in Use Back;", "not Use with Use;", 0, ""),
    (" do waiting = waiting + holder goto Free", " do count = 0 goto Free", 12,
     "never meets a remote: `waiting` is empty throughout"),
]


def advised(text):
    """The advice on a text, by lines."""
    from advice import advice
    from faults import first_fault
    from protocol import read_protocol

    file = read_protocol(text)
    assert first_fault(file) is None, text
    return [(one.line, one.text) for one in advice(file)]


def try_advise(tried):
    """Advice on edits by hand; silence on the library; and nothing against tools/walk."""
    tried.see("advise: clean", advised(CLEAN) == [], advised(CLEAN))
    for old, new, line, says in ADVISED:
        found = advised(CLEAN.replace(old, new, 1))
        good = not found if line == 0 else any(
            one[0] == line and says in one[1] for one in found)
        tried.see("advise: %s" % new, old in CLEAN and good, found)
    library = protocol_files("examples/library")
    tried.see("advise: the library", tried.tool("advise", library) == (0, "", ""), "it isn't quiet")
    for path in protocol_files():
        walked = tried.tool("walk", [path, "2"])[1]
        never = re.search(r"guards never taken: (.*)", walked).group(1).split(", ")
        for process, state in re.findall(r"to state `(\w+)` of the (\w+)",
                                         tried.tool("advise", [path])[1]):
            with open(path, encoding="latin-1") as file:
                guards = len(re.findall(r"goto", re.search(r"state %s \{(.*?)\}" % process,
                                                           file.read(), re.S).group(1)))
            tried.see("advise: unreached, " + path, all(
                "%s %s/%d" % (state, process, number) in never for number in range(guards)), never)
    for text, status, says in (
            (CLEAN, 0, ""), (CLEAN.replace("count lt 3", "count eq 4"), 1, ""),
            ("protocol p;\nmessage a up\n", 2, ":3: code 1: The file ends here"),
            (CLEAN.replace("give(count)", "give(holder)"), 2, ":12: code 14")):
        with kept(text) as path:
            found = tried.tool("advise", [path])
        tried.see("advise: its status", found[0] == status and says in found[2]
                  and bool(found[1]) == (status == 1), found)


# A file with comments everywhere, and how it is laid out.
LOOSE = """\
// front
protocol p;// name
// before a message


message a up  ;  message b down int 4;//both
home{var j node=none;//c
start A;
state A{from any j // who
 ? a//what
 goto A;to j!b(1+2)goto A;}}

// remote
remote {

// first
start R;state R{
// nothing
}//i
}//end
// last
"""
LAID_OUT = """\
// front
protocol p;  // name
// before a message

message a up;
message b down int 4;  //both
home {
  var j node = none;  //c
  start A;
  state A {
    // who
    //what
    from any j ? a goto A;
    to j ! b(1 + 2) goto A;
  }
}

// remote
remote {
  // first
  start R;
  state R {
    // nothing
  }  //i
}  //end
// last
"""


def try_format(tried):
    """A text by hand; every example: laid out twice is laid out once, `print` writes the same of it,
    and all comments are there in their order."""
    from layout import comments_in, laid_out
    from protocol import PIECE

    tried.see("format: by hand", laid_out(LOOSE) == LAID_OUT, laid_out(LOOSE))
    # Letters whose last byte is a blank of Unicode, in a comment.
    marked = "// \u00c5 \u00e0".encode("utf-8").decode("latin-1")
    tried.see("format: letters", laid_out(LOOSE.replace("// last", marked)).endswith(marked + "\n"), "cut")
    for path in protocol_files():
        with open(path, encoding="latin-1") as file:
            text = file.read()
        chance = random.Random(5)
        # The same tokens with blanks and line ends of chance, and comments among them.
        mixed = "".join(
            piece if not piece.isspace() else chance.choice([" ", "\n", "\n\n\n", "\t", " // x\n"])
            for piece in PIECE.findall(re.sub(r"//.*", " ", text)))
        for one in (text, mixed):
            laid = laid_out(one)
            tried.see("format: twice, " + path, laid_out(laid) == laid, "it changes again")
            tried.see("format: print, " + path, tried.rvc(["print", "/dev/stdin"], laid)
                      == tried.rvc(["print", path]), "print writes something else")
            tried.see("format: comments, " + path, comments_in(laid) == comments_in(one), "differ")
    with kept(LOOSE) as path:
        for words, status, text in ((["--check", path], 1, path + "\n"), ([path], 0, LAID_OUT),
                                    (["-i", path], 0, ""), (["--check", path], 0, ""),
                                    ([], 2, ""), (["-i"], 2, ""), ([path + "x"], 2, "")):
            found = tried.tool("format", words)
            tried.see("format %s" % words, found[:2] == (status, text), found)
    with kept("protocol p;\nmessage a up\n") as path:
        found = tried.tool("format", [path])
        tried.see("format: no protocol", found[:2] == (2, "") and ":3: code 1: The file ends here" in found[2],
                  found)
