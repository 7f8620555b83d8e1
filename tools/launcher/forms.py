"""The forms of the command line, as docs/FORMATS.md has them."""
import difflib
import re

# The words of each command behind its name, and the commands that read standard input.
FORMS = {
    "print": ["PATH"],
    "check": ["PATH"],
    "rv": ["PATH", "N"],
    "run": ["PATH", "N", "K", "MODE"],
    "drive": ["PATH", "N", "K", "MODE", "COUNT", "SEED"],
    "lossy": ["PATH", "N", "K", "MODE"],
    "lines": ["PATH", "N", "K", "MODE", "C"],
    "audit": ["PATH", "N"],
    "store": ["PATH", "MODE"],
    "boot": ["PATH", "N", "K"],
    "table": ["PATH", "MODE"],
    "json": ["PATH", "MODE"],
    "example": ["NAME"],
}
READ_STANDARD_INPUT = ["rv", "run", "lossy", "lines", "audit", "boot"]
MODES = ["plain", "lean"]
EXAMPLES = ["migratory", "invalidate"]
PLACES = ["first", "second", "third", "fourth", "fifth", "sixth", "seventh"]
MOST_TURNS = 100000
MOST_SEED = 2**64 - 1


def is_text(word):
    """Says whether a word is UTF-8."""
    return not any("\udc80" <= letter <= "\udcff" for letter in word)


def path_in(words):
    """The PATH in words that have a form, or None."""
    if word_fault(words) is None and FORMS[words[0]][0] == "PATH":
        return words[1]
    return None


def is_number(word, most):
    """Says whether a word is a number up to this one, in decimal without leading zeros."""
    digits = len(str(most))
    return re.fullmatch("0|[1-9][0-9]*", word) is not None and len(word) <= digits and (
        int(word) <= most)


def word_fault(words):
    """Which of the words has no form and what it may be, as a sentence; None where all have one."""
    wrong = [place for place, word in enumerate(words) if not is_text(word)]
    if wrong:
        return "%s isn't UTF-8." % nth_word(wrong[0])
    if not words:
        return "No command is given. " + commands()
    command = words[0]
    if command not in FORMS:
        if command == "--help":
            return "`--help` takes no other argument: ./rvc --help"
        return "`%s` is no command%s. %s" % (shown(command), guess(command, FORMS), commands())
    form = FORMS[command]
    written = "%s %s" % (command, " ".join(form))
    given = len(words) - 1
    if given < len(form):
        return "After `%s` the %s is missing (%s). %s" % (
            " ".join(map(shown, words)),
            form[given],
            written,
            meaning(form[given]),
        )
    if given > len(form):
        extra = shown(words[len(form) + 1])
        advice = ""
        if form[0] == "PATH":
            advice = " A path with a space in it needs quotes."
        return "After %s the argument `%s` is one too many.%s" % (written, extra, advice)
    for name, word in zip(form, words[1:]):
        if not MEANT[name](word):
            return "In %s, `%s` is no %s: %s%s" % (
                written, shown(word), name, meaning(name), near(name, word))
    return None


MEANT = {
    "PATH": lambda word: True,
    "N": lambda word: is_number(word, 64) and int(word) >= 1,
    "K": lambda word: is_number(word, 64) and int(word) >= 2,
    "C": lambda word: is_number(word, 16) and int(word) >= 1,
    "COUNT": lambda word: is_number(word, MOST_TURNS),
    "SEED": lambda word: is_number(word, MOST_SEED),
    "MODE": lambda word: word in MODES,
    "NAME": lambda word: word in EXAMPLES,
}


def meaning(name):
    """What a word of a form may be."""
    return {
        "PATH": "PATH is the path of a protocol file, and with boot that of a control store.",
        "N": "N is from 1 to 64, in decimal without leading zeros: the number of remotes.",
        "K": "K is from 2 to 64, in decimal without leading zeros: the number of the home's slots.",
        "MODE": "MODE is plain or lean.",
        "C": "C is from 1 to 16, in decimal without leading zeros: the number of cache lines.",
        "COUNT": "COUNT is from 0 to %d, in decimal without leading zeros: the most steps that are "
        "taken." % MOST_TURNS,
        "SEED": "SEED is from 0 to %d, in decimal without leading zeros: the number that chooses "
        "the steps." % MOST_SEED,
        "NAME": "NAME is migratory or invalidate.",
    }[name]


def near(name, word):
    """The word that may have been meant, as a sentence to follow another."""
    known = {"MODE": MODES, "NAME": EXAMPLES}.get(name, [])
    found = difflib.get_close_matches(word.lower(), known, 1)
    return " Is `%s` meant?" % found[0] if found else ""


def guess(command, known):
    """The command that may have been meant, in parentheses."""
    found = difflib.get_close_matches(command.lower(), list(known) + ["help"], 1)
    if found and found[0] == "help" or command == "-h":
        return " (is `--help` meant?)"
    return " (is `%s` meant?)" % found[0] if found else ""


def commands():
    """The commands, as a sentence."""
    names = list(FORMS)
    return "The commands are %s and %s." % (", ".join(names[:-1]), names[-1])


def nth_word(place):
    """A word by its place, counted from 0, at the front of a sentence."""
    return "The %s argument" % PLACES[place] if place < len(PLACES) else "Argument %d" % (place + 1)


def shown(word):
    """A word as it can stand on a terminal."""
    kept = "".join(letter if letter.isprintable() else "?" for letter in word)
    return kept if len(kept) <= 60 else kept[:60] + ".."
