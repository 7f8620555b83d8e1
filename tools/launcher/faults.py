"""The first fault of a protocol, in words: which item has it, its code, and what of the item is
wrong, by the rules of docs/LANGUAGE.md.

`first_fault` goes through the items in the order of the file, as `check` does. The explanations
take its words only where its line and its code are those that the program answered.
"""
import difflib


class Fault:
    """A fault: the line of its item, its code, sentences on it, and the part of the file."""

    def __init__(self, code, sentences, part):
        self.code, self.sentences, self.part, self.line = code, sentences, part, part.line


def first_fault(file):
    """The first fault of a protocol (a Part of protocol.py), or None."""
    for found in faults_by_item(file):
        if found:
            return min(found, key=lambda fault: fault.code)
    return None


def faults_by_item(file):
    """The faults of each item, in the order of the file. A code stands once for an item."""
    yield long_name(file.header, "the protocol")
    for place, message in enumerate(file.messages):
        yield (
            over(place, 64, "message", "there are at most 64", message)
            + long_name(message, "the message")
            + twice(file.messages, place, "message")
            + bad_size(message.type, message)
        )
    for process in (file.home, file.remote):
        yield from faults_of_process(file, process)
    for place, claim in enumerate(file.claims):
        yield faults_of_claim(file, place, claim)


def faults_of_process(file, process):
    """The faults of each item of a process."""
    which = process.which
    for place, variable in enumerate(process.variables):
        yield (
            over(place, 16, "variable", "the %s has at most 16" % which, variable)
            + long_name(variable, "the variable")
            + twice(process.variables, place, "variable of the %s" % which)
            + wrong_initial(variable)
            + bad_size(variable.type, variable)
            + bad_initial(variable)
        )
    yield unknown(process.start, [(process.start.name, "state")], file, process)
    for place, state in enumerate(process.states):
        yield (
            over(place, 64, "state", "the %s has at most 64" % which, state)
            + long_name(state, "the state")
            + twice(process.states, place, "state of the %s" % which)
            + mixed(file, process, state)
        )
        for number, guard in enumerate(state.guards):
            yield faults_of_guard(file, process, number, guard)


def faults_of_claim(file, place, claim):
    """The faults of a claim."""
    found = over(place, 16, "claim", "there are at most 16", claim)
    if len(claim.states) > 64:
        found.append(Fault(10, ["The claim names %d states; at most 64 may be."
                                % len(claim.states)], claim))
    found += unknown(claim, [(name, "state") for name in claim.states], file, file.remote)
    if claim.number is not None and int(claim.number.text) > 64:
        found.append(Fault(19, ["`atmost %s`: the number is at most 64, since no run has more "
                                "remotes." % claim.number.text], claim))
    return found


def faults_of_guard(file, process, number, guard):
    """The faults of a guard."""
    found = over(number, 16, "guard of its state", "there are at most 16", guard)
    for count, what in [(len(guard.conditions), "comparisons"),
                        (len(guard.assignments), "assignments")]:
        if count > 8:
            found.append(Fault(10, ["The guard has %d %s; at most 8 may be." % (count, what)],
                               guard))
    names = unknown(guard, names_of(process, guard), file, process)
    found += names
    if not names:
        found += wrong_type(file, process, guard) + wrong_direction(file, process, guard)
    found += not_star(process, guard)
    if process.which == "remote" and guard.action == "to" and guard.conditions:
        condition = written(file, guard.conditions[0].first, guard.condition_last)
        found.append(Fault(18, ["The output `%s` has the condition `when %s`."
                                % (action_of(file, guard), condition)], guard))
    large = [piece for piece in numbers_of(guard) if int(piece.text) > 65535]
    if large:
        found.append(Fault(19, ["A number in a guard is at most 65535, and `%s` is more."
                                % large[0].text], guard))
    return found


def written(file, first, last):
    """The text from one piece to another, on one line, without comments."""
    rows = file.text[first.begin : last.end].split("\n")
    return " ".join(" ".join(row.split("//")[0] for row in rows).split())


def action_of(file, guard):
    """The action of a guard, as it is written."""
    return written(file, guard.first, guard.action_last)


def over(place, most, what, limit, part):
    """Code 10 where this is more than so many."""
    if place < most:
        return []
    return [Fault(10, ["This is %s number %d; %s." % (what, place + 1, limit)], part)]


def long_name(part, what):
    """Code 11 where a declared name is too long."""
    length = len(part.name.text)
    if length <= 32:
        return []
    sentence = "The name of %s has %d bytes; at most 32 may be." % (what, length)
    return [Fault(11, [sentence], part)]


def twice(parts, place, what):
    """Code 12 where an earlier part has the same name."""
    part = parts[place]
    for earlier in parts[:place]:
        if earlier.name.text == part.name.text:
            sentence = "A %s `%s` is declared already, on line %d." % (
                what, part.name.text, earlier.line)
            return [Fault(12, [sentence], part)]
    return []


def names_of(process, guard):
    """The names that are looked up in a guard, each with what it has to be."""
    names = [(guard.goto, "state")]
    if guard.message is not None:
        names.append((guard.message, "message"))
    partner = guard.partner
    if partner is not None and process.which == "home" and partner.kind != "home":
        names.append((partner.variable, "variable"))
        if partner.set is not None:
            names.append((partner.set, "variable"))
    names += [(piece, "variable") for piece in variables_used(guard)]
    return sorted(names, key=lambda name: name[0].begin)


def variables_used(guard):
    """The variables of a guard, but for those of its partner."""
    names = [guard.bound] if guard.bound is not None else []
    names += [assignment.variable for assignment in guard.assignments]
    for value in expressions_of(guard):
        names += [term for term in value.terms if term.kind == "a name"]
    return names


def expressions_of(guard):
    """The expressions of a guard."""
    values = [guard.value] if guard.value is not None else []
    for condition in guard.conditions:
        values += [condition.left, condition.right]
    return values + [assignment.value for assignment in guard.assignments]


def numbers_of(guard):
    """The numbers of a guard."""
    return [term for value in expressions_of(guard) for term in value.terms
            if term.kind == "a number"]


def declared(file, process, what):
    """The parts that declare names of this sort where this process stands."""
    return {
        "state": process.states,
        "variable": process.variables,
        "message": file.messages,
    }[what]


def unknown(part, names, file, process):
    """Code 13 with the names that no declaration has."""
    sentences, seen = [], set()
    for piece, what in names:
        known = [other.name.text for other in declared(file, process, what)]
        if piece.text in known or (piece.text, what) in seen:
            continue
        seen.add((piece.text, what))
        owner = "" if what == "message" else " of the %s" % process.which
        sentence = "No %s%s is named `%s`%s." % (
            what, owner, piece.text, elsewhere(piece.text, what, file, process))
        close = difflib.get_close_matches(piece.text, known, 1)
        if close:
            sentence += " Is `%s` meant?" % close[0]
        elif known and len(known) <= 16:
            sentence += " There %s: %s." % ("are" if len(known) > 1 else "is", ", ".join(known))
        elif not known:
            sentence += " None is declared."
        sentences.append(sentence)
    return [Fault(13, sentences, part)] if sentences else []


def elsewhere(name, what, file, process):
    """What else has this name, as words to follow a sentence."""
    other = file.remote if process is file.home else file.home
    for kind, owner in [("message", process), ("variable", process), ("state", process),
                        ("variable", other), ("state", other)]:
        if (kind, owner) == (what, process):
            continue
        for part in declared(file, owner, kind):
            if part.name.text == name:
                of = "" if kind == "message" else " of the %s" % owner.which
                return ", which is a %s%s (line %d)" % (kind, of, part.line)
    return ""


def type_text(kind):
    """A type as it is written."""
    word, size = kind
    return "int %s" % size.text if size is not None else word


def wrong_initial(variable):
    """Code 14 where the first value of a variable isn't of its type."""
    word = variable.type[0]
    right = {"int": "a number", "node": "none", "set": "empty"}[word]
    if variable.initial.kind == right:
        return []
    first = "a number below its N" if word == "int" else "`%s`" % right
    sentence = "`%s` is declared %s, and %s begins with %s; here is `%s`." % (
        variable.name.text, type_text(variable.type), article(word), first, variable.initial.text)
    return [Fault(14, [sentence], variable)]


def article(word):
    """A type's word with its article."""
    return ("an " if word == "int" else "a ") + word


def bad_size(kind, part):
    """Code 19 where the N of an int is out of range."""
    if kind is None or kind[1] is None or 2 <= int(kind[1].text) <= 65536:
        return []
    sentence = "`%s`: the N of an int is from 2 to 65536." % type_text(kind)
    return [Fault(19, [sentence], part)]


def bad_initial(variable):
    """Code 19 where the first number of a variable isn't below its N."""
    word, size = variable.type
    if word != "int" or variable.initial.kind != "a number":
        return []
    if int(variable.initial.text) < int(size.text):
        return []
    sentence = "`%s` holds numbers below %s, and begins with %s." % (
        variable.name.text, size.text, variable.initial.text)
    return [Fault(19, [sentence], variable)]


def mixed(file, process, state):
    """Code 17: a state of the remote with an output and another guard."""
    outputs = [guard for guard in state.guards if guard.action == "to"]
    if process.which != "remote" or not outputs or len(state.guards) == 1:
        return []
    others = [guard for guard in state.guards if guard is not outputs[0]]
    texts = ["`%s` on line %d" % (action_of(file, guard), guard.line) for guard in others[:4]]
    if len(others) > 4:
        texts.append("%d more" % (len(others) - 4))
    sentence = "State `%s` has the output `%s` on line %d, and beside it %s." % (
        state.name.text, action_of(file, outputs[0]), outputs[0].line, listed(texts))
    return [Fault(17, [sentence], state)]


def listed(texts):
    """Texts in a row, with `and` before the last."""
    return texts[0] if len(texts) == 1 else ", ".join(texts[:-1]) + " and " + texts[-1]


def not_star(process, guard):
    """Code 16: whom a guard names that it can't meet."""
    if guard.partner is None:
        return []
    if process.which == "home" and guard.partner.kind == "home":
        return [Fault(16, ["This is a guard of the home, and names `home` as its partner; it has "
                           "to name remotes: a node variable x, `any x` or `any x in s`."], guard)]
    if process.which == "remote" and guard.partner.kind != "home":
        return [Fault(16, ["This is a guard of the remote, and its partner can only be `home`: "
                           "remotes speak to one another through the home."], guard)]
    return []


def wrong_direction(file, process, guard):
    """Code 15: a message that goes the other way."""
    if guard.message is None:
        return []
    message = by_name(file.messages, guard.message)
    sends = guard.action == "to"
    if (message.way == "down") == (sends == (process.which == "home")):
        return []
    sentence = "The %s %s `%s`, and line %d declares that it goes %s, from %s." % (
        process.which, "sends" if sends else "takes", message.name.text, message.line,
        message.way,
        "the home to a remote" if message.way == "down" else "a remote to the home")
    return [Fault(15, [sentence], guard)]


def by_name(parts, piece):
    """The first part that declares this name."""
    return next(part for part in parts if part.name.text == piece.text)


def wrong_type(file, process, guard):
    """Code 14 of a guard: what doesn't agree, and the declared types of the names in it."""
    types = {"none": "node", "empty": "set", "a number": "int"}

    def of(piece):
        if piece.kind in types:
            return types[piece.kind]
        return by_name(process.variables, piece).type[0]

    reasons = []

    def value_of(value):
        kinds = [of(term) for term in value.terms]
        if len(kinds) == 1 or kinds == ["int", "int"]:
            return kinds[0]
        if kinds == ["set", "node"]:
            return "set"
        reasons.append("`%s`: `%s` joins two ints, or a set and then a node; these are %s "
                       "and %s." % (written(file, value.first, value.last), value.operator,
                                    article(kinds[0]), article(kinds[1])))
        return None

    wrong_partner(process, guard, of, reasons)
    wrong_value(file, guard, of, value_of, reasons)
    for condition in guard.conditions:
        wrong_comparison(file, condition, value_of, reasons)
    for assignment in guard.assignments:
        kind, stored = of(assignment.variable), value_of(assignment.value)
        if stored is not None and stored != kind:
            reasons.append("`%s`: %s isn't stored in %s." % (
                written(file, assignment.first, assignment.last), article(stored), article(kind)))
    if not reasons:
        return []
    return [Fault(14, reasons[:3] + declarations(file, process, guard), guard)]


def wrong_partner(process, guard, of, reasons):
    """Adds why the partner of a guard of the home has a wrong type."""
    partner = guard.partner
    if partner is None or process.which == "remote" or partner.kind == "home":
        return
    if of(partner.variable) != "node":
        reasons.append("A partner is a node, and `%s` is %s." % (
            partner.variable.text, article(of(partner.variable))))
    if partner.set is not None and of(partner.set) != "set":
        reasons.append("After `in` comes a set, and `%s` is %s." % (
            partner.set.text, article(of(partner.set))))


def wrong_value(file, guard, of, value_of, reasons):
    """Adds why what a guard sends or binds doesn't agree with its message."""
    if guard.message is None:
        return
    message = by_name(file.messages, guard.message)
    name, carried = message.name.text, message.type and message.type[0]
    if guard.bound is not None and carried is None:
        reasons.append("`%s` carries nothing that `%s` could hold." % (name, guard.bound.text))
    elif guard.bound is not None and of(guard.bound) != carried:
        reasons.append("`%s` carries %s, and `%s` is %s." % (
            name, article(carried), guard.bound.text, article(of(guard.bound))))
    if guard.action != "to":
        return
    if guard.value is None:
        if carried is not None:
            reasons.append("`%s` carries %s, so a value has to follow it in parentheses."
                           % (name, article(carried)))
        return
    sent = value_of(guard.value)
    if carried is None:
        reasons.append("`%s` carries nothing, so no value may follow it." % name)
    elif sent is not None and sent != carried:
        reasons.append("`%s` carries %s, and `%s` is %s." % (
            name, article(carried), written(file, guard.value.first, guard.value.last),
            article(sent)))


def wrong_comparison(file, condition, value_of, reasons):
    """Adds why a comparison has a wrong type."""
    left, right = value_of(condition.left), value_of(condition.right)
    if left is None or right is None:
        return
    relation = condition.relation
    if relation in ("eq", "ne"):
        right_so, wants = left == right, "two values of one type"
    elif relation in ("lt", "le"):
        right_so, wants = left == right == "int", "two ints"
    else:
        right_so, wants = (left, right) == ("node", "set"), "a node before it and a set after it"
    if not right_so:
        reasons.append("`%s`: `%s` wants %s; these are %s and %s." % (
            written(file, condition.first, condition.last), relation, wants, article(left),
            article(right)))


def declarations(file, process, guard):
    """A sentence with the declared types of the names in a guard."""
    texts, seen = [], set()
    for piece, what in names_of(process, guard):
        if what == "state" or (piece.text, what) in seen:
            continue
        seen.add((piece.text, what))
        part = by_name(declared(file, process, what), piece)
        if what == "message":
            carried = type_text(part.type) if part.type else "nothing"
            texts.append("message `%s` carries %s (line %d)" % (piece.text, carried, part.line))
        else:
            texts.append("`%s` is %s (line %d)" % (piece.text, type_text(part.type), part.line))
    return ["Declared: %s." % "; ".join(texts)] if texts else []
