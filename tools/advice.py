"""What may be a mistake in a well-formed protocol: unused parts, states without a path, guards that
are never taken, conditions that see old values or can't hold, numbers that are cut.

Each rule looks at the text alone, by docs/LANGUAGE.md; nothing is run. `advice` answers a list of
Advice in the order of the lines.
"""
import collections

from faults import action_of, by_name, listed, written

# The line, the Part or Piece that it is about, and sentences: what it is, and what to do.
Advice = collections.namedtuple("Advice", "line part text")


def advice(file):
    """All advice on a well-formed protocol, a Part of protocol.py."""
    found = unused_messages(file)
    for process in (file.home, file.remote):
        found += unused_variables(process)
        found += unreached_states(file, process)
        for state in process.states:
            for number, guard in enumerate(state.guards):
                found += hidden_guard(file, process, state, number)
                found += old_value(file, guard)
                found += cut_numbers(file, process, guard)
                found += impossible(file, process, guard)
                found += without_target(file, process, guard)
    found += idle_claims(file)
    return sorted(found, key=lambda one: one.part.first.begin
                  if hasattr(one.part, "first") else one.part.begin)


def guards_of(process):
    """All guards of a process."""
    return [guard for state in process.states for guard in state.guards]


def unused_messages(file):
    """Messages that one side or both never name."""
    found = []
    for message in file.messages:
        name = message.name.text
        sends, takes = ([guard for process in (file.home, file.remote) for guard in guards_of(process)
                         if guard.action == action and guard.message.text == name]
                        for action in ("to", "from"))
        sender, taker = ("remote", "home") if message.way == "up" else ("home", "remote")
        if not sends and not takes:
            found.append(Advice(message.line, message, "Message `%s` isn't used. Remove it, or send "
                                "it and take it." % name))
        elif not takes:
            found.append(Advice(message.line, message, "Message `%s` is sent (line %d) and never "
                                "taken, so its sender waits for ever. Add an input to the %s."
                                % (name, sends[0].line, taker)))
        elif not sends:
            found.append(Advice(message.line, message, "Message `%s` is taken (line %d) and never "
                                "sent. Add an output to the %s, or remove the input."
                                % (name, takes[0].line, sender)))
    return found


def expressions(guard):
    """The expressions that a guard computes."""
    values = [guard.value] if guard.value is not None else []
    for condition in guard.conditions:
        values += [condition.left, condition.right]
    return values + [assignment.value for assignment in guard.assignments]


def names_in(expression):
    """The variables of an expression."""
    return [term.text for term in expression.terms if term.kind == "a name"]


def partner_of(guard):
    """The partner of a guard of the home; None for a local step and for remotes."""
    return guard.partner if guard.partner is not None and guard.partner.kind != "home" else None


def reads(guard):
    """The variables that a guard reads. A right side that is the assigned variable and one more
    operand, as in `c = c + 1`, reads only what it adds."""
    found = []
    partner = partner_of(guard)
    if partner is not None:
        found += [partner.set.text] if partner.set is not None else []
        found += [partner.variable.text] if partner.kind != "any" else []
    counted = {id(assignment.value): assignment.variable.text for assignment in guard.assignments}
    for expression in expressions(guard):
        found += [name for name in names_in(expression) if name != counted.get(id(expression))]
    return found


def writes(guard):
    """The variables that a guard binds or assigns, but for the one of `any`."""
    bound = [guard.bound.text] if guard.bound is not None else []
    return bound + [assignment.variable.text for assignment in guard.assignments]


def unused_variables(process):
    """Variables that nothing reads."""
    found = []
    for variable in process.variables:
        name = variable.name.text
        guards = guards_of(process)
        if any(name in reads(guard) for guard in guards):
            continue
        bound = [guard for guard in guards if partner_of(guard) is not None
                 and partner_of(guard).kind == "any" and partner_of(guard).variable.text == name]
        written_in = [guard for guard in guards if name in writes(guard)]
        if bound and not written_in:
            # `any` has to name a variable, whether that is read or not.
            continue
        if written_in:
            text = ("Variable `%s` of the %s is written (line %d) and never read. Remove it and its "
                    "assignments, or leave the value of the message unbound." % (
                        name, process.which, written_in[0].line))
        else:
            text = "Variable `%s` of the %s isn't used. Remove it." % (name, process.which)
        found.append(Advice(variable.line, variable, text))
    return found


def reached(file, process):
    """The states that some path of guards leads to."""
    by_state = {state.name.text: state for state in process.states}
    seen, todo = set(), [process.start.name.text]
    while todo:
        name = todo.pop()
        if name in seen:
            continue
        seen.add(name)
        todo += [guard.goto.text for guard in by_state[name].guards if can_be_taken(file, guard)]
    return seen


def can_be_taken(file, guard):
    """Whether somebody sends what a guard takes, or takes what it sends."""
    if guard.message is None:
        return True
    other = {"to": "from", "from": "to"}[guard.action]
    return any(one.action == other and one.message.text == guard.message.text
               for process in (file.home, file.remote) for one in guards_of(process))


def unreached_states(file, process):
    """States that no path from the start leads to."""
    seen = reached(file, process)
    return [Advice(state.line, state, "No path leads from the start to state `%s` of the %s. Remove "
                   "it, or let a guard go to it." % (state.name.text, process.which))
            for state in process.states if state.name.text not in seen]


def hidden_guard(file, process, state, number):
    """A guard behind one without a condition that takes the same message of the same remotes."""
    guard = state.guards[number]
    for earlier in state.guards[:number]:
        if guard.action != "from" or earlier.action != "from" or earlier.conditions or (
                earlier.message.text != guard.message.text) or not covers(earlier, guard):
            continue
        return [Advice(guard.line, guard, "State `%s` of the %s takes `%s` on line %d already, without "
                       "a condition: the controllers always complete that guard, never this one. "
                       "Put this one first with a condition, or give that one a condition." % (
                           state.name.text, process.which, guard.message.text, earlier.line))]
    return []


def covers(earlier, later):
    """Whether each remote that a guard may meet may be met by an earlier one."""
    one, other = earlier.partner, later.partner
    if one.kind == "home" or one.kind == "any" and one.set is None:
        return True
    if one.kind != "any":
        return other.kind == one.kind and other.variable.text == one.variable.text
    return other.kind == "any" and other.set is not None and other.set.text == one.set.text


def old_value(file, guard):
    """A condition on a variable that the same guard binds: it sees the value from before."""
    partner = partner_of(guard)
    bound = {}
    if guard.action == "from" and guard.bound is not None:
        bound[guard.bound.text] = "the value that comes with `%s`" % guard.message.text
    if partner is not None and partner.kind == "any":
        bound[partner.variable.text] = "the remote that is met"
    found = []
    for condition in guard.conditions:
        sides = [[term.text for term in side.terms] for side in (condition.left, condition.right)]
        if partner is not None and partner.kind == "any" and (
                [partner.variable.text] in sides and ["none"] in sides):
            # The remote that is met is never none: this asks whether the variable is free.
            continue
        names = [name for side in (condition.left, condition.right) for name in names_in(side)
                 if name in bound]
        for name in dict.fromkeys(names):
            found.append(Advice(condition.line, condition, "The condition `%s` sees the old `%s`, from "
                                "before the guard, and not %s. Take the message first and decide by "
                                "a local step of the next state%s." % (
                                    written(file, condition.first, condition.last), name, bound[name],
                                    ", or use `any x in s`" if partner is not None
                                    and name == partner.variable.text else "")))
    return found


# Ranges. A range is a pair of the least and the greatest number.

def range_of(process, expression):
    """The range of an int expression; None where it isn't known, as where it may wrap."""
    ranges = []
    for term in expression.terms:
        if term.kind == "a number":
            ranges.append((int(term.text), int(term.text)))
            continue
        if term.kind != "a name":
            return None
        word, size = by_name(process.variables, term).type
        if word != "int":
            return None
        ranges.append((0, int(size.text) - 1))
    if len(ranges) == 1:
        return ranges[0]
    (low, high), (less, more) = ranges
    if expression.operator == "+":
        return (low + less, high + more) if high + more < 65536 else None
    return (low - more, high - less) if low >= more else None


def cut_numbers(file, process, guard):
    """Numbers that are sent, stored or bound where they don't fit: they are cut modulo the bound."""
    found = []

    def see(part, value, size, where):
        least = range_of(process, value)
        if least is None or least[1] < size:
            return
        text = written(file, value.first, value.last)
        if least[0] >= size:
            found.append(Advice(part.line, part, "`%s` is beyond the bound of %s, so %d is kept. "
                                "Use a number below %d, or raise the bound." % (
                                    text, where, least[0] % size, size)))
        elif len(value.terms) == 1:
            found.append(Advice(part.line, part, "`%s` may be up to %d, and %s keeps numbers below "
                                "%d: it may be cut. Use the same N for both." % (
                                    text, least[1], where, size)))

    if guard.action == "to" and guard.value is not None:
        kind = by_name(file.messages, guard.message).type
        if kind[0] == "int":
            see(guard, guard.value, int(kind[1].text), "message `%s`, int %s" % (
                guard.message.text, kind[1].text))
    for assignment in guard.assignments:
        kind = by_name(process.variables, assignment.variable).type
        if kind[0] == "int":
            see(assignment, assignment.value, int(kind[1].text), "`%s`, int %s" % (
                assignment.variable.text, kind[1].text))
    if guard.action == "from" and guard.bound is not None:
        carried = by_name(file.messages, guard.message).type
        kind = by_name(process.variables, guard.bound).type
        if kind[0] == "int" and int(carried[1].text) > int(kind[1].text):
            found.append(Advice(guard.line, guard, "`%s` carries numbers below %s, and `%s` keeps "
                                "numbers below %s: the value may be cut. Use the same N for both." % (
                                    guard.message.text, carried[1].text, guard.bound.text,
                                    kind[1].text)))
    return found


def impossible(file, process, guard):
    """Conditions that can't hold, by the ranges of their variables."""
    found, limits = [], {}
    for condition in guard.conditions:
        text = written(file, condition.first, condition.last)
        if never_holds(process, condition):
            found.append(Advice(condition.line, condition, "The condition `%s` never holds, so the "
                                "guard is never taken. Fix it, or remove the guard." % text))
            continue
        narrow(process, condition, limits)
    if not found and any(low > high for low, high in limits.values()):
        names = [name for name, (low, high) in limits.items() if low > high]
        found.append(Advice(guard.line, guard.conditions[0], "The conditions on %s never hold "
                            "together, so the guard is never taken. Fix them, or remove the guard."
                            % listed(["`%s`" % name for name in names])))
    return found


def never_holds(process, condition):
    """Whether one comparison can't hold."""
    texts = [[term.text for term in side.terms] + [side.operator]
             for side in (condition.left, condition.right)]
    relation = condition.relation
    if texts[0] == texts[1] and relation in ("ne", "lt"):
        return True
    if relation == "in" and (texts[1] == ["empty", None] or texts[0] == ["none", None]):
        return True
    left, right = (range_of(process, side) for side in (condition.left, condition.right))
    if left is None or right is None:
        return False
    return {"eq": left[1] < right[0] or right[1] < left[0], "lt": left[0] >= right[1],
            "le": left[0] > right[1], "ne": left == right and left[0] == left[1]}.get(relation, False)


def narrow(process, condition, limits):
    """Notes what a comparison of a variable with a number leaves of its range."""
    sides = [condition.left, condition.right]
    for place, side in enumerate(sides):
        other = sides[1 - place]
        if len(side.terms) != 1 or side.terms[0].kind != "a name" or (
                len(other.terms) != 1 or other.terms[0].kind != "a number"):
            continue
        name, number = side.terms[0].text, int(other.terms[0].text)
        low, high = limits.get(name) or range_of(process, side)
        relation = condition.relation
        if relation == "eq":
            low, high = max(low, number), min(high, number)
        elif relation in ("lt", "le") and place == 0:
            high = min(high, number - (relation == "lt"))
        elif relation in ("lt", "le"):
            low = max(low, number + (relation == "lt"))
        limits[name] = (low, high)


def without_target(file, process, guard):
    """A guard of the home whose partner can never be a remote."""
    partner = partner_of(guard)
    if partner is None:
        return []
    guards = guards_of(process)
    if partner.kind != "any":
        name = partner.variable.text
        named = any(name in writes(one) or partner_of(one) is not None
                    and partner_of(one).kind == "any" and partner_of(one).variable.text == name
                    for one in guards)
        if named:
            return []
        text = "`%s` is `none` throughout, since no guard gives it a value" % name
    elif partner.set is not None and not any(grows(partner.set.text, one) for one in guards):
        text = "`%s` is empty throughout, since no guard puts a remote into it" % partner.set.text
    else:
        return []
    return [Advice(guard.line, guard, "`%s` never meets a remote: %s. Assign to it before, or use "
                   "`any`." % (action_of(file, guard), text))]


def grows(name, guard):
    """Whether a guard may put a remote into a set: whether it binds it, or assigns more to it than
    `empty` or itself without a remote."""
    if guard.bound is not None and guard.bound.text == name:
        return True
    return any(assignment.variable.text == name and not (
        assignment.value.operator == "-" and assignment.value.terms[0].text == name
        or [term.text for term in assignment.value.terms] == ["empty"])
               for assignment in guard.assignments)


def idle_claims(file):
    """Claims that no run breaks, whatever the protocol does."""
    seen, found = reached(file, file.remote), []
    for claim in file.claims:
        lost = [name.text for name in claim.states if name.text not in seen]
        if lost and (claim.kind == "not" or len(lost) == len(claim.states)):
            found.append(Advice(claim.line, claim, "No remote ever comes to %s, so this claim says "
                                "nothing. Look for a typo in the claim, or for a missing path."
                                % listed(["`%s`" % name for name in dict.fromkeys(lost)])))
    return found
