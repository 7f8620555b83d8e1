"""Writes a machine in the language of Murphi, as rumur reads it."""
import re
import textwrap

WIDTH = 100
# What sets of remotes need, by the name under which it is used.
HELPERS = {
    "IsEmpty": """\
function IsEmpty(s: Remotes): boolean;
begin
  return forall i: Remote do !s[i] end;
end;""",
    "AreEqual": """\
function AreEqual(s: Remotes; t: Remotes): boolean;
begin
  return forall i: Remote do s[i] = t[i] end;
end;""",
    "HaveCommon": """\
function HaveCommon(s: Remotes; t: Remotes): boolean;
begin
  return exists i: Remote do s[i] & t[i] end;
end;""",
    "MakeEmpty": """\
procedure MakeEmpty(var s: Remotes);
begin
  for i: Remote do
    s[i] := false;
  end;
end;""",
    "MakeJust": """\
procedure MakeJust(var s: Remotes; r: Remote);
begin
  for i: Remote do
    s[i] := i = r;
  end;
end;""",
    "Include": """\
procedure Include(var s: Remotes; x: Remotes);
begin
  for i: Remote do
    s[i] := s[i] | x[i];
  end;
end;""",
    "Exclude": """\
procedure Exclude(var s: Remotes; x: Remotes);
begin
  for i: Remote do
    s[i] := s[i] & !x[i];
  end;
end;""",
}
# How tightly an operator binds; a looser one inside a tighter one needs parentheses.
IMPLIES, OR, AND, NOT, COMPARE, SUM, ATOM = range(7)


class Printer:
    """Writes one machine."""

    def __init__(self, machine, symmetric):
        self.machine, self.symmetric = machine, symmetric
        self.used = set()
        self.counts = []
        self.depth = 0

    # ------------------------------------------------------------ expressions

    def helper(self, name):
        """The name of a helper, which is written too then."""
        self.used.add(name)
        return name

    def expression(self, it, least=IMPLIES):
        """The text of an expression, in parentheses where it binds less tightly than this."""
        text, bound = getattr(self, "of_" + it[0].replace(" ", "_"))(*it[1:])
        return text if bound >= least else "(%s)" % text

    def of_word(self, text):
        return text, ATOM

    def of_and(self, *parts):
        if not parts:
            return "true", ATOM
        return " & ".join(self.expression(part, AND) for part in parts), AND

    def of_or(self, *parts):
        if not parts:
            return "false", ATOM
        return " | ".join(self.expression(part, OR) for part in parts), OR

    def of_not(self, part):
        if part[0] == "compare" and part[1] == "=":
            return self.of_compare("!=", *part[2:])
        return "!" + self.expression(part, ATOM), NOT

    def of_compare(self, relation, left, right):
        return "%s %s %s" % (self.expression(left, SUM), relation, self.expression(right, SUM)), COMPARE

    def of_sum(self, sign, left, right):
        loose = left[0] == "sum" and sign == "%"
        return "%s %s %s" % (self.expression(left, ATOM if loose else SUM), sign,
                             self.expression(right, ATOM)), SUM

    def of_choice(self, condition, yes, no):
        return "%s ? %s : %s" % (self.expression(condition, COMPARE), self.expression(yes, ATOM),
                                 self.expression(no, ATOM)), IMPLIES

    def of_ask(self, name, *arguments):
        return "%s(%s)" % (name, ", ".join(arguments)), ATOM

    def bound_names(self, count):
        """Names for the remotes of a quantifier, and the depth that they use."""
        names = ["ijklmnop"[self.depth + number] for number in range(count)]
        self.depth += count
        return names

    def of_some(self, test):
        name, = self.bound_names(1)
        text = "exists %s: Remote do %s end" % (name, self.expression(test(name)))
        self.depth -= 1
        return text, NOT

    def of_no_two(self, first, second):
        left, right = self.bound_names(2)
        text = ("forall %s: Remote do forall %s: Remote do\n      %s != %s -> !(%s & %s)\n"
                "    end end" % (left, right, left, right, self.expression(first(left), AND),
                                 self.expression(second(right), AND)))
        self.depth -= 2
        return text, NOT

    def of_at_most(self, most, test):
        if most < 2:
            if most == 0:
                name, = self.bound_names(1)
                text = "forall %s: Remote do !%s end" % (name, self.expression(test(name), ATOM))
                self.depth -= 1
                return text, NOT
            return self.of_no_two(test, test)
        name = "Count%d" % len(self.counts)
        self.counts.append("""\
function %s(): 0..%d;
  var count: 0..%d;
begin
  count := 0;
  for i: Remote do
    if %s then
      count := count + 1;
    end;
  end;
  return count;
end;""" % (name, self.machine.remotes, self.machine.remotes, self.expression(test("i"))))
        return "%s() <= %d" % (name, most), COMPARE

    # Sets of remotes: what is asked of one remote, and of whole sets.

    def has(self, remotes, remote):
        """That a remote is in a set, and how tightly that binds."""
        if remotes[0] == "none":
            return "false", ATOM
        if remotes[0] == "kept":
            return "%s[%s]" % (remotes[1], remote), ATOM
        if remotes[0] == "just":
            return "%s = %s" % (remote, remotes[1]), COMPARE
        left, right = [self.in_brackets(*self.has(side, remote)) for side in remotes[1:]]
        return ("%s | %s" if remotes[0] == "with" else "%s & !%s") % (left, right), OR

    @staticmethod
    def in_brackets(text, bound):
        """The text, in parentheses unless it is an atom."""
        return text if bound == ATOM else "(%s)" % text

    def of_contains(self, remotes, remote):
        return self.has(remotes, remote)

    def of_equal(self, left, right):
        if left[0] == "none":
            left, right = right, left
        if left[0] == "kept" and right[0] == "none":
            return "%s(%s)" % (self.helper("IsEmpty"), left[1]), ATOM
        if left[0] == "kept" and right[0] == "kept":
            return "%s(%s, %s)" % (self.helper("AreEqual"), left[1], right[1]), ATOM
        return self.quantified("forall", left, "=", right)

    def of_meet(self, left, right):
        if left[0] == "kept" and right[0] == "kept":
            return "%s(%s, %s)" % (self.helper("HaveCommon"), left[1], right[1]), ATOM
        return self.quantified("exists", left, "&", right)

    def quantified(self, quantifier, left, between, right):
        """A statement of each remote, or of some, by two sets."""
        name, = self.bound_names(1)
        sides = [self.in_brackets(*self.has(side, name)) for side in (left, right)]
        self.depth -= 1
        return "%s %s: Remote do %s %s %s end" % (quantifier, name, sides[0], between, sides[1]), NOT

    # ------------------------------------------------------------ statements

    def statements(self, items, indent):
        """The lines of statements."""
        lines = []
        for item in items:
            lines += getattr(self, "do_" + item[0].replace(" ", "_"))(indent, *item[1:])
        return lines

    def do_put(self, indent, place, value):
        return ["%s%s := %s;" % (indent, place, self.expression(value))]

    def do_copy(self, indent, place, other):
        return ["%s%s := %s;" % (indent, place, other)]

    def do_put_set(self, indent, place, remotes, kind):
        if remotes[0] == "none":
            return ["%s%s(%s);" % (indent, self.helper("MakeEmpty"), place)]
        if remotes[0] == "just":
            return ["%s%s(%s, %s);" % (indent, self.helper("MakeJust"), place, remotes[1])]
        if remotes[0] == "kept":
            return ["%s%s := %s;" % (indent, place, remotes[1])] if remotes[1] != place else []
        lines = self.do_put_set(indent, place, remotes[1], kind)
        name = self.helper("Include" if remotes[0] == "with" else "Exclude")
        return lines + ["%s%s(%s, %s);" % (indent, name, place, remotes[2][1])]

    def do_when(self, indent, cases, otherwise):
        lines = []
        for number, (condition, items) in enumerate(cases):
            lines.append("%s%s %s then" % (indent, "elsif" if number else "if",
                                           self.expression(condition)))
            lines += self.statements(items, indent + "  ")
        if otherwise:
            lines += [indent + "else"] + self.statements(otherwise, indent + "  ")
        return lines + [indent + "end;"]

    def do_call(self, indent, name, *arguments):
        return ["%s%s(%s);" % (indent, name, ", ".join(
            argument if isinstance(argument, str) else self.expression(argument)
            for argument in arguments))]

    def do_must(self, indent, condition, text):
        return ["%sassert %s \"%s\";" % (indent, self.expression(condition), text)]

    def do_each(self, indent, body):
        name, = self.bound_names(1)
        lines = (["%sfor %s: Remote do" % (indent, name)]
                 + self.statements(body(name), indent + "  ") + [indent + "end;"])
        self.depth -= 1
        return lines

    # ------------------------------------------------------------ types and rules

    def type(self, kind):
        """A type's text."""
        if kind[0] == "number":
            return "0..%d" % (kind[1] - 1)
        return {"remotes": "Remotes", "flag": "boolean", "remote": "Remote"}.get(kind[0]) or kind[1]

    def field(self, field):
        """The text of a field's type."""
        text = self.type(field.type)
        if field.count:
            text = "array [0..%d] of %s" % (field.count - 1, text)
        return "array [Remote] of " + text if field.of_remote else text

    def types(self):
        """The declarations of types."""
        remote = "scalarset(%d)" if self.symmetric else "0..%d"
        lines = ["type", "  Remote: %s;" % (remote % (
            self.machine.remotes - (0 if self.symmetric else 1)))]
        lines += ["  -- a node is the set of one remote or of none",
                  "  Remotes: array [Remote] of boolean;"]
        for name, members in self.machine.enums.items():
            lines += wrapped("  %s: enum { %s };" % (name, ", ".join(members)), "    ")
        for record in self.machine.records:
            if record.about:
                lines.append("  -- " + record.about)
            lines.append("  %s: record" % record.name)
            for field in record.fields:
                about = "  -- " + field.about if field.about else ""
                lines.append("    %s: %s;%s" % (field.name, self.field(field), about))
            lines.append("  end;")
        return lines

    def start_of(self, place, field, indent):
        """The statements that give a field its first value."""
        if field.of_remote:
            name, = self.bound_names(1)
            one = vars(field).copy()
            one.update(of_remote=False)
            lines = (["%sfor %s: Remote do" % (indent, name)]
                     + self.start_of("%s[%s]" % (place, name), type(field)(**one), indent + "  ")
                     + [indent + "end;"])
            self.depth -= 1
            return lines
        if field.count:
            one = vars(field).copy()
            one.update(count=0)
            return [line for number in range(field.count)
                    for line in self.start_of("%s[%d]" % (place, number), type(field)(**one), indent)]
        if field.type[0] == "record":
            record, = [record for record in self.machine.records if record.name == field.type[1]]
            return [line for inner in record.fields
                    for line in self.start_of("%s.%s" % (place, inner.name), inner, indent)]
        if field.type[0] == "remotes":
            return ["%s%s(%s);" % (indent, self.helper("MakeEmpty"), place)]
        first = "false" if field.type[0] == "flag" else field.first or "0"
        return ["%s%s := %s;" % (indent, place, first)]

    def rule(self, rule, indent):
        """The lines of a rule."""
        lines = ["%s-- %s" % (indent, about) for about in rule.about]
        lines.append('%srule "%s"' % (indent, rule.name))
        lines += wrapped("%s  %s" % (indent, self.expression(rule.condition)), indent + "  ")
        lines += [indent + "==>", indent + "begin"]
        return lines + self.statements(rule.statements, indent + "  ") + [indent + "end;", ""]

    def returned(self, value):
        """The statements by which a function answers this."""
        lines = []
        while value[0] == "choice":
            lines += wrapped("  %s %s then" % ("elsif" if lines else "if",
                                               self.expression(value[1])), "    ")
            lines.append("    return %s;" % self.expression(value[2]))
            value = value[3]
        if value[0] == "or" and len(value) > 3:
            parts = [self.expression(part, OR) for part in value[1:]]
            last = ["  return " + parts[0]] + ["    | " + part for part in parts[1:]]
            last[-1] += ";"
        else:
            last = wrapped("  return %s;" % self.expression(value), "    ")
        return lines + ["  else"] + ["  " + line for line in last] + ["  end;"] if lines else last

    def functions(self):
        """The functions and procedures of the machine."""
        lines = []
        for function in self.machine.functions:
            head = "; ".join("%s: %s" % (name, self.type(kind)) for name, kind in function.parameters)
            lines += ["-- " + function.about, "function %s(%s): %s;" % (
                function.name, head, self.type(function.type)), "begin"]
            lines += self.returned(function.value) + ["end;", ""]
        for procedure in self.machine.procedures:
            head = "; ".join("%s: %s" % (name, self.type(kind)) for name, kind in procedure.parameters)
            lines += ["-- " + procedure.about, "procedure %s(%s);" % (procedure.name, head), "begin"]
            lines += self.statements(procedure.body, "  ") + ["end;", ""]
        return lines

    def text(self):
        """The whole model."""
        machine = self.machine
        functions = self.functions()
        start = ["startstate", "begin"]
        for field in machine.variables:
            start += self.start_of(field.name, field, "  ")
        start += ["end;", ""]
        rules = []
        for rule in machine.rules:
            rules += self.rule(rule, "")
        of_remote = []
        for rule in machine.remote_rules("r"):
            of_remote += self.rule(rule, "  ")
        if of_remote:
            rules += ["ruleset r: Remote do", ""] + of_remote + ["end;", ""]
        if not rules:
            rules = ["-- no event ever takes place", 'rule "nothing" false ==> begin end;', ""]
        invariants = []
        for name, condition in machine.invariants:
            invariants += ['invariant "%s"' % name]
            invariants += wrapped("    %s;" % self.expression(condition), "    ") + [""]
        lines = ["-- " + line for line in machine.title] + [""] + self.types() + ["", "var"]
        lines += ["  %s: %s;" % (field.name, self.field(field)) for field in machine.variables] + [""]
        for name in HELPERS:
            if name in self.used:
                lines += [HELPERS[name], ""]
        for count in self.counts:
            functions += [count, ""]
        return "\n".join(lines + functions + start + rules + invariants)


def wrapped(text, indent):
    """The text in lines that aren't too long; a line ends behind a comma, an `and` or an `or`."""
    lines = []
    for line in text.split("\n"):
        held = re.sub(r"(?<![&|,{]) (?=\S)", "\0", line)
        head = len(held) - len(held.lstrip(" \0"))
        parts = textwrap.wrap(held[head:], WIDTH - head, subsequent_indent=indent[head:] + "  ",
                              break_long_words=False, break_on_hyphens=False) or [""]
        lines += [(line[:head] + part).replace("\0", " ") for part in parts]
    return lines


def written(machine, symmetric):
    """The text of the model."""
    return Printer(machine, symmetric).text()
