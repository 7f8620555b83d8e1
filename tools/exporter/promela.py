"""Writes a machine in Promela, as one process of guarded steps, whose states Spin counts."""
from exporter.murphi import AND, ATOM, COMPARE, IMPLIES, NOT, OR, SUM, wrapped

MOST = 31


class Printer:
    """Writes one machine. A node or a set is a number whose bit J stands for remote J."""

    def __init__(self, machine):
        self.machine = machine

    # ------------------------------------------------------------ expressions

    def expression(self, it, least=IMPLIES):
        """The text of an expression, in parentheses where it binds less tightly than this."""
        text, bound = getattr(self, "of_" + it[0].replace(" ", "_"))(*it[1:])
        return text if bound >= least else "(%s)" % text

    def of_word(self, text):
        return text, ATOM

    def of_and(self, *parts):
        if not parts:
            return "true", ATOM
        return " && ".join(self.expression(part, COMPARE) for part in parts), AND

    def of_or(self, *parts):
        if not parts:
            return "false", ATOM
        return " || ".join(self.expression(part, COMPARE) for part in parts), OR

    def of_not(self, part):
        if part[0] == "equal":
            text, bound = self.of_equal(*part[1:])
            return text.replace(" == ", " != "), bound
        if part[0] == "compare" and part[1] == "=":
            return self.of_compare("!=", *part[2:])
        return "!" + self.expression(part, ATOM), COMPARE

    def of_compare(self, relation, left, right):
        return "%s %s %s" % (self.expression(left, SUM), "==" if relation == "=" else relation,
                             self.expression(right, SUM)), COMPARE

    def of_sum(self, sign, left, right):
        return "%s %s %s" % (self.expression(left, ATOM), sign, self.expression(right, ATOM)), SUM

    def of_choice(self, condition, yes, no):
        return "(%s -> %s : %s)" % (self.expression(condition), self.expression(yes),
                                    self.expression(no)), ATOM

    def of_ask(self, name, *arguments):
        return "%s(%s)" % (name, ", ".join(arguments)), ATOM

    def numbers(self):
        """The numbers of the remotes, as texts."""
        return [str(number) for number in range(self.machine.remotes)]

    def of_some(self, test):
        return self.of_or(*[test(remote) for remote in self.numbers()])

    def of_no_two(self, first, second):
        return self.of_and(*[("not", ("and", first(left), second(right)))
                             for left in self.numbers() for right in self.numbers()
                             if left != right])

    def of_at_most(self, most, test):
        return "%s <= %d" % (" + ".join(self.expression(test(remote), ATOM)
                                        for remote in self.numbers()), most), COMPARE

    # Sets of remotes.

    def mask(self, remotes, least=IMPLIES):
        """The number of a set."""
        text, bound = self.mask_of(*remotes)
        return text if bound >= least else "(%s)" % text

    def mask_of(self, what, *parts):
        """The number of a set, and how tightly it binds."""
        if what == "none":
            return "0", ATOM
        if what == "kept":
            return parts[0], ATOM
        if what == "just":
            return "1 << " + parts[0], SUM
        return ("%s | %s" if what == "with" else "%s & ~%s") % (
            self.mask(parts[0], ATOM), self.mask(parts[1], ATOM)), SUM

    def of_contains(self, remotes, remote):
        return "has(%s, %s)" % (self.mask(remotes), remote), ATOM

    def of_equal(self, left, right):
        return "%s == %s" % (self.mask(left, ATOM), self.mask(right, ATOM)), COMPARE

    def of_meet(self, left, right):
        return "(%s & %s) != 0" % (self.mask(left, ATOM), self.mask(right, ATOM)), COMPARE

    # ------------------------------------------------------------ statements

    def statements(self, items, indent):
        """The lines of statements, each with its semicolon."""
        lines = []
        for item in items:
            lines += getattr(self, "do_" + item[0].replace(" ", "_"))(indent, *item[1:])
        return lines

    def do_put(self, indent, place, value):
        return ["%s%s = %s;" % (indent, place, self.expression(value))]

    def do_put_set(self, indent, place, remotes, kind):
        return ["%s%s = %s;" % (indent, place, self.mask(remotes))]

    def do_when(self, indent, cases, otherwise):
        lines = [indent + "if"]
        for condition, items in cases:
            lines.append("%s:: %s ->" % (indent, self.expression(condition)))
            lines += self.statements(items, indent + "   ") or [indent + "   skip;"]
        lines.append(indent + ":: else" + (" ->" if otherwise else ""))
        return lines + self.statements(otherwise, indent + "   ") + [indent + "fi;"]

    def do_call(self, indent, name, *arguments):
        return ["%s%s(%s);" % (indent, name, ", ".join(
            argument if isinstance(argument, str) else self.expression(argument)
            for argument in arguments))]

    def do_must(self, indent, condition, text):
        return ["%sassert(%s);  /* %s */" % (indent, self.expression(condition), text)]

    def do_each(self, indent, body):
        return [line for remote in self.numbers()
                for line in self.statements(body(remote), indent)]

    # ------------------------------------------------------------ the whole

    def number_type(self, count):
        """The type of the numbers below this."""
        return "byte" if count <= 256 else "short" if count <= 32768 else "int"

    def declaration(self, field):
        """The declaration of a field."""
        kinds = {"flag": "bool", "enum": "mtype", "record": field.type[-1],
                 "remotes": self.number_type(2 ** self.machine.remotes)}
        kind = kinds.get(field.type[0]) or self.number_type(field.type[1])
        count = self.machine.remotes if field.of_remote else field.count
        text = "%s %s%s" % (kind, field.name, "[%d]" % count if count else "")
        if field.first and field.first != "0" and field.type[0] not in ("record", "flag"):
            text += " = " + field.first
        return text

    def types(self):
        """The declarations of types."""
        lines = ["mtype = {"] + wrapped("  " + ", ".join(
            member for members in self.machine.enums.values() for member in members), "") + ["};", ""]
        for record in self.machine.records:
            if record.about:
                lines.append("/* %s */" % record.about)
            lines.append("typedef %s {" % record.name)
            lines += ["  %s;%s" % (self.declaration(field),
                                   "  /* %s */" % field.about if field.about else "")
                      for field in record.fields]
            lines += ["};", ""]
        return lines

    def rule(self, rule):
        """The lines of a rule."""
        lines = ["  /* %s */" % about for about in rule.about or (rule.name,)]
        lines += wrapped("  :: d_step { %s ->" % self.expression(rule.condition), "       ")
        return lines + self.statements(rule.statements, "       ") + ["     }"]

    def macro(self, name, value):
        """A macro over as many lines as it needs."""
        lines = wrapped("#define %s %s" % (name, self.expression(value, ATOM)), "  ")
        return [line + " \\" for line in lines[:-1]] + lines[-1:]

    def text(self):
        """The whole model."""
        machine = self.machine
        lines = ["/* %s */" % line for line in machine.title]
        lines += ["", "#define has(s, r) (((s) >> (r)) & 1)", ""] + self.types()
        lines += [self.declaration(field) + ";" for field in machine.variables] + [""]
        for function in machine.functions:
            lines += ["/* %s */" % function.about]
            lines += self.macro("%s(%s)" % (function.name, ", ".join(
                name for name, _ in function.parameters)), function.value) + [""]
        for procedure in machine.procedures:
            lines += ["/* %s */" % procedure.about, "inline %s(%s) {" % (
                procedure.name, ", ".join(name for name, _ in procedure.parameters))]
            lines += self.statements(procedure.body, "  ") + ["}", ""]
        lines += ["active proctype Steps() {", "  do"]
        rules = [line for rule in machine.rules for line in self.rule(rule)]
        for remote in self.numbers():
            of_remote = [line for rule in machine.remote_rules(remote) for line in self.rule(rule)]
            rules += (["", "  /* remote %s */" % remote] if of_remote else []) + of_remote
        lines += rules or ["  :: false  /* nothing ever takes place */"]
        lines += ["  od", "}", ""]
        return "\n".join(lines + self.claims() + [""])

    def claims(self):
        """The process that finds a claim broken: it can go on only then."""
        if not self.machine.invariants:
            return []
        lines = []
        for number, (name, condition) in enumerate(self.machine.invariants):
            lines += ["/* %s */" % name] + self.macro("holds_%d" % number, condition)
        lines += ["", "active proctype Claims() {", "end_:", "  if"]
        for number in range(len(self.machine.invariants)):
            lines.append("  :: atomic { !holds_%d -> assert(false) }" % number)
        return lines + ["  fi", "}"]


def written(machine):
    """The text of the model."""
    return Printer(machine).text()
