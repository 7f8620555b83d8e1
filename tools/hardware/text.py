"""Laying out SystemVerilog: templates with @parts@, blocks and cases."""
import re


def filled(template, **parts):
    """The template's lines. A line that is one @part@ becomes the lines of that part, as far in as
    the line was; an @part@ within a line becomes its text."""
    lines = []
    for line in template.strip("\n").split("\n"):
        whole = re.fullmatch(r"( *)@(\w+)@", line)
        if whole:
            part = parts[whole.group(2)]
            part = part.split("\n") if isinstance(part, str) else part
            lines += [(whole.group(1) + piece).rstrip() for piece in part]
        else:
            lines.append(re.sub(r"@(\w+)@", lambda found: str(parts[found.group(1)]), line))
    return lines


def indented(lines):
    """The lines one level further in."""
    return ["  " + line for line in lines]


def block(head, lines):
    """`head begin .. end`, or nothing where there are no lines."""
    return [head + " begin"] + indented(lines) + ["end"] if lines else []


def case(of, arms, default=()):
    """A case with an arm for each constant; what it says of all others is `default`."""
    if not arms:
        return list(default)
    lines = ["case (%s)" % of]
    for constant, body in arms.items():
        lines += indented(block("%s:" % constant, body) or ["%s: ;" % constant])
    lines += indented(block("default:", list(default)) or ["default: ;"])
    return lines + ["endcase"]


def choice(arms):
    """`if .. else if ..` over (condition, lines); an empty condition is an else."""
    if not arms[0][0]:
        return arms[0][1]
    lines = []
    for condition, body in arms:
        if not lines:
            lines.append("if (%s) begin" % condition)
        else:
            lines[-1] = "end else if (%s) begin" % condition if condition else "end else begin"
        lines += indented(body) + ["end"]
        if not condition:
            break
    return lines


def file_text(lines):
    """The lines of a file as one text."""
    return "\n".join(line.rstrip() for line in lines) + "\n"
