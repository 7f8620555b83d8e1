"""Statements of the testbench that write values, as `rvc run` writes them."""


def write_value(kind, value):
    """The statement that writes a value."""
    if kind[0] == "int":
        return '$fwrite(log, "%%0d", %s);' % value
    return "write_%s(%s);" % (kind[0], value)


def write_variables(types, named):
    """The statements that write the variables of a process; `named` gives the signal of each."""
    lines = []
    for name, kind in types.items():
        lines += ['$fwrite(log, " %s=");' % name, write_value(kind, named(name))]
    return lines
