"""Pictures as SVG: bars, without anything to install."""
import html
import re

COLOURS = ["#4269d0", "#efb118", "#ff725c", "#6cc5b0", "#9c6b4e", "#a463f2", "#97bbf5", "#3ca951"]
ROW, LEFT, WIDE, HEAD = 22, 170, 460, 30


def text_at(x, y, text, more=""):
    """A text."""
    return '<text x="%g" y="%g"%s>%s</text>' % (x, y, more, html.escape(str(text)))


def bars(title, rows, kinds):
    """Horizontal bars, one for each row, stacked of parts: `rows` are pairs of a name and the values
    of the kinds. Answers a group of SVG and its height."""
    most = max([sum(values) for _, values in rows] + [0]) or 1
    parts = [text_at(0, 16, title, ' class="title"')]
    for number, kind in enumerate(kinds if len(kinds) > 1 else []):
        x, y = LEFT + 110 * (number % 4), 34 + 18 * (number // 4)
        parts.append('<rect x="%g" y="%g" width="10" height="10" fill="%s"/>' % (
            x, y - 9, COLOURS[number % len(COLOURS)]))
        parts.append(text_at(x + 14, y, kind))
    y = HEAD + (18 * ((len(kinds) + 3) // 4) if len(kinds) > 1 else 0)
    for name, values in rows:
        x = LEFT
        parts.append(text_at(LEFT - 8, y + 14, name, ' text-anchor="end"'))
        for number, value in enumerate(values):
            width = WIDE * value / most
            if width:
                parts.append('<rect x="%.1f" y="%g" width="%.1f" height="%d" fill="%s"><title>%s: %s'
                             '</title></rect>' % (x, y, width, ROW - 6,
                                                  COLOURS[number % len(COLOURS)],
                                                  html.escape(kinds[number]), number_text(value)))
            x += width
        parts.append(text_at(x + 6, y + 14, number_text(sum(values))))
        y += ROW
    return "\n".join(parts), y + 14


def number_text(value):
    """A number as it is shown."""
    return "%d" % value if value == int(value) else "%.2f" % value


def picture(groups):
    """One SVG of groups, one below the other."""
    y, parts = 10, []
    for group, height in groups:
        parts.append('<g transform="translate(10,%d)">\n%s\n</g>' % (y, group))
        y += height
    width = LEFT + WIDE + 90
    return ('<svg xmlns="http://www.w3.org/2000/svg" width="%d" height="%d" viewBox="0 0 %d %d">\n'
            '<style>text{font:12px sans-serif;fill:#222}.title{font-weight:bold}</style>\n'
            '<rect width="100%%" height="100%%" fill="#fff"/>\n%s\n</svg>\n' % (
                width, y, width, y, "\n".join(parts)))


# Graphs. States are set in columns by how far they are from the start.

NODE, TALL, COLUMN, LINE = 120, 30, 240, 13


def places(part):
    """Of each node of a Part of tools/graph its column and its row."""
    depth, todo = {}, [(part.start, 0)] if part.start else []
    while todo:
        at, far = todo.pop(0)
        if at not in depth:
            depth[at] = far
            todo += [(to, far + 1) for one, to in part.edges if one == at]
    last = max(depth.values(), default=-1)
    rows, found = {}, {}
    for node in part.nodes:
        column = depth.get(node, last + 1)
        found[node] = (column, rows.get(column, 0))
        rows[column] = rows.get(column, 0) + 1
    return found


def graph(part):
    """A graph as a group of SVG, its width and its height. Nodes to which no path leads are grey."""
    where, lost = places(part), part.unreachable() if part.start else set()
    tall = 56 + LINE * max([len(guard_labels(lines)) for lines in part.edges.values()] + [1])

    def middle_of(node):
        column, row = where[node]
        return 70 + column * COLUMN, 60 + row * tall + (column % 2) * 24

    edges, labels = [], []
    for (at, to), lines in part.edges.items():
        (x, y), (u, v) = middle_of(at), middle_of(to)
        path, label_x, label_y = curve(x, y, u, v)
        edges.append('<path d="%s" class="edge%s" marker-end="url(#tip)"/>' % (
            path, " lost" if at in lost else ""))
        for number, (text, whole) in enumerate(guard_labels(lines)):
            labels.append('<g><title>%s</title>%s</g>' % (html.escape(whole), text_at(
                label_x, label_y + number * LINE, text, ' class="label" text-anchor="middle"')))
    nodes = []
    for node, kind in part.nodes.items():
        x, y = middle_of(node)
        wide = max(NODE, 8 * len(node) + 16)
        nodes.append('<g data-node="%s" class="node %s%s%s"><rect x="%g" y="%g" width="%g" height="%d" '
                     'rx="8"/>%s</g>' % (html.escape(node), kind, " lost" if node in lost else "",
                                         " first" if node == part.start else "", x - wide / 2,
                                         y - TALL / 2, wide, TALL,
                                         text_at(x, y + 4, node, ' text-anchor="middle"')))
    columns = max([column for column, _ in where.values()] + [0]) + 1
    rows = max([row for _, row in where.values()] + [0]) + 1
    return "\n".join(edges + labels + nodes), columns * COLUMN, rows * tall + 70


def guard_labels(lines):
    """Of each guard in the lines of an edge a short text, as `0 ?ask` or `1 !grant`, and its whole
    text."""
    guards = []
    for line in lines:
        if re.match(r"\d+: ", line) or not guards:
            guards.append([line])
        else:
            guards[-1].append(line)
    found = []
    for guard in guards:
        short = re.sub(r"^(\d+): (?:(?:from|to) [^?!]* ([?!]) ([A-Za-z0-9_]+).*|(tau))$",
                       lambda one: "%s %s" % (one.group(1), one.group(4) or one.group(2)
                                              + one.group(3)), guard[0])
        more = any(line.startswith("when") for line in guard)
        found.append((short + (" if" if more else ""), "\n".join(guard)))
    return found


def curve(x, y, u, v):
    """The path of an edge between the middles of two nodes, and where its label is."""
    if (x, y) == (u, v):
        return ("M%g,%g c-30,-44 30,-44 6,-2" % (x - 14, y - TALL / 2), x, y - TALL / 2 - 34)
    if u > x:
        return ("M%g,%g C%g,%g %g,%g %g,%g" % (x + NODE / 2, y, x + NODE / 2 + 50, y, u - NODE / 2 - 50, v,
                                               u - NODE / 2 - 4, v),
                x + (u - x) / 2, y + (v - y) / 2 - 6)
    if u == x:
        side = x + NODE / 2
        return ("M%g,%g C%g,%g %g,%g %g,%g" % (side, y, side + 56, y, side + 56, v, side + 4, v),
                side + 46, (y + v) / 2)
    bend = 46 + (x - u) / 14
    return ("M%g,%g C%g,%g %g,%g %g,%g" % (x, y + TALL / 2, x, y + TALL / 2 + bend, u, v + TALL / 2 + bend,
                                           u + 8, v + TALL / 2 + 4),
            x + (u - x) * 0.3, y + (v - y) * 0.3 + TALL / 2 + bend * 0.7)
