"""Lays a protocol file out as `rvc print` does, and keeps its comments and blank lines.

A line ends with each `;`, `{` and `}`. A comment behind a line stays there; any other gets a line of
its own before what follows it. Of several blank lines one stays, and none after `{` or before `}`.
"""
import re

from protocol import PIECE, read_protocol

CLOSE = {";", ",", "(", ")"}
# Bytes stand as characters, so other blanks of Unicode may be parts of letters.
BLANKS = " \t\r\n"


class Line:
    """A line to be written: its tokens, the comments before it and the one behind it."""

    def __init__(self, blank):
        self.tokens, self.before, self.behind, self.blank = [], [], None, blank

    def text(self):
        """The tokens as `print` spaces them."""
        text = ""
        for token in self.tokens:
            joined = not text or token in CLOSE or text.endswith("(")
            text += token if joined else " " + token
        return text


def lines_of(text):
    """The lines of a text that spells a protocol; the last one has comments alone."""
    lines, newlines = [Line(False)], 0
    for piece in PIECE.findall(text):
        line = lines[-1]
        if piece.isspace():
            newlines += piece.count("\n")
            continue
        if piece.startswith("//"):
            comment = piece.rstrip(BLANKS)
            if newlines == 0 and not line.tokens and not line.before and len(lines) > 1 and (
                    lines[-2].behind is None):
                lines[-2].behind = comment
            else:
                line.before.append((comment, newlines > 1 and not line.tokens))
        else:
            if not line.tokens:
                line.blank = newlines > 1
            line.tokens.append(piece)
            if piece in (";", "{", "}"):
                lines.append(Line(False))
        newlines = 0
    return lines


def laid_out(text):
    """The text, laid out. It has to spell a protocol, else a Misfit of protocol.py is raised."""
    read_protocol(text)
    rows, depth, opened = [], 0, True
    for line in lines_of(text):
        closes = line.tokens == ["}"]
        indent = "  " * depth
        for comment, blank in line.before:
            if blank and not opened:
                rows.append("")
            rows.append(indent + comment)
            opened = False
        if closes:
            depth -= 1
        if not line.tokens:
            continue
        if line.blank and not opened and not closes:
            rows.append("")
        rows.append("  " * depth + line.text() + ("  " + line.behind if line.behind else ""))
        opened = line.tokens[-1] == "{"
        depth += opened
    return "".join(row + "\n" for row in rows)


def spaced(text):
    """A text on one line, spaced as `print` does, without its comments."""
    line = Line(False)
    line.tokens = [piece for piece in PIECE.findall(text)
                   if not piece.isspace() and not piece.startswith("//")]
    return line.text()


def comments_in(text):
    """The comments of a text, in order, without the blanks at their ends."""
    return [piece.rstrip(BLANKS) for piece in PIECE.findall(text) if re.match("//", piece)]
