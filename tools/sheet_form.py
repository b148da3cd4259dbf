"""What tools/to-sheet and tools/draw share: sheets and answers, read by their form (docs/RULES.md, "The sheet"), and
how a tool ends that cannot go on."""
import os
import re
import signal
import struct
import sys

LIMITS = {"points": 66, "knots": 70, "at": 1024}  # a sheet's sections, in order, and how many lines each may have
LONGEST_SHEET = 20877
LONGEST_ANSWER = 36876
DOUBLE = "([0-9A-F]{16})"
REFUSAL = "r ([1-9][0-9]?)"


class Fault(Exception):
    """Why a tool cannot go on, as a sentence."""


def double(word):
    return struct.unpack(">d", bytes.fromhex(word))[0]


def shown(words):
    return repr(words if len(words) <= 40 else words[:40] + "...")


class Lines:
    """The lines of a text, taken one after the other."""

    def __init__(self, data):
        if not data:
            raise Fault("it is empty")
        self.lines = data.decode("latin-1").split("\n")
        if self.lines.pop():
            raise Fault("it is cut off: line %d has no end" % (len(self.lines) + 1))
        self.taken = 0

    def left(self):
        return len(self.lines) - self.taken

    def next(self, wanted, form):
        """What the groups of `form` stand for in the next line."""
        if not self.left():
            raise Fault("it ends after line %d, and %s should follow" % (self.taken, wanted))
        words = self.lines[self.taken]
        self.taken += 1
        match = re.fullmatch(form, words)
        if not match:
            raise Fault("line %d is %s, not %s" % (self.taken, shown(words), wanted))
        return match.groups()

    def end(self):
        if self.left():
            raise Fault("line %d should be the last, and more follows" % self.taken)


def read_section(lines, name):
    (count,) = lines.next("`%s` and a count" % name, name + " (0|[1-9][0-9]{0,8})")
    if int(count) > LIMITS[name]:
        raise Fault("line %d says `%s %s`, and %d is the most" % (lines.taken, name, count, LIMITS[name]))
    wanted, form = ("two numbers", DOUBLE + " " + DOUBLE) if name == "points" else ("a number", DOUBLE)
    wanted += " of 16 digits"
    return [tuple(map(double, lines.next(wanted, form))) for _ in range(int(count))]


def read_sheet(data):
    """The form, and a list for each section."""
    lines = Lines(data)
    (form,) = lines.next("`fit` or `control`", "(fit|control)")
    sections = {name: read_section(lines, name) for name in LIMITS}
    lines.end()
    return form, sections


def read_answer(data):
    """The number of a refused sheet or 0, the two counts, and for each parameter its point or its refusal's number."""
    lines = Lines(data)
    wanted = "`curve` and two counts, or `r` and a refusal"
    points, knots, refusal = lines.next(wanted, "curve ([0-9]{1,2}) ([0-9]{1,2})|" + REFUSAL)
    if refusal:
        lines.end()
        return int(refusal), (0, 0), []
    told = []
    while lines.left():
        wanted = "`p` and a point, or `r` and a refusal"
        x, y, refusal = lines.next(wanted, "p %s %s|%s" % (DOUBLE, DOUBLE, REFUSAL))
        told.append(int(refusal) if refusal else (double(x), double(y)))
    return 0, (int(points), int(knots)), told


def standard_input(most):
    """All of it; `most` bytes are let through."""
    data = sys.stdin.buffer.read(most + 1) if sys.stdin else b""
    if not data.strip():
        raise Fault("there is nothing on standard input")
    if len(data) > most:
        raise Fault("standard input has more than %d bytes" % most)
    return data


def run(name, doc, work):
    """Writes the text that `work` makes of the arguments, or a sentence on standard error, with status 2."""
    signal.signal(signal.SIGINT, signal.SIG_DFL)
    signal.signal(signal.SIGPIPE, signal.SIG_DFL)
    words = sys.argv[1:]
    try:
        if words in (["-h"], ["--help"]):
            text = doc
        else:
            text = work(words)
        if sys.stdout is None:
            raise Fault("standard output is closed")
        sys.stdout.buffer.write(text.encode("utf-8"))
        sys.stdout.buffer.flush()
    except Fault as fault:
        why = str(fault)
    except OSError as error:
        why = "%s: %s" % (error.filename or "reading or writing", error.strerror)
    else:
        return
    why = "%s: %s\n" % (name, why)
    os.write(2, why.encode("utf-8", "replace"))
    os._exit(2)
