"""The forms of what the program writes, one for each status, and what else must hold of a text of that form."""
import os
import re

import answers
from tables import KINDS

NAME = rb"[A-Za-z_][A-Za-z_0-9]{0,63}"
PATH = rb"(?:%s(?:\[\d+\])?)(?:\.%s(?:\[\d+\])?)*" % (NAME, NAME)
WHERE = rb"(?:\.|%s)" % PATH
PLACE = rb"(\d+):(\d+)"
NUMBER = rb"\d+"
END = rb"(?:%s(?:\[\d+\])?\.)?%s(?:\[-?\d+\])?" % (NAME, NAME)

# The faults of a description with what they carry.
DESCRIPTION = {
    b"TooLong": b"",
    b"BadByte": b" " + PLACE,
    b"OpenComment": b" " + PLACE,
    b"LongName": b" " + PLACE,
    b"BigNumber": b" " + PLACE,
    b"Expected": b" " + PLACE,
    b"TooNested": b" " + PLACE,
    b"TwoComponents": b" " + NAME,
    b"TwoNames": b" %s %s" % (NAME, NAME),
    b"UnknownName": b" %s %s" % (NAME, NAME),
    b"UnknownComponent": b" %s %s" % (NAME, NAME),
    b"ArgCount": b" %s %s %s %s" % (NAME, NAME, NUMBER, NUMBER),
    b"UnknownKind": b" " + NAME,
    b"KindPorts": b" " + NAME,
    b"NoTop": b" " + NAME,
    b"TopIsKind": b" " + NAME,
    b"TopArgs": b" %s %s" % (NUMBER, NUMBER),
    b"OutOfRange": b" %s %s" % (WHERE, PLACE),
    b"ZeroDivisor": b" %s %s" % (WHERE, PLACE),
    b"BadIndex": b" %s %s" % (WHERE, PLACE),
    b"TwoInstances": b" " + WHERE,
    b"BoundTwice": b" %s %s" % (WHERE, END),
    b"BadBinding": b" %s %s" % (WHERE, PLACE),
    b"Annotation": b" %s %s" % (WHERE, PLACE),
    b"TooDeep": b" " + WHERE,
    b"TooMany": b"",
    b"DependsCycle": b" " + WHERE,
    b"NodesFull": b" %s %s" % (NUMBER, NUMBER),
    b"PortsFull": b" %s %s" % (NUMBER, NUMBER),
}

# The faults of an event file.
EVENTS = {
    b"TooLong": b"",
    b"BadLine": b" " + NUMBER,
    b"NumberTooBig": b" " + NUMBER,
    b"Order": b" " + NUMBER,
    b"NoStart": b"",
}

# The faults of a report.
REPORTS = {
    b"TooLong": b"",
    b"BadLine": b" " + NUMBER,
    b"Short": b"",
}

# The rules of the change machine by their numbers.
RULES = range(1, 31)

REPORT = re.compile(rb"report 2\n(?:[^\n]+\n)*status %s\n" % NUMBER)
SUMMARY = re.compile(rb"big %s\nnodes %s\ncommits %s\nitems %s\nstatus 0\n" % (NUMBER, NUMBER, NUMBER, NUMBER))
NODE = re.compile(rb"node (%s) ([a-z]+)\((\d*)\)" % PATH)
PORT = re.compile(rb"port (%s)\.([a-z]+) (?:-|(%s)\.([a-z]+))" % (PATH, PATH))
REFUSAL = re.compile(rb"description (.*): ([A-Za-z]+)( .*)?\n", re.S)
SCRIPT = re.compile(rb"script (.*): ([A-Za-z]+)( .*)?\n", re.S)
DENIED = re.compile(rb"denied ([1-9]\d*) ([1-9]\d*)\n")
REPLAY = re.compile(
    rb"events (\d+)\n(?:open \d+ \d+ (?:root|call) (?:waiting|taken|answered)\n)*rest (\d+)\n((?:settled %s\n)*)" % PATH
)
FREEZE = re.compile(
    rb"(?:freeze %s\n)*(?:unlink %s\.[a-z]+\n)*(?:remove %s\n)*(?:create %s [a-z]+\(\d*\)\n)*(?:link %s\.[a-z]+ %s\.[a-z]+\n)*"
    % (PATH, PATH, PATH, PATH, PATH, PATH)
)


# the texts of plans and of graphs, one after the other
PARTS = rb"(?:part [1-9]\d*\n%s)*" % FREEZE.pattern
ROLLED = re.compile(rb"%s(done|pending [1-9]\d*)\n((?:(?:node|port) [^\n]*\n)*)" % PARTS)
PARTS = re.compile(PARTS)
KIND = rb"[a-z]+\(\d*\)"
CALL = rb"%s\((?:-?\d+(?:,-?\d+)*)?\)" % NAME
# a session in which nothing is said
UNTOLD = re.compile(
    rb"start %s\n(?:make \d+ %s %s\n)*(?:link \d+ \d+ 0\n)*(?:reopen \d+\n)*commit\nchange %s\n(?:close \d+\n)*wait \d+\n(?:ready\n)?pending \d+\n(?:open \d+ 0\n)*"
    rb"(?:reopen \d+\n)*abandon\n" % (CALL, PATH, KIND, CALL)
)


CHANGES = ("plan", "parts", "roll", "apply")


class Bad(Exception):
    """A text that hasn't the form of its status."""


def fault_of(status, text):
    """The fault that a line names, or the rule of an event that is denied."""
    if status == 9:
        return "rule %02d" % int(DENIED.fullmatch(text)[2])
    form = REFUSAL if status == 2 else SCRIPT
    return form.fullmatch(text)[2].decode()


def fault_names(commands):
    """All faults that the texts of these commands can have."""
    names = set(DESCRIPTION) if set(commands) - {"big", "upgrade", "check"} else set()
    names -= set() if {*CHANGES, "replay"} & set(commands) else {b"NodesFull", b"PortsFull"}
    names |= set(EVENTS) if "replay" in commands else set()
    names |= set(REPORTS) if "upgrade" in commands else set()
    rules = ["rule %02d" % rule for rule in RULES] if "replay" in commands else []
    return sorted(name.decode() for name in names) + rules


def want(holds, why):
    if not holds:
        raise Bad(why)


def graph(text):
    """The nodes {path: (kind, argument)} and links {(path, requirement): (path, provision) or None} of a graph text."""
    nodes, links, wanted = {}, {}, []
    last = None
    want(text == b"" or text.endswith(b"\n"), "the last line of a graph has no end")
    for line in text.split(b"\n")[:-1]:
        found = NODE.fullmatch(line)
        if found:
            want(not wanted, "a node hasn't all its ports")
            path, kind, arg = found[1], found[2].decode(), found[3]
            want(last is None or last < path, "paths don't rise")
            want(kind in KINDS, "no such kind")
            want(KINDS[kind][2] == (arg != b""), "an argument where the kind has none, or none where it has one")
            want(arg == b"" or str(int(arg)).encode() == arg and int(arg) < 1 << 24, "an argument is out of range")
            nodes[path] = (kind, arg)
            last, wanted = path, list(KINDS[kind][1])
            continue
        found = PORT.fullmatch(line)
        want(found, "a line of a graph is no node and no port")
        want(found[1] == last and wanted and found[2].decode() == wanted.pop(0), "a port of another node, or in another order")
        links[(found[1], found[2])] = (found[3], found[4]) if found[3] else None
    want(not wanted, "a node hasn't all its ports")
    for target in links.values():
        if target:
            want(target[0] in nodes, "a port leads to no node")
            want(target[1].decode() in KINDS[nodes[target[0]][0]][0], "a port leads to no provision")
    return nodes, links


def refusal(text, named, form, faults, files=None):
    """A line that refuses one of the files that are named, whose places lie in its text where files are given."""
    found = form.fullmatch(text)
    want(found, "no line that refuses a file")
    want(found[1] in named, "another file is refused")
    want(found[2] in faults, "no such fault")
    rest = re.fullmatch(faults[found[2]], found[3] or b"")
    want(rest, "a fault carries something else")
    content = (files or {}).get(os.fsdecode(found[1]).removeprefix("./"))
    if content is not None and rest.groups():
        lines, (line, column) = content.split(b"\n"), map(int, rest.groups())
        want(1 <= line <= len(lines) and 1 <= column <= len(lines[line - 1]) + 1, "a place outside the text")


def judge(words, files, status, written):
    """Raises Bad where what was written hasn't the form of the status."""
    words = [os.fsencode(word) for word in words]
    command = words[0].decode("utf-8", "replace") if words else ""
    named = words[1:] if command in CHANGES else words[1:2]
    if answers.helped(words):
        want(status == 0 and written.endswith(b"\n"), "no help")
    elif command == "step" and len(words) == 2:
        want(status in (0, 2, 3, 4, 7, 8), "a status that shouldn't come here")
    elif command == "live" and len(words) in (2, 4, 6):
        want(status in (0, 1, 2, 3, 4, 7, 8), "a status that shouldn't come here")
    elif command == "check" and len(words) == 3:
        want(status in (0, 1, 2, 3, 4, 10), "a status that shouldn't come here")
        want(status not in (0, 10) or written == {0: b"consistent\n", 10: b"unlawful\n"}[status], "no answer of check")
    elif status == 0 and command == "flat":
        graph(written)
    elif status == 0 and command == "big":
        want(SUMMARY.fullmatch(written), "no summary")
    elif status == 0 and command == "plan":
        want(FREEZE.fullmatch(written), "no text of a plan")
    elif status == 0 and command == "parts":
        want(PARTS.fullmatch(written), "no text of parts")
    elif status in (0, 7) and command == "roll":
        found = ROLLED.fullmatch(written)
        want(found and (found[1] == b"done") == (status == 0), "no text of a roll, or of another status")
        graph(found[2])
    elif status == 7 and command == "apply":
        want(UNTOLD.fullmatch(written), "no text of a session that was given up")
    elif status == 0 and command == "replay":
        want(REPLAY.fullmatch(written), "no text of a replay")
    elif status == 0 and command == "upgrade":
        want(REPORT.fullmatch(written), "no text of a report")
    elif status == 0:
        want(words == [b"--version"] and written.endswith(b"\n"), "status 0 of words that have no form")
    elif status == 1:
        want(written == b"usage\n", "status 1 without the line usage")
    elif status == 2:
        refusal(written, named, REFUSAL, DESCRIPTION, files)
    elif status == 3 and command == "upgrade":
        refusal(written, named, SCRIPT, REPORTS)
    elif status == 3:
        want(command == "replay", "status 3 of a command without such a file")
        refusal(written, words[2:3], SCRIPT, EVENTS)
    elif status == 4:
        want(any(written == b"read fault " + name + b"\n" for name in words[1:3] + named), "a fault of another file")
    elif status == 9:
        found = DENIED.fullmatch(written)
        want(command == "replay" and found and 1 <= int(found[2]) <= 30, "no line of a denied event")
    else:
        raise Bad("a status that shouldn't come here")
