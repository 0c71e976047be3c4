"""Event files and scripts once more, written plainly from docs/formats.md and apart from the proved code."""
import re

from tables import KEYWORDS, KINDS
from language import GREATEST, LEAST, NAME_LIMIT

NUMBER_LIMIT = (1 << 32) - 1
STATEMENT_LIMIT = 256
COUNTS = {"begin": 3, "call": 3, "take": 3, "give": 3, "more": 3, "ask": 3, "hear": 3, "end": 3, "miss": 1, "close": 1, "reopen": 1, "unlink": 1, "remove": 1, "link": 3}
NAME = re.compile(rb"[A-Za-z_][A-Za-z_0-9]*")
SEGMENT = re.compile(rb"([A-Za-z_][A-Za-z_0-9]*)(?:\[([0-9]+)\])?")


class Fault(Exception):
    """What is wrong with a line."""


def is_name(word):
    return bool(NAME.fullmatch(word)) and len(word) <= NAME_LIMIT and word.decode() not in KEYWORDS


def is_integer(word):
    return bool(re.fullmatch(rb"-?[0-9]+", word))


def integer(word):
    """The value of digits behind a sign or none, however many they are: one that is too long to matter is cut."""
    digits = word.lstrip(b"-").lstrip(b"0") or b"0"
    found = int(digits[:20]) if len(digits) <= 20 else 10**20
    return -found if word.startswith(b"-") else found


def is_number(word):
    return bool(re.fullmatch(rb"[0-9]+", word))


def words_of(line):
    """Words and signs; blanks within a line are spaces and tabs."""
    return re.findall(rb"[(),]|[^ \t(),]+", line)


def want(holds):
    if not holds:
        raise Fault("BadLine")


def start(words):
    """A component's name and its arguments."""
    want(len(words) >= 4 and is_name(words[1]) and words[2] == b"(" and words[-1] == b")")
    inner = words[3:-1]
    want(not inner or len(inner) % 2 == 1)
    want(all(is_integer(word) if at % 2 == 0 else word == b"," for at, word in enumerate(inner)))
    args = [integer(word) for word in inner[::2]]
    if any(not LEAST <= arg <= GREATEST for arg in args):
        raise Fault("NumberTooBig")
    return words[1].decode(), args


def path_indexes(path):
    """The indexes of a path's segments."""
    found = [SEGMENT.fullmatch(segment) for segment in path.split(b".")]
    want(all(segment and is_name(segment[1]) for segment in found))
    return [segment[2] for segment in found if segment[2] is not None]


def make(words):
    want(len(words) >= 6 and is_number(words[1]) and words[3].decode("latin-1") in KINDS and words[4] == b"(")
    indexes = path_indexes(words[2])
    arg, rest = (b"", words[5:]) if words[5] == b")" else (words[5], words[6:])
    want(rest[:1] == [b")"] and (arg == b"" or is_number(arg)))
    before = rest[1:]
    want(not before or len(before) == 2 and before[0] == b"from" and is_number(before[1]))
    numbers = [integer(word) for word in [words[1]] + indexes + ([arg] if arg else []) + before[1:]]
    if any(number > NUMBER_LIMIT for number in numbers):
        raise Fault("NumberTooBig")
    return "make", integer(words[1]), words[2], words[3].decode(), b"%d" % integer(arg) if arg else b"", integer(before[1]) if before else None


def event(words):
    name = words[0].decode("latin-1")
    if name == "make":
        return make(words)
    want(name in COUNTS and len(words) == 1 + COUNTS[name] and all(is_number(word) for word in words[1:]))
    numbers = [integer(word) for word in words[1:]]
    if any(number > NUMBER_LIMIT for number in numbers):
        raise Fault("NumberTooBig")
    return (name,) + tuple(numbers)


def parse(text):
    """A start and its events, or the line that refuses the file, as (start, events, fault)."""
    begun, events = None, []
    for number, line in enumerate(text.split(b"\n"), 1):
        line = line.strip(b" \t\r")
        if line == b"" or line.startswith(b"#"):
            continue
        words = words_of(line)
        try:
            made = start(words) if words[0] == b"start" else event(words)
            if (words[0] == b"start") != (begun is None):
                raise Fault("Order")
        except Fault as fault:
            return None, [], "%s %d" % (fault, number)
        if begun is None:
            begun = made
        else:
            events.append(made)
    return begun, events, "NoStart" if begun is None else None


# ---- scripts


def tokens_of(line):
    """Words and signs; the arrow of a move is one."""
    return re.findall(rb"->|[(),]|(?:(?!->)[^ \t(),])+", line)


def count(word):
    """The value of a number that keeps its limit."""
    want(is_number(word))
    if integer(word) > NUMBER_LIMIT:
        raise Fault("NumberTooBig")
    return integer(word)


def component(words):
    """A component's name and its arguments, and how many words they are."""
    want(words and is_name(words[0]))
    if words[1:2] != [b"("]:
        return words[0].decode(), [], 1
    want(b")" in words)
    end = words.index(b")")
    inner = words[2:end]
    want(not inner or len(inner) % 2 == 1)
    want(all(is_integer(word) if at % 2 == 0 else word == b"," for at, word in enumerate(inner)))
    return words[0].decode(), [integer(word) for word in inner[::2]], end + 1


def within_range(args):
    if any(not LEAST <= arg <= GREATEST for arg in args):
        raise Fault("NumberTooBig")


def moves_of(words):
    """The moves that these words list, and the indexes of their paths."""
    moves, indexes = [], []
    want(len(words) % 4 == 3)
    for at in range(0, len(words), 4):
        want(words[at + 1] == b"->" and (at + 3 == len(words) or words[at + 3] == b","))
        for path in (words[at], words[at + 2]):
            want(path not in (b"(", b")", b",", b"->"))
            indexes += path_indexes(path)
        moves.append((words[at], words[at + 2]))
    return moves, indexes


def change(words):
    want(words[:1] == [b"to"])
    name, args, length = component(words[1:])
    rest = words[1 + length :]
    want(len(rest) >= 2 and rest[0] == b"within" and is_number(rest[1]))
    moves, indexes = [], []
    if rest[2:]:
        want(rest[2] == b"moving")
        moves, indexes = moves_of(rest[3:])
    within_range(args)
    if any(integer(index) > NUMBER_LIMIT for index in indexes):
        raise Fault("NumberTooBig")
    return "change", name, args, count(rest[1]), moves


def statement(line):
    """What a line of a script says."""
    blank_words = line.replace(b"\t", b" ").split(b" ")
    blank_words = [word for word in blank_words if word]
    if blank_words[0] == b"use":
        want(len(blank_words) == 2)
        try:
            blank_words[1].decode()
        except UnicodeDecodeError:
            raise Fault("BadLine")
        return "use", blank_words[1]
    words = tokens_of(line)
    if words[0] == b"start":
        name, args, length = component(words[1:])
        want(len(words) == 1 + length)
        within_range(args)
        return "start", name, args
    if words[0] == b"run":
        want(len(words) == 2)
        return "run", count(words[1])
    if words[0] == b"change":
        return change(words[1:])
    if words[0] == b"finish":
        want(len(words) == 3 and words[1] == b"within")
        return "finish", count(words[2])
    want(len(words) == 1 and words[0] in (b"show", b"end"))
    return (words[0].decode(),)


def out_of_order(name, seen):
    """Whether a statement can't stand behind these."""
    if "end" in seen or "finish" in seen and name != "end":
        return True
    if name in ("start", "change") and "use" not in seen:
        return True
    if name == "start":
        return "start" in seen
    return name in ("run", "change", "show", "finish") and "start" not in seen


def parse_script(text):
    """The statements, or the fault that refuses the script, as (statements, fault)."""
    made, seen = [], set()
    for number, line in enumerate(text.split(b"\n"), 1):
        line = line.strip(b" \t\r")
        if line == b"" or line.startswith(b"#"):
            continue
        try:
            said = statement(line)
            if len(made) == STATEMENT_LIMIT:
                raise Fault("TooManyLines")
            if out_of_order(said[0], seen):
                raise Fault("Order")
        except Fault as fault:
            return [], "%s %d" % (fault, number)
        made.append(said)
        seen.add(said[0])
    if "start" not in seen:
        return [], "NoStart"
    return made, None if made[-1][0] == "end" else "NoEnd"
