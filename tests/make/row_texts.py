"""The rows of crates/rows_runs: what each is run on, and what must come of it."""
import os
from typing import NamedTuple

CRATE = os.path.join(os.path.dirname(os.path.dirname(os.path.dirname(os.path.abspath(__file__)))), "crates", "rows_runs")
# the lines of a row that say what must come
WANTED = ("status", "the", ">", ">:", "..", "has")


class Row(NamedTuple):
    """A row's name, words and files, what its input is, the lines that say how its text is shown, and those that must come."""

    name: str
    words: list
    files: dict
    said: str
    options: list
    wanted: list


def parted(line):
    word, _, rest = line.partition(" ")
    return word, rest


def subjects():
    """The files of rows, in the order of the program."""
    return sorted(os.listdir(os.path.join(CRATE, "data")))


def lines_of(subject):
    with open(os.path.join(CRATE, "data", subject), encoding="utf-8", newline="") as file:
        return file.read().removesuffix("\n").split("\n")


def piece(line):
    """What a line adds to the text of a file."""
    word, rest = parted(line)
    if word == "lines":
        count, line = parted(rest)
        return (line.replace("|", "\n") + "\n") * int(count)
    return {"|": rest + "\n", ":": rest}.get(word, "")


def row_of(lines, shared):
    """A row of its lines, over files that it shares with others."""
    words, files, said, options, wanted, name = [], dict(shared), "", [], [], None
    for line in lines[1:]:
        word, rest = parted(line)
        if word == "file":
            name = rest
            files[name] = ""
        elif word in ("words", "word"):
            words += rest.split(" ") if word == "words" else [rest]
        elif word in ("say", "say:"):
            said += rest + "\n" * (word == "say")
        elif word in WANTED:
            wanted.append(line)
        elif word in ("room", "fail", "next", "cut"):
            options.append((word, rest))
        elif name is not None:
            files[name] += piece(line)
    return Row(parted(lines[0])[1], words, files, said, options, wanted)


def rows_of(subject):
    """The rows of a subject."""
    lines = lines_of(subject)
    starts = [at for at, line in enumerate(lines) if line.startswith("row ")]
    shared = row_of(["row "] + lines[: starts[0]], {}).files
    return [row_of(lines[start:end], shared) for start, end in zip(starts, starts[1:] + [len(lines)])]


def wanted_text():
    """What the program must write: of each subject its name, and of each row its name and what must come."""
    out = []
    for subject in subjects():
        out.append("# " + subject)
        out += [line for line in lines_of(subject) if parted(line)[0] in ("row",) + WANTED]
    return "".join(line + "\n" for line in out)


def marked(lines):
    return [">" + " " * bool(line) + line for line in lines]


def shown(row, status, text):
    """What a row shows of a status and a text."""
    *lines, rest = text.split("\n")
    cut = dict(row.options).get("cut")
    if cut:
        first, last = map(int, cut.split(" "))
        length = ".. %d bytes in %d lines" % (len(text.encode()), len(lines))
        found = marked(lines[:first]) + [length] + marked(lines[max(0, len(lines) - last) :])
    else:
        found = marked(lines) + [">: " + rest] * bool(rest)
    asked = [parted(line)[1] for line in row.wanted if parted(line)[0] == "has"]
    return ["status %d" % status] + found + ["%s %s" % ("has" if line in lines else "lacks", line) for line in asked]
