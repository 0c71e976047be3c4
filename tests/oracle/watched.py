"""The lines of observers of a run, which stand behind its report: `seen I C K L`, the observer, a number of commits, and how many nodes and links
the graph has that stands at the commit line of this number."""
import re

SEEN = re.compile(rb"seen" + rb" (0|[1-9][0-9]*)" * 4 + rb"\n")


def parted(text):
    """The text of the report, and the lines behind it."""
    lines = text.splitlines(True)
    first = next((number for number, line in enumerate(lines) if line.startswith(b"seen ")), len(lines))
    return b"".join(lines[:first]), lines[first:]


def graphs(history):
    """How many nodes and links stand at each commit line, and none before the first."""
    nodes, links, found = 0, 0, [(0, 0)]
    for line in history:
        verb = line.split(b" ")[0]
        nodes += (verb == b"make") - (verb == b"remove")
        links += (verb == b"link") - (verb == b"unlink")
        if verb == b"commit":
            found.append((nodes, links))
    return found


def why_not(history, lines, observers):
    """Why so many observers of a run with this history can't have these lines, or None."""
    found, seen = graphs(history), [[] for _ in range(observers)]
    numbers = []
    for line in lines:
        told = SEEN.fullmatch(line)
        if not told:
            return "no line of an observer: %r" % line
        observer, commits, nodes, links = map(int, told.groups())
        if observer >= observers or commits >= len(found) or found[commits] != (nodes, links):
            return "no such observer, commit or graph: %r" % line
        numbers.append(observer)
        seen[observer].append(commits)
    if numbers != sorted(numbers):
        return "the observers have no order: %r" % numbers
    for observer, commits in enumerate(seen):
        if commits != sorted(set(commits)) or commits[-1:] != [len(found) - 1]:
            return "observer %d doesn't see ever more commits, and all of them at last: %r" % (observer, commits)
    return None


def text(history, observers, rng):
    """Lines that so many observers may have: some of the commits, and the last."""
    found = graphs(history)
    rows = ((observer, number) for observer in range(observers) for number in range(len(found)) if number == len(found) - 1 or rng.random() < 0.5)
    return b"".join(b"seen %d %d %d %d\n" % (observer, number, *found[number]) for observer, number in rows)
