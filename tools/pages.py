"""What the documents say that the tools need: the kinds of nodes, the rules of the machine, and what each refusal means.

It stands once, in docs/, and is read from there.
"""
import os
import re
from typing import NamedTuple

DOCS = os.path.join(os.path.dirname(os.path.dirname(os.path.abspath(__file__))), "docs")


class Bad(Exception):
    """Why a word, a text or a file can't be used."""


class Kind(NamedTuple):
    """A kind of nodes: what it provides and requires, which requirements its services call, and whether it keeps a state."""

    provides: list
    requires: list
    calls: list
    has_argument: bool
    keeps: bool


class Refusal(NamedTuple):
    """A paragraph on refusals of these names: the heading of its section, and its words."""

    names: list
    section: str
    text: str


def page(name):
    try:
        with open(os.path.join(DOCS, name), encoding="utf-8") as file:
            return file.read()
    except OSError as error:
        raise Bad("docs/%s, which stands beside tools/, can't be read: %s" % (name, error.strerror))


def words_of(cell):
    """The names that a cell of a table lists."""
    return [word for word in re.split(r"[ ,]+", cell) if word and word != "and"]


def kinds():
    """The kinds of nodes by their names, in order, from the table of docs/kinds.md."""
    text = page("kinds.md")
    rows = [[cell.strip() for cell in line.split("|")[1:-1]] for line in text.split("\n") if line.startswith("|")]
    stateless = re.search(r"([A-Z][a-z, ]+) keep nothing\.", text)
    if not rows or rows[0][:5] != ["kind", "provides", "requires", "argument", "its services call"] or not stateless:
        raise Bad("docs/kinds.md has no table of kinds, or doesn't say which keep nothing")
    keep_nothing = words_of(stateless[1].lower())
    found = {}
    for name, provides, requires, argument, calls, *_ in rows[2:]:
        found[name] = Kind(words_of(provides), words_of(requires), words_of(calls), argument != "", name not in keep_nothing)
    return found


def rules():
    """The numbered rules of docs/machine.md, by their numbers: the first table there whose rows begin with one."""
    table = re.search(r"(?:^\| \d+ \| .* \|\n)+", page("machine.md"), re.M)
    return {int(number): text for number, text in re.findall(r"\| (\d+) \| (.*) \|", table[0])} if table else {}


def forms(section):
    """The forms of lines that a section of docs/formats.md lists, by their first word."""
    found = {}
    for part in re.findall(r"^## %s\n(.*?)(?=^## |\Z)" % section, page("formats.md"), re.M | re.S):
        for items in re.findall(r"^- ((?:`[^`]+`(?:, )?)+)", part, re.M):
            for form in re.findall(r"`([^`]+)`", items):
                found.setdefault(form.split()[0], []).append(" ".join(form.split()))
    return found


def plain(text):
    """A paragraph without marks; one that explains a name with its fields, without these and the `:` behind them."""
    text = re.sub(r"\[([^\]]*)\]\([^)]*\)", r"\1", re.sub(r"^\*\*`[^`]*`\*\*: ", "", text))
    return text.replace("**", "").replace("`", "")


def refusals():
    """The paragraphs of docs/refusals.md that begin with the names of refusals, in order."""
    found, section = [], ""
    for paragraph in re.sub(r"```.*?```", "", page("refusals.md"), flags=re.S).split("\n\n"):
        text = " ".join(paragraph.split())
        if text.startswith("## "):
            section = text[3:]
        names = re.findall(r"\*\*`([A-Za-z]+(?: [a-z]+)*)[^`]*`\*\*", text)
        if names:
            found.append(Refusal(names, section, plain(text)))
    return found
