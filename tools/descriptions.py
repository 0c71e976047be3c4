"""Finds things in the text of a description, be it accepted or refused: components, what they declare, and where names stand.

It reads no more of the language than that; whether a description is right, the program says.
"""
import re
from typing import NamedTuple

TOKEN = re.compile(r"//[^\n]*|/\*.*?(?:\*/|\Z)|[A-Za-z_][A-Za-z0-9_]*|[0-9]+|\.\.|--|[<>=!]=|[^\s]", re.S)
KEYWORDS = set("component provide require inst array bind forall when int and or".split())
# those that begin a list of entries, or end one
LISTS = ("provide", "require", "inst", "array", "bind", "forall", "when")


class Token(NamedTuple):
    """A token, and the byte with which it begins."""

    text: str
    at: int


def is_name(text):
    return (text[0].isalpha() or text[0] == "_") and text not in KEYWORDS


class Component:
    """What a component declares: its tokens from its name on, its parameters, its arrays and its single entries with the components of
    which they are, and the names of arrays of which some entry makes an element."""

    def __init__(self, tokens):
        self.tokens, self.name = tokens, tokens[0].text
        self.params, self.arrays, self.entries, self.elements = 0, {}, {}, set()
        heading = next((number for number, token in enumerate(tokens) if token.text == "{"), len(tokens))
        self.params = sum(token.text == "int" for token in tokens[:heading])
        self.read(tokens[heading:])

    def read(self, tokens):
        """An entry stands behind `inst` or `array`, or behind the `;` of another."""
        mode = None
        for before, token, *behind in zip(tokens, tokens[1:], tokens[2:], tokens[3:]):
            if before.text in LISTS:
                mode = before.text
            if mode not in ("inst", "array") or before.text not in (mode, ";") or not is_name(token.text):
                continue
            if mode == "array":
                self.arrays[token.text] = self.of(token)
            elif behind[0].text == ":":
                self.entries[token.text] = behind[1].text
            elif behind[0].text == "[":
                self.elements.add(token.text)

    def of(self, array):
        """The component behind the `:` of an array's entry."""
        behind = [token.text for token in self.tokens if token.at > array.at]
        return behind[behind.index(":") + 1] if ":" in behind[:-1] else None

    def places(self, name):
        """The tokens of this name in it."""
        return [token for token in self.tokens if token.text == name]


class Description:
    """The components of a text, in order; bytes are told one by one, as the signs of Latin-1."""

    def __init__(self, text):
        self.text = text.decode("latin-1")
        tokens = [Token(found[0], found.start()) for found in TOKEN.finditer(self.text) if not found[0].startswith(("//", "/*"))]
        heads = [number for number, token in enumerate(tokens[:-1]) if token.text == "component"]
        self.components = [Component(tokens[head + 1 : end]) for head, end in zip(heads, heads[1:] + [len(tokens)])]

    def named(self, name):
        """The first component of this name, or None."""
        return next((component for component in self.components if component.name == name), None)

    def at(self, path, top):
        """The component of the instance of this path below the top, or None."""
        here = self.named(top)
        for segment in path.split(".") if path else []:
            name = segment.split("[")[0]
            here = here and self.named(here.arrays.get(name) or here.entries.get(name))
        return here

    def line(self, at):
        """The line and the column of a byte, both from 1."""
        return self.text.count("\n", 0, at) + 1, at - self.text.rfind("\n", 0, at)
