"""What the definitions of specs unfold to, by their `use` lines and the names in their texts. It reads the tree alone, and proves nothing.

A name is (crate, module, definition). Where a name stands for a variable and for a definition, it is taken for the variable where the
same definition binds it. So nothing is left out but what a definition names behind a variable of its own.
"""
import os
import re

WORD = r"[A-Za-z_][\w'-]*(?:\.[A-Za-z_][\w'-]*)*"
USE = re.compile(r"(?:ghost )?(?:pub )?use Rattle\.(\w+)\.specs\.([\w.]+)(?:\.\{([^}]*)\}| as (\w+))")
# a line of a Lib by which a crate passes on specs of another
PASSED = re.compile(r"(?m)^pub use Rattle\.(\w+)\.specs\.(\w+)$")
KEYWORDS = {"abbrev", "pub", "record", "data", "unfoldable", "mutual", "infixl", "infixr"}


def imports(text):
    """What the `use` lines of a text name: for each name of its own the name there; the definition is None behind `as`."""
    found = {}
    for crate, module, listed, alias in USE.findall(text):
        if alias:
            found[alias] = (crate, module, None)
        for name in listed.split(","):
            if name.strip():
                theirs, _, own = name.strip().partition(" as ")
                found[own.strip() or theirs] = (crate, module, theirs)
    return found


def bound(text):
    """The names that a definition binds: behind λ, before a type, by `←` and `let`, and as arguments."""
    found = set()
    for names in re.findall(r"λ ([^.(]*?)\.", text) + re.findall(r"[({]([\w' ]+?) : ", text):
        found |= set(names.split())
    found |= set(re.findall(r"([\w']+) ←", text)) | set(re.findall(r"let ([\w']+)", text))
    for arguments in re.findall(r"(?m)^(?!\s)\S+ ([^=:]*?) =(?=\s|$)", text):
        found |= set(re.findall(r"[\w']+", arguments))
    return found


class Module:
    """One file of specs: what it imports, and the text of each of its definitions."""

    def __init__(self, text):
        text = re.sub(r"(?m)^\s*--.*|\s--\s.*", "", text)
        self.imports = imports(text)
        self.texts, self.owners = {}, {}
        self.read(line for line in text.split("\n") if not USE.match(line))

    def read(self, lines):
        name, is_within = None, False
        for line in lines:
            if re.match(r"(abbrev )?mutual\b|module _ ", line):
                is_within = True
                continue
            is_within = is_within and line[:1] in ("", " ")
            line = line[2:] if is_within else line
            if line and line[0] not in " }|)":
                name = next((word for word in line.split() if word not in KEYWORDS), name)
            if name:
                self.texts[name] = self.texts.get(name, "") + line + "\n"
        for name, text in self.texts.items():
            if re.match(r"(abbrev )?(pub )?data ", text):
                for constructor in re.findall(r"(?m)^\s+(?:pub )?(\S+) :(?:\s|$)", text):
                    self.owners.setdefault(constructor, name)

    def operators(self, text):
        """The operators of its own or imported that a text uses, those of `do` among them."""
        for operator in list(self.imports) + list(self.texts):
            sign = operator.strip("◌")
            if operator.startswith("◌") and (
                re.search(r"(?<![^\s()])%s(?![^\s()])" % re.escape(sign), text) or sign in (">>=", ">>") and re.search(r"\bdo\b", text)
            ):
                yield operator

    def names(self, definition, is_constructor):
        """The names in the text of a definition that aren't its own variables or fields."""
        text = self.texts.get(definition, "")
        variables = {name for name in bound(text) if name not in self.owners and not is_constructor(self.imports.get(name))}
        text = re.sub(r"(?m)^\s+pub [\w']+ :", ":", text)
        if "record" in text:
            text = re.sub(r"(?:(?<=[{;])|(?m:^))\s*[\w'₁]+ = ", " = ", text)
        words = {word for word in re.findall(WORD, text) if word.split(".")[0] not in variables}
        return words | set(self.operators(text))


class Specs:
    """The specs of a tree, by crate and module."""

    def __init__(self, texts):
        self.modules = {key: Module(text) for key, text in texts.items() if key[1] != "Lib"}
        self.passed = {(crate, module): other for (crate, name), text in texts.items() if name == "Lib" for other, module in PASSED.findall(text)}
        self.constructors = {(crate, name, word) for (crate, name), module in self.modules.items() for word in module.owners}

    def resolved(self, key, words):
        """What these words name in a module."""
        module = self.modules[key]
        for word in words:
            head, *others = word.split(".")
            if head in module.texts or head in module.owners:
                yield key + (head,)
            elif head in module.imports:
                crate, name, definition = module.imports[head]
                if definition or others:
                    yield crate, name, definition or others[0]

    def unfolded(self, names):
        """All names to which these unfold, themselves among them, but for those of the standard library and of code."""
        found, left = set(), list(names)
        while left:
            crate, name, word = left.pop()
            while (crate, name) in self.passed:
                crate = self.passed[crate, name]
            module = self.modules.get((crate, name))
            if not module:
                continue
            word = module.owners.get(word, word)
            if (crate, name, word) not in found:
                found.add((crate, name, word))
                left += self.resolved((crate, name), module.names(word, self.constructors.__contains__))
        return found

    def of_clauses(self, code, function, named=None, but=()):
        """The names to which the clauses of a public function unfold, or those of these names, by the text of its file; `but` aren't followed."""
        bare = re.sub(r"(?m)^\s*(?://|ghost use).*", "", code)
        start = re.search(r"pub fn %s\b" % function, bare)
        end = start and re.search(r"(?m)^\s*\{", bare[start.end():])
        if not end:
            return set()
        clauses = re.split(r"(?m)^\s+(?=ensures|requires)", bare[start.end():start.end() + end.start()])
        if named:
            clauses = [clause for clause in clauses if re.match(r"ensures (?:%s) " % "|".join(named), clause)]
        known, roots = imports(code), []
        for head, *others in (word.split(".") for word in re.findall(WORD, "\n".join(clauses))):
            if head in known and head not in but:
                crate, module, definition = known[head]
                roots.append((crate, module, definition or "".join(others[:1])))
        return self.unfolded(roots)
