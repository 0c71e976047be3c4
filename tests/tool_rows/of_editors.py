"""Files for editors: the package for Vim, and the extension for VS Code."""
import json
import os
import re
import shutil
import tempfile

import tables
from program import TOP
from tries import TOOLS

CODE = os.path.join(TOOLS, "vscode")
VIM = """
set nocompatible
set runtimepath^=%(package)s
filetype plugin on
syntax on
let g:out = []
function! Group(line, column)
  for l:column in range(1, a:column)
    let l:name = synIDattr(synID(a:line, l:column, 1), 'name')
  endfor
  return l:name
endfunction
%(rows)s
edit %(folder)s/line.dar
let &l:makeprg = 'cat %(folder)s/refusals'
silent make!
for s:fault in getqflist()
  call add(g:out, fnamemodify(bufname(s:fault.bufnr), ':t') . ' ' . s:fault.lnum . ' ' . s:fault.col . ' ' . s:fault.text)
endfor
call writefile(g:out, '%(folder)s/out')
qa!
"""
MADE = """
set nocompatible
set runtimepath^=%(package)s
filetype plugin on
let g:out = []
function! Made(file, words)
  execute 'edit! ' . a:file
  execute 'silent make! ' . a:words
  for s:fault in filter(getqflist(), 'v:val.valid && v:val.lnum')
    call add(g:out, fnamemodify(bufname(s:fault.bufnr), ':t') . ' ' . s:fault.lnum . ' ' . s:fault.col . ' ' . s:fault.text)
  endfor
  call add(g:out, 'made')
endfunction
%(rows)s
call writefile(g:out, '%(folder)s/out')
qa!
"""
# a file, the words after it, a change of examples/line.dar or a script, and where the fault stands
EXPLAINED = [
    ("bad.dar", "Line 2", ("t:sink", "t:sunk"), ["bad.dar 7 38 UnknownComponent Line sunk"]),
    ("bad.dar", "Line 2", ("t.in;", "t.inn;"), ["bad.dar 8 35 UnknownName Line inn"]),
    ("bad.dar", "Line", ("", ""), ["bad.dar 6 11 TopArgs 1 0"]),
    ("bad.dar", "Line 2", ("int cap) {\n", "int cap {\n"), ["bad.dar 6 24 Expected"]),
    ("bad.dar", "Line 2", ("", ""), []),
    ("bad.txt", "", "use line.dar\n\nstart Line(2)\nrun 2\nchange to Line(3, 4) within 5\nend\n", ["bad.txt 5 11 TopArgs 1 2"]),
    ("bad.txt", "", "use line.dar\nstart Line(2)\nruns 2\nend\n", ["bad.txt 3 0 BadLine"]),
]
REFUSED = "description line.dar: Expected 2:21\nscript line.txt: BadLine 3\ndescription line.dar: NoTop X\nread fault none.dar\nusage\ndescription line.dar: OutOfRange a.b[1] 4:9\n"
# without `explain` beside it a name has no place
FAULTS = ["line.dar 2 21 Expected", "line.txt 3 0 BadLine", "line.dar 0 0 NoTop X", "none.dar 0 0 read ", "line.dar 4 9 OutOfRange a.b[1]"]
COLOURED = [
    ("line.dar", 1, 1, "darwinComment", "darwin"),
    ("line.dar", 2, 1, "darwinDeclaration", "darwin"),
    ("line.dar", 2, 11, "darwinComponent", "darwin"),
    ("line.dar", 7, 8, "darwinName", "darwin"),
    ("line.dar", 7, 10, "darwinComponent", "darwin"),
    ("line-grows.txt", 1, 1, "darwinScriptComment", "darwinscript"),
    ("line-grows.txt", 2, 6, "darwinScriptFile", "darwinscript"),
    ("line-grows.txt", 3, 7, "darwinScriptComponent", "darwinscript"),
    ("line-grows.txt", 5, 29, "darwinScriptWord", "darwinscript"),
    ("l-events.txt", 3, 1, "darwinScriptEvent", "darwinscript"),
    ("lone-report.txt", 3, 10, "darwinReportKind", "darwinreport"),
    ("lone-report.txt", 11, 1, "darwinReportState", "darwinreport"),
    ("lone-report.txt", 13, 8, "darwinReportBad", "darwinreport"),
]


def vim(tries, folder, script):
    """The status of Vim that does a script, and the lines that this leaves."""
    name = os.path.join(folder, "check.vim")
    with open(name, "w") as file:
        file.write(script)
    came = tries.run(["vim", "-Nu", "NONE", "-i", "NONE", "-n", "-es", "-S", name], folder=folder)
    with open(os.path.join(folder, "out")) as file:
        return came.status, file.read().split("\n")


def try_places(tries):
    """Vim goes to the place of each refusal, of names too, by `explain` beside its package."""
    if not shutil.which("vim"):
        return
    with open(os.path.join(TOP, "examples", "line.dar")) as file:
        line = file.read()
    for name, words, text, wanted in EXPLAINED:
        with tempfile.TemporaryDirectory() as folder:
            for made, content in (("line.dar", line), (name, text if isinstance(text, str) else line.replace(*text))):
                with open(os.path.join(folder, made), "w") as file:
                    file.write(content)
            script = MADE % {"package": os.path.join(TOOLS, "vim"), "folder": folder, "rows": "call Made('%s', '%s')" % (name, words)}
            tries.same("vim, :make %s of %r" % (words, text), (0, [*wanted, "made", ""]), vim(tries, folder, script))


def try_vim(tries):
    """Vim knows the files, colours them, comments in them, and goes to the places of refusals, without `explain` beside its package."""
    if not shutil.which("vim"):
        print("there is no vim: its files weren't tried")
        return
    rows, comments = [], {"darwin": "// %s", "darwinscript": "# %s"}
    for name, line, column, _, _ in COLOURED:
        rows += ["edit! %s/examples/%s" % (TOP, name), "call add(g:out, Group(%d, %d) . ' ' . &filetype . ' ' . (&filetype == 'darwinreport' ? '' : &commentstring))" % (line, column)]
    with tempfile.TemporaryDirectory() as folder:
        shutil.copy(os.path.join(TOP, "examples", "line.dar"), folder)
        package = shutil.copytree(os.path.join(TOOLS, "vim"), os.path.join(folder, "package", "vim"))
        with open(os.path.join(folder, "refusals"), "w") as file:
            file.write(REFUSED)
        status, out = vim(tries, folder, VIM % {"package": package, "folder": folder, "rows": "\n".join(rows)})
    tries.same("vim, status", 0, status)
    for (name, line, column, group, kind), shown in zip(COLOURED, out):
        tries.same("vim, %s:%d:%d" % (name, line, column), "%s %s %s" % (group, kind, comments.get(kind, "")), shown)
    for fault in FAULTS:
        tries.want("vim goes to %r" % fault, fault in out[len(COLOURED) :], out)


def scopes(grammar, text):
    """The words of a text with their scopes, by the patterns of a grammar: the first that matches at the leftmost place is taken."""
    patterns = []

    def add(rules):
        for rule in rules:
            add(grammar["repository"][rule["include"][1:]]["patterns"]) if "include" in rule else patterns.append(rule)

    add(grammar["patterns"])
    at, found = 0, []
    while True:
        tried = [(place.start(), number, place, rule) for number, rule in enumerate(patterns) for place in [re.compile(rule.get("match", rule.get("begin")), re.M).search(text, at)] if place]
        if not tried:
            return found
        _, _, place, rule = min(tried, key=lambda one: one[:2])
        at = place.end()
        if "begin" in rule:
            behind = re.compile(rule["end"]).search(text, at)
            at = behind.end() if behind else len(text)
        if "captures" in rule:
            found += [(place[int(number)], capture["name"]) for number, capture in rule["captures"].items()]
        else:
            found.append((text[place.start() : at], rule["name"]))


def loaded(name):
    """A file of the extension for VS Code."""
    with open(os.path.join(CODE, name)) as file:
        return json.load(file)


def try_extension(tries):
    """The extension for VS Code names the files that are there, and its snippets are texts that the program takes."""
    manifest = loaded("package.json")
    given = manifest["contributes"]
    named = [it["configuration"] for it in given["languages"] if "configuration" in it] + [it["path"] for it in given["grammars"] + given["snippets"]]
    held = [os.path.relpath(os.path.join(top, name), CODE) for top, _, names in os.walk(CODE) for name in names]
    tries.same("the extension's files", sorted(held), sorted(["package.json", *(os.path.normpath(name) for name in named)]))
    languages = [it["id"] for it in given["languages"]]
    tries.same("a grammar for each language", languages, [it["language"] for it in given["grammars"]])
    for it in given["grammars"]:
        tries.same("its scope", it["scopeName"], loaded(it["path"])["scopeName"])
    for it in given["snippets"]:
        for title, snippet in loaded(it["path"]).items():
            tries.want("snippet %s" % title, it["language"] in languages and snippet["body"] and snippet["prefix"], snippet)
    snippets = loaded("snippets/darwin.json")
    kinds = ["%s\n" % "\n".join(snippets["kind %s" % name]["body"]) for name in tables.KINDS]
    tries.same("the snippet of all kinds", "".join(kinds), "%s\n" % "\n".join(snippets["all kinds"]["body"]))
    text = "".join(kinds) + "component L { inst s:source(1); t:sink; bind s.out -- t.in; }\n"
    came = tries.run([tries.program, "flat", "/dev/stdin", "L"], text=text)
    tries.same("the kinds are taken", (0, "node s source(1)\nport s.out t.in\nnode t sink()\n"), (came.status, came.text))
    body = "\n".join(loaded("snippets/darwinscript.json")["script"]["body"])
    script = re.sub(r"\$\{\d+:([^}]*)\}", r"\1", body) + "\n"
    came = tries.run([tries.program, "step", "/dev/stdin"], text=script)
    tries.same("the script is taken", 0, came.status)
    for pattern in given["problemPatterns"]:
        for refused, wanted in (("description a.dar: OutOfRange a.b[1] 4:9", ("a.dar", "OutOfRange a.b[1]", "4", "9")), ("script a.txt: BadLine 3", ("a.txt", "BadLine", "3", None))):
            tries.same("the place of %r" % refused, wanted, re.match(pattern["regexp"], refused).groups())


def try_colours(tries):
    """The grammars of scripts and reports pass over blanks alone, and give a statement its scope."""
    for language, texts, words in (
        ("darwinscript", [name for name in os.listdir(os.path.join(TOP, "examples")) if re.search(r"(?<!report)\.txt$", name)], {"use x.dar": "keyword.control", "change to L": "keyword.control", "end": "keyword.control", "end 1 1 1": "keyword.other.event", "close 1": "storage", "# end": "comment"}),
        ("darwinreport", ["lone-report.txt"], {"commit": "markup.inserted", "status 7": "markup.deleted", "log 0 b": "entity.name.section", "make 0 b buffer(2)": "storage", "seen 0 1 2 3": "support"}),
    ):
        grammar = loaded("syntaxes/%s.tmLanguage.json" % language)
        for name in texts:
            with open(os.path.join(TOP, "examples", name)) as file:
                text = file.read()
            tries.same("grammar, all of %s" % name, "".join(text.split()), "".join("".join(word.split()) for word, _ in scopes(grammar, text)))
        for text, wanted in words.items():
            found = scopes(grammar, text)
            tries.want("grammar, %r begins as %s" % (text, wanted), found[0][1].startswith(wanted), found)


def try_grammar(tries):
    """The TextMate grammar gives each token of the language one scope, of its class, and passes over blanks alone."""
    grammar = loaded("syntaxes/darwin.tmLanguage.json")
    for name in sorted(name for name in os.listdir(os.path.join(TOP, "examples")) if name.endswith(".dar")):
        with open(os.path.join(TOP, "examples", name)) as file:
            text = file.read()
        tries.same("grammar, all of %s" % name, "".join(text.split()), "".join("".join(word.split()) for word, _ in scopes(grammar, text)))
    classes = {word: "storage|keyword" for word in tables.KEYWORDS}
    classes.update({sign: "punctuation" if sign in "{}()[];:,." else "keyword.operator" for sign in tables.SIGNS})
    classes.update({"fork": "variable", "_1": "variable", "When": "variable", "components": "variable", "007": "constant.numeric", "// a when": "comment", "/*/ b */": "comment"})
    for word, wanted in classes.items():
        found = scopes(grammar, word)
        tries.want("grammar, %r is %s" % (word, wanted), len(found) == 1 and found[0][0] == word and re.match(wanted, found[0][1]), found)
    found = scopes(grammar, "component L { inst t:sink(1); }")
    tries.same("grammar, names of components", [("L", "entity.name.type.component.darwin"), ("sink", "support.type.component.darwin")], [pair for pair in found if pair[0] in ("L", "sink")])


TRIED = (try_vim, try_places, try_extension, try_colours, try_grammar)
