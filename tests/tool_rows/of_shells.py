"""What tools/install leaves, and the completion of words in the shells that are there."""
import os
import shutil
import tempfile

from tries import EXAMPLES, TOOLS

LINE = EXAMPLES + "line.dar"
COMMANDS = ["flat", "plan", "parts", "roll", "apply", "replay", "step", "live", "big", "upgrade", "check"]
# what may be offered beside them: the plain statements have no text for these
HELP = {"--help", "--version", "-h", "help"}
COMPONENTS = ["source", "buffer", "sink", "Line"]
# words before the one that is completed, and what may stand there: FILES are the names of files, and BOTH these and components
FILES, BOTH = None, ()
ROWS = [
    (["plan"], FILES),
    (["flat", LINE], COMPONENTS),
    (["plan", LINE], COMPONENTS + ["--"]),
    (["plan", LINE, "Line", "2"], COMPONENTS + ["--"]),
    (["plan", LINE, "Line", "2", "--"], BOTH),
    (["plan", LINE, "Line", "2", "--", "Line"], []),
    (["plan", LINE, "Line", "2", "--", EXAMPLES + "l.dar"], ["source", "buffer", "sink", "L"]),
    (["parts", "now.graph", "--"], FILES),
    (["roll", LINE], []),
    (["roll", LINE, "2", "9"], COMPONENTS + ["--"]),
    (["apply"], []),
    (["apply", "9"], FILES),
    (["apply", "9", LINE], COMPONENTS + ["--"]),
    (["apply", "9", LINE, "Line", "2", "--"], BOTH),
    (["roll", LINE, "2", "9", "Line", "2", "--", EXAMPLES + "l.dar"], ["source", "buffer", "sink", "L"]),
    (["step"], FILES),
    (["live", "s.txt"], ["--workers"]),
    (["live", "s.txt", "--workers"], ["1", "2", "4", "8"]),
    (["live", "s.txt", "--workers", "2"], ["--watch"]),
    (["live", "s.txt", "--workers", "2", "--watch"], ["1", "2", "3", "4"]),
    (["big"], []),
]
BASH = 'source "%s/darwin_run.bash"; COMP_WORDS=(darwin_run "$@" ""); COMP_CWORD=$(($# + 1)); _darwin_run; printf "%%s\\n" "${COMPREPLY[@]}"'
ZSH = 'compadd() { [[ $1 == -- ]] && shift; print -rl -- "$@" }; _files() { ls }; source "%s/darwin_run.zsh"; words=(darwin_run "$@" ""); CURRENT=$#words; _darwin_run'
FISH = 'source "%s/darwin_run.fish"; complete -C "darwin_run $argv "'


def places(folder):
    """The files below a folder."""
    return sorted(os.path.relpath(os.path.join(top, name), folder) for top, _, names in os.walk(folder) for name in names)


def try_install(tries):
    """The program, its page and three completions stand where they are looked for, and are replaced."""
    with tempfile.TemporaryDirectory() as folder:
        for _ in range(2):
            came = tries.asking("install", folder)
            tries.same("install, its places", (0, places(folder)), (came.status, sorted(os.path.relpath(line, folder) for line in came.text.split())))
        installed = os.path.join(folder, "bin", "darwin_run")
        words = ["flat", EXAMPLES + "l.dar", "L"]
        tries.same("the program that is installed", tries.run([tries.program, *words]), tries.run([installed, *words]))
        if shutil.which("man"):
            came = tries.run(["env", "PATH=%s/bin:%s" % (folder, os.environ["PATH"]), "man", "darwin_run"])
            tries.want("its page", "plan and run changes of component systems" in " ".join(came.text.split()), came)
        came = tries.asking("install", os.path.join(installed, "none"))
        tries.same("install below a file", (2, ""), (came.status, came.text))


def completed(tries, shell, words, folder):
    """What a shell offers after these words."""
    ways = {"bash": ["bash", "-c", BASH % TOOLS, "bash"], "zsh": ["zsh", "-fc", ZSH % TOOLS, "zsh"], "fish": ["fish", "--no-config", "-c", FISH % TOOLS]}
    said = ["env", "PATH=%s/bin:%s" % (folder, os.environ["PATH"]), *ways[shell], *words]
    return sorted(line.split("\t")[0] for line in tries.run(said).text.split("\n") if line)


def try_completion(tries):
    """Each shell offers commands, files, components and numbers where they may stand."""
    with tempfile.TemporaryDirectory() as folder:
        tries.asking("install", folder)
        for shell in ("bash", "zsh", "fish"):
            if not shutil.which(shell):
                print("there is no %s: its completion wasn't tried" % shell)
                continue
            first = completed(tries, shell, [], folder)
            tries.want("%s after nothing" % shell, set(COMMANDS) <= set(first) <= HELP | set(COMMANDS), first)
            for words, wanted in ROWS:
                came, what = completed(tries, shell, words, folder), "%s after %s" % (shell, words)
                if wanted in (FILES, BOTH):
                    tries.want(what, any(it.strip("/") == "examples" for it in came) and (set(COMPONENTS) <= set(came)) == (wanted is BOTH), came)
                else:
                    tries.same(what, sorted(wanted), came)


TRIED = (try_install, try_completion)
