"""The first system of docs/your-system.md: it is run as it stands there, and writes what stands there."""
import os
import re
import shutil
import signal
import subprocess
import sys
import tempfile

from program import TOP, blocks, write

PAGE = os.path.join(TOP, "docs", "your-system.md")
HELP = "#!/bin/sh\ncat <<END\nusage\n    %s\nEND\n"
INSTALLED = "import tareslater, tareslater.remote; print(tareslater.__file__)"


def try_page(tries):
    with open(PAGE) as file:
        found = blocks(file.read())
    program = next(lines for _, lines in found if lines[0] == "# ledger.py")
    shown = next(lines for _, lines in found if lines[0].startswith("$ "))
    tries.same("the command of the page", "$ PYTHONPATH=python python3 ledger.py", shown[0])
    with tempfile.TemporaryDirectory() as folder:
        write(folder, {"ledger.py": "\n".join(program) + "\n", "darwin_run": '#!/bin/sh\nexec %s "$@"\n' % " ".join(tries.manager)})
        os.chmod(os.path.join(folder, "darwin_run"), 0o755)
        environment = dict(os.environ, PYTHONPATH=os.path.join(TOP, "python"), PATH=os.pathsep.join([folder, os.environ["PATH"]]))
        done = subprocess.run([sys.executable, "ledger.py"], cwd=folder, stdout=subprocess.PIPE, stderr=subprocess.PIPE, env=environment)
        tries.same("what it writes", (shown[1:], ""), (done.stdout.decode().splitlines(), done.stderr.decode()))
        command = [sys.executable, "-m", "tareslater", "board", "ledger:system", "Books"]
        served = subprocess.Popen(command, cwd=folder, stdout=subprocess.PIPE, stderr=subprocess.PIPE, env=environment)
        address = served.stdout.readline().decode()
        tries.want("its board", re.fullmatch(r"http://127\.0\.0\.1:\d+/#[\w-]{32}\n", address), address)
        served.send_signal(signal.SIGINT)
        tries.same("the end of its board", (b"", b""), served.communicate())


def try_choice(tries):
    """The manager: what is named, darwin_run as the shell finds it, the built one, the plain statements; each if its help has `apply`."""
    ask = "from tareslater import System, manager\nfor name in ('BUILT', 'PLAIN'): setattr(manager, name, manager.CLONE + '/' + name)\nprint(*System('', [], %s).manager)"
    with tempfile.TemporaryDirectory() as folder:
        package = os.path.join(folder, "python")
        shutil.copytree(os.path.join(TOP, "python", "tareslater"), os.path.join(package, "tareslater"))
        os.mkdir(os.path.join(folder, "bin"))
        found, built, plain = (os.path.join(folder, name) for name in ("bin/darwin_run", "BUILT", "PLAIN"))
        able, unable = HELP % "darwin_run apply N FILE", HELP % "darwin_run plan FILE"

        def chosen(named="", **programs):
            for name, text in programs.items():
                path = {"found": found, "built": built, "plain": plain}[name]
                with open(path, "w") as file:
                    file.write(text)
                os.chmod(path, 0o755)
            environment = dict(os.environ, PYTHONPATH=package, PATH=os.path.dirname(found) + os.pathsep + "/usr/bin:/bin")
            done = subprocess.run([sys.executable, "-c", ask % named], stdout=subprocess.PIPE, cwd=folder, env=environment)
            return done.stdout.decode().strip()

        tries.same("nothing is there", "darwin_run", chosen())
        tries.same("the plain statements", sys.executable + " " + plain, chosen(plain="#!/usr/bin/env python3\n"))
        tries.same("a built one without sessions", sys.executable + " " + plain, chosen(built=unable))
        tries.same("a built one", built, chosen(built=able))
        tries.same("one of the shell without sessions", built, chosen(found=unable))
        tries.same("one of the shell", found, chosen(found=able))
        tries.same("one that is named", "./mine -x", chosen("['./mine', '-x']"))


def try_table(tries):
    """Each word of the protocol that the package says or hears stands in the page's table."""
    with open(PAGE) as file:
        words = set(re.findall(r"`([a-z]+)(?: [A-Z0-9.]+)*`|`([a-z]+) ", file.read()))
    named = {one or other for one, other in words}
    wanted = {"busy", "closed", "idle", "round", "go", "stop", "ready", "commit", "drained", "pending", "open", "denied", "bad", "abandon"}
    tries.same("words of the protocol", set(), wanted - named)


def try_install(tries):
    """The package installs into a fresh environment, without a network, and runs from there."""
    with tempfile.TemporaryDirectory() as folder:
        made = os.path.join(folder, "venv")
        subprocess.run([sys.executable, "-m", "venv", made], check=True, stdout=subprocess.DEVNULL)
        python = os.path.join(made, "bin", "python")
        command = [python, "-m", "pip", "install", "--no-index", "--quiet", "--disable-pip-version-check", os.path.join(TOP, "python")]
        done = subprocess.run(command, stdout=subprocess.PIPE, stderr=subprocess.STDOUT)
        tries.want("it installs", done.returncode == 0, done.stdout.decode()[-600:])
        environment = {name: value for name, value in os.environ.items() if name != "PYTHONPATH"}
        done = subprocess.run([python, "-c", INSTALLED], stdout=subprocess.PIPE, cwd=folder, env=environment)
        tries.want("it runs from there", done.stdout.decode().startswith(made), done)


def try_types(tries):
    """mypy has nothing to say, where there is one."""
    done = subprocess.run(["mypy", "--strict", "--cache-dir", os.devnull, "tareslater"], cwd=os.path.join(TOP, "python"), stdout=subprocess.PIPE)
    tries.want("mypy --strict", done.returncode == 0, done.stdout.decode()[-600:])


def tries(tries):
    try_page(tries)
    try_choice(tries)
    try_table(tries)
    try_install(tries)
    if shutil.which("mypy"):
        try_types(tries)
    else:
        print("there is no mypy: types weren't checked")
