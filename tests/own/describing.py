"""Classes in Darwin: what their text is elaborated to, what can't be said, and `python -m tareslater describe`."""
import os
import subprocess
import sys
import tempfile

import tareslater
from tareslater import Begins, Component, Requires, provides
from tareslater.darwin import Undescribable, description, shape, words_of

PYTHON = os.path.dirname(os.path.dirname(os.path.abspath(tareslater.__file__)))


class Front(Component):
    order = Begins()
    each = Begins(size=2)


class Catalog(Component):
    stock = Requires()
    mail = Requires()
    audit = Requires()
    workers = Requires(size="n")

    def __init__(self, version, n):
        pass

    @provides(stock, mail, audit)
    async def order(self):
        pass

    @provides(workers, size="n")
    async def pick(self, index):
        pass

    @provides(stock, workers, audit)
    async def both(self):
        pass


class Last(Component):
    @provides()
    def get(self):
        pass


class Other(Component):
    """Of the same shape as Last."""

    @provides()
    def get(self):
        pass


CLASSES = [Front, Catalog, Last, Other]
TEXT = """component S(int v, int n) {
  inst f:Front(7); c:Catalog(v, n); l:Last(1); array w[n]:Last(9);
  bind f.order -- c.order; c.stock -- l.get; c.mail -- l.get;
  forall i:0..n - 1 { inst w[i]; bind c.workers[i] -- w[i].get; }
  when n == 2 forall i:0..1 bind f.each[i] -- c.pick[i];
}
component One(int v) { inst f:Front(0); l:Last(v); bind f.order -- l.get; }
component Two(int v) { inst f:Front(0); l:Other(v); bind f.order -- l.get; }
"""
# class 1 of version 3, of which n is 2
FLAT = """node c.n[2].both place(65539)
port c.n[2].both.left l.get.post
port c.n[2].both.right c.n[2].both_2.dine
node c.n[2].both_2 place(65539)
port c.n[2].both_2.left -
port c.n[2].both_2.right c.n[2].both_workers[0].dine
node c.n[2].both_workers[0] place(65539)
port c.n[2].both_workers[0].left w[0].get.post
port c.n[2].both_workers[0].right c.n[2].both_workers[1].dine
node c.n[2].both_workers[1] place(65539)
port c.n[2].both_workers[1].left w[1].get.post
port c.n[2].both_workers[1].right -
node c.n[2].order place(65539)
port c.n[2].order.left l.get.post
port c.n[2].order.right c.n[2].order_2.dine
node c.n[2].order_2 place(65539)
port c.n[2].order_2.left l.get.post
port c.n[2].order_2.right -
node c.n[2].pick[0] map(65539)
port c.n[2].pick[0].next c.n[2].pick_workers[0].dine
node c.n[2].pick[1] map(65539)
port c.n[2].pick[1].next c.n[2].pick_workers[0].dine
node c.n[2].pick_workers[0] place(65539)
port c.n[2].pick_workers[0].left w[0].get.post
port c.n[2].pick_workers[0].right c.n[2].pick_workers[1].dine
node c.n[2].pick_workers[1] place(65539)
port c.n[2].pick_workers[1].left w[1].get.post
port c.n[2].pick_workers[1].right -
node f.each[0] source(7)
port f.each[0].out c.n[2].pick[0].in
node f.each[1] source(7)
port f.each[1].out c.n[2].pick[1].in
node f.order source(7)
port f.order.out c.n[2].order.dine
node l.get account(131073)
node w[0].get account(131081)
node w[1].get account(131081)
"""


def told(manager, *words, folder=None):
    done = subprocess.run([*manager, *words], stdout=subprocess.PIPE, stderr=subprocess.PIPE, cwd=folder)
    return done.returncode, done.stdout.decode()


def asked(manager, words, text=TEXT):
    """What the manager says of a description of the classes."""
    with tempfile.NamedTemporaryFile("w", suffix=".dar") as file:
        file.write(description(text, CLASSES))
        file.flush()
        status, came = told(manager, words[0], file.name, *words[1:])
        return status, came.replace(file.name, "FILE")


def try_texts(tries):
    tries.same("the graph of classes", (0, FLAT), asked(tries.manager, ["flat", "S", "3", "2"]))
    status, empty = asked(tries.manager, ["flat", "S", "3", "0"])
    tries.want("arrays of no elements", status == 0 and "node c.n[0].both_2" in empty and "workers" not in empty, empty)
    for version in ("65536", "-1"):
        status, came = asked(tries.manager, ["flat", "One", version])
        tries.want("version %s" % version, status == 2 and came.startswith("description FILE: OutOfRange l "), came)
    status, came = asked(tries.manager, ["flat", "One", "65535"])
    tries.want("version 65535", status == 0 and "node l.get account(196607)\n" in came, came)
    status, came = asked(tries.manager, ["flat", "S", "1", "-1"])
    tries.want("a further integer below 0", status == 2 and "BadIndex" in came, came)
    status, plan = asked(tries.manager, ["plan", "One", "1", "--", "Two", "1"])
    tries.want("a class of the same shape is another", status == 0 and "create l.get account(196609)" in plan, plan)
    status, plan = asked(tries.manager, ["plan", "S", "1", "2", "--", "S", "1", "3"])
    tries.want("another integer replaces all nodes", status == 0 and plan.count("remove c.") == 10 and plan.count("create c.") == 13, plan)


# ---- what can't be said


def no_name():
    class Bind(Component):
        @provides()
        def bind(self):
            pass

    return Bind


def calls_a_root():
    class Bad(Component):
        out = Begins()

        @provides(out)
        async def serve(self):
            pass

    return Bad


def calls_nothing():
    class Bad(Component):
        store = Requires()

        @provides()
        async def serve(self):
            pass

    return Bad


def no_size():
    class Bad(Component):
        out = Begins(size="n")

    return Bad


def two_nodes():
    class Bad(Component):
        a = Requires()
        b = Requires()
        c = Requires()

        @provides(a, b, c)
        async def serve(self):
            pass

        @provides()
        def serve_2(self):
            pass

    return Bad


def a_stream():
    class Bad(Component):
        @provides()
        async def serve(self):
            yield 1

    return Bad


def threads_wait():
    class Bad(Component):
        @provides(thread=True)
        async def serve(self):
            pass

    return Bad


def has_a_default():
    class Bad(Component):
        def __init__(self, version, name="x"):
            pass

    return Bad


UNSAID = [
    (has_a_default, "Bad: __init__ takes integers of the component alone, each without a default, and not name='x'"),
    (no_name, "Bind: bind is no name of Darwin"),
    (calls_a_root, "Bad.serve calls out, at which the component begins by itself"),
    (calls_nothing, "Bad: no service calls store"),
    (no_size, "Bad.out: its size n is no integer that __init__ takes"),
    (two_nodes, "Bad: the name serve_2 stands twice"),
    (a_stream, "serve yields: a service answers once, and a stream is a root for each message"),
    (threads_wait, "serve is an `async def`, which doesn't run in a thread"),
]


def try_refusals(tries):
    for make, wanted in UNSAID:
        try:
            shape(make())
            tries.same(make.__name__, wanted, "nothing was raised")
        except TypeError as fault:
            tries.same(make.__name__, wanted, str(fault))
    try:
        description("", [Last] * 257)
        tries.want("257 classes", False)
    except Undescribable as fault:
        tries.same("257 classes", "there are 257 classes, and 256 are the most", str(fault))
    for call, wanted in [("Shop", ["Shop"]), ("Shop()", ["Shop"]), (" Shop ( 1 , -2 ) ", ["Shop", "1", "-2"])]:
        tries.same("the call %r" % call, wanted, words_of(call))
    for call in ("Shop(", "Shop(1,)", "Shop(x)", "", "Shop(1) --", "-- Shop"):
        try:
            tries.want("the call %r" % call, False, words_of(call))
        except ValueError as fault:
            tries.same("the call %r" % call, "%r is no call of a component, as `Shop(2)`" % call, str(fault))


# ---- the command


def try_describe(tries):
    """A description with its components is one that `plan` takes, and names them, so that it can be written anew."""
    with tempfile.TemporaryDirectory() as folder:
        with open(os.path.join(folder, "own.py"), "w") as file:
            file.write("from tareslater import *\nclass Last(Component):\n  @provides()\n  def get(self): pass\nALL = [Last]\n")
        with open(os.path.join(folder, "wired.dar"), "w") as file:
            file.write("component S(int v) { inst l:Last(v); }\n")

        def describe(*words):
            command = [sys.executable, "-m", "tareslater", "describe", *words]
            done = subprocess.run(command, cwd=folder, stdout=subprocess.PIPE, stderr=subprocess.PIPE, env=dict(os.environ, PYTHONPATH=PYTHON))
            return done.returncode, done.stdout.decode(), done.stderr.decode()

        status, whole, errors = describe("wired.dar", "own:ALL")
        tries.same("describe", (0, ""), (status, errors))
        with open(os.path.join(folder, "whole.dar"), "w") as file:
            file.write(whole)
        plan = "remove l.get\ncreate l.get account(2)\n"
        status, came = told(tries.manager, "plan", "whole.dar", "S", "1", "--", "S", "2", folder=folder)
        tries.same("a plan of what was described", (0, plan), (status, came.replace("freeze l.get\n", "")))
        tries.same("described anew by its note", (0, whole, ""), describe("whole.dar"))
        tries.same("by names of classes", whole.replace("own:ALL", "own:Last"), describe("whole.dar", "own:Last")[1])
        for words, wanted in [
            (["wired.dar"], "wired.dar has no note of its components: name them behind it, as shop:COMPONENTS"),
            (["none.dar", "own:ALL"], "[Errno 2] No such file or directory: 'none.dar'"),
            (["wired.dar", "own:None_such"], "module 'own' has no attribute 'None_such'"),
            (["wired.dar", "own:provides"], "is no class of a component"),
        ]:
            status, came, errors = describe(*words)
            tries.want("describe %s" % words, (status, came) == (2, "") and wanted in errors, errors)


def tries(tries):
    try_texts(tries)
    try_refusals(tries)
    try_describe(tries)
