"""Components of one's own: what they provide and require, and what they do by themselves.

    class Catalog(Component):              # in Darwin: Catalog(2), by its one integer, a version
        stock = Requires()
        mail = Requires()

        @provides(stock, mail)             # a service, and all that it may call
        async def order(self, item):
            if await self.stock(item):
                await self.mail(item)

A service is an `async def`, or a `def`: both run in the loop, and a `def` may not wait. With `provides(thread=True)` a `def` runs in a
thread, and calls by `self.stock.sync(item)`. Any number of services of a component run at once.
"""
import asyncio
import contextvars
import functools
import inspect
import threading
from concurrent.futures import Executor
from typing import Any, Callable, Coroutine, Dict, FrozenSet, List, NamedTuple, Optional, Tuple, Type, TypeVar, Union

from .gates import RUNNING, Gate, Misuse, Root, Running, Unlinked, may_begin, may_call

Size = Union[int, str, None]  # of an array of ports: a number, or the name of one of the component's integers; None is no array
Got = TypeVar("Got")
NOTHING: FrozenSet[str] = frozenset()


class Provision:
    """A provided service: its handler, and the requirements that this may call. Called on a component it is the plain method."""

    def __init__(self, handler: Callable[..., Any], calls: Tuple["Requires", ...], thread: bool, size: Size) -> None:
        if inspect.isasyncgenfunction(handler) or inspect.isgeneratorfunction(handler):
            raise TypeError("%s yields: a service answers once, and a stream is a root for each message" % handler.__name__)
        if thread and inspect.iscoroutinefunction(handler):
            raise TypeError("%s is an `async def`, which doesn't run in a thread" % handler.__name__)
        self.name, self.handler, self.requirements, self.thread, self.size = handler.__name__, handler, calls, thread, size
        self.is_async = inspect.iscoroutinefunction(handler)
        self.__doc__ = handler.__doc__

    @property
    def calls(self) -> FrozenSet[str]:
        """The names of the requirements that the handler may call."""
        return frozenset(requirement.name for requirement in self.requirements)

    def __get__(self, owner: Optional["Component"], _: type) -> Any:
        return self if owner is None else self.handler.__get__(owner)


def provides(*calls: "Requires", thread: bool = False, size: Size = None) -> Callable[[Callable[..., Any]], Any]:
    """Makes a method a provided service, which may call these requirements and no others. With a size it is an array of services, and the
    method gets the index first."""
    return lambda handler: Provision(handler, calls, thread, size)


class End(NamedTuple):
    """A service to which a requirement leads, by its place in the system; the element where it is one of an array."""

    path: str
    provision: str
    element: Optional[int]

    @property
    def service(self) -> str:
        """The service, as `pick[2]` where it is an element."""
        return self.provision if self.element is None else "%s[%d]" % (self.provision, self.element)


class Target:
    """A service of a component of this process, to which a requirement leads."""

    __slots__ = ("owner", "end", "provision", "handler", "calls", "is_plain")

    def __init__(self, owner: "Component", end: End) -> None:
        self.owner, self.end, self.provision = owner, end, owner.provisions[end.provision]
        provision = self.provision
        bound = provision.handler.__get__(owner)
        self.handler: Callable[..., Any] = bound if end.element is None else functools.partial(bound, end.element)
        self.calls = provision.calls
        # a `def` that calls nothing begins and ends while its caller stands still, so that there is nothing to count
        self.is_plain = not provision.is_async and not provision.thread and not provision.requirements

    def count_in(self, root: Root) -> "contextvars.Token[Optional[Running]]":
        """Counts a service in, and says for which root it runs."""
        root.hold()
        with self.owner._lock:
            self.owner._serving += 1
        return RUNNING.set(Running(root, self.owner, self.calls))

    def count_out(self, root: Root) -> None:
        """Counts a service out."""
        with self.owner._lock:
            self.owner._serving -= 1
        root.release()

    async def serve(self, root: Root, args: Tuple[Any, ...], words: Dict[str, Any]) -> Any:
        """Runs the handler for a caller in the loop."""
        if self.provision.thread:
            return await self.in_thread(root, args, words)
        token = self.count_in(root)
        try:
            answer = self.handler(*args, **words)
            return (await answer) if self.provision.is_async else answer
        finally:
            RUNNING.reset(token)
            self.count_out(root)

    async def in_thread(self, root: Root, args: Tuple[Any, ...], words: Dict[str, Any]) -> Any:
        """Runs the handler in a thread. It is under way until the thread has done it, also where the caller goes before."""
        token = self.count_in(root)
        context = contextvars.copy_context()
        RUNNING.reset(token)

        def work() -> Any:
            try:
                return context.run(self.handler, *args, **words)
            finally:
                self.count_out(root)

        try:
            done = self.owner.loop.run_in_executor(self.owner.threads, work)
        except BaseException:
            self.count_out(root)
            raise
        done.add_done_callback(lambda done: done.cancelled() or done.exception())
        return await asyncio.shield(done)

    def serve_from_thread(self, root: Root, args: Tuple[Any, ...], words: Dict[str, Any]) -> Any:
        """Runs the handler for a caller in a thread: there, if it is for threads, else in the loop."""
        if not self.provision.thread:
            return in_loop(self.owner.loop, self.serve(root, args, words))
        token = self.count_in(root)
        try:
            return self.handler(*args, **words)
        finally:
            RUNNING.reset(token)
            self.count_out(root)


def in_loop(loop: asyncio.AbstractEventLoop, work: Coroutine[Any, Any, Got]) -> Got:
    """What this work in the loop gives, for a thread beside it."""
    return asyncio.run_coroutine_threadsafe(work, loop).result()


def outside(loop: asyncio.AbstractEventLoop, work: Coroutine[Any, Any, Any]) -> "asyncio.Task[Any]":
    """A task that belongs to no root."""
    task: "asyncio.Task[Any]" = contextvars.Context().run(loop.create_task, work)
    return task


def must_be_beside(loop: asyncio.AbstractEventLoop, name: object) -> None:
    """Refuses a wait that would stop the loop for which it waits."""
    if asyncio._get_running_loop() is loop:
        raise Misuse("%s.sync is called in the loop, which it would stop: `await %s(..)`" % (name, name))


class Traffic(NamedTuple):
    """What goes through a requirement."""

    uses: int  # calls so far, or roots that were begun
    under_way: int = 0  # roots, and how many wait at the gate
    waiting: int = 0
    is_open: Optional[bool] = None  # whether the gate is; None where there is none


class Handle:
    """A requirement of a component that runs. `base` is its name in the class, which an element of an array shares with others."""

    __slots__ = ("owner", "base", "key", "target")

    def __init__(self, owner: "Component", base: str, key: str) -> None:
        self.owner, self.base, self.key = owner, base, key
        self.target: Any = None  # a Target, or what stands for one of another process

    def __str__(self) -> str:
        return "%s.%s" % (self.owner.path, self.key)

    @property
    def linked(self) -> bool:
        """Whether it is bound to anything in the system that stands."""
        return self.target is not None

    @property
    def traffic(self) -> Traffic:
        """What goes through it, for those who watch."""
        raise NotImplementedError

    def where(self) -> Any:
        """Where it leads."""
        if self.target is None:
            raise Unlinked(str(self))
        return self.target


class Calls(Handle):
    """A requirement that services call: `await self.cache(key)`, or in a thread `self.cache.sync(key)`."""

    __slots__ = ("by_loop", "by_threads")

    def __init__(self, owner: "Component", base: str, key: str) -> None:
        super().__init__(owner, base, key)
        self.by_loop = self.by_threads = 0  # calls so far

    @property
    def traffic(self) -> Traffic:
        return Traffic(self.by_loop + self.by_threads)

    async def __call__(self, *args: Any, **words: Any) -> Any:
        root = may_call(self.owner, self.base, self)
        target = self.where()
        self.by_loop += 1
        if target.is_plain:
            root.must_be_open()
            return target.handler(*args, **words)
        return await target.serve(root, args, words)

    def sync(self, *args: Any, **words: Any) -> Any:
        """The same from a thread."""
        must_be_beside(self.owner.loop, self)
        root = may_call(self.owner, self.base, self)
        target = self.where()
        with self.owner._lock:
            self.by_threads += 1
        return target.serve_from_thread(root, args, words)


class Block:
    """A root that its owner shapes: it ends after the block. Called, it calls where its requirement leads."""

    __slots__ = ("handle", "root", "token")

    def __init__(self, handle: "Roots") -> None:
        self.handle = handle

    def begun(self) -> "Block":
        """The root begins, as its gate was entered."""
        self.root = Root(self.handle.gate.leave)
        self.token = RUNNING.set(Running(self.root, self.handle.owner, NOTHING))
        return self

    async def __aenter__(self) -> "Block":
        self.handle.may_begin()
        await self.handle.gate.enter()
        return self.begun()

    def __enter__(self) -> "Block":
        self.handle.may_begin_beside()
        self.handle.gate.enter_from_thread()
        return self.begun()

    async def __aexit__(self, *_: Any) -> None:
        self.__exit__()

    def __exit__(self, *_: Any) -> None:
        RUNNING.reset(self.token)
        self.root.release()

    async def __call__(self, *args: Any, **words: Any) -> Any:
        return await self.handle.where().serve(self.root, args, words)

    def sync(self, *args: Any, **words: Any) -> Any:
        """The same from a thread."""
        must_be_beside(self.handle.owner.loop, self.handle)
        return self.handle.where().serve_from_thread(self.root, args, words)


class Roots(Handle):
    """A requirement at which its owner begins roots: `await self.shop(order)`; or, where something is at hand that must not be lost,
    `async with self.out.begin() as out: .. await out(item) ..`, which waits for the gate first. In a thread `sync` and `with`."""

    __slots__ = ("gate",)

    def __init__(self, owner: "Component", base: str, key: str) -> None:
        super().__init__(owner, base, key)
        self.gate = Gate(self)

    @property
    def traffic(self) -> Traffic:
        gate = self.gate
        return Traffic(gate.begun, gate.count, len(gate.waiting), gate.is_open)

    def may_begin(self) -> None:
        """Refuses a root inside a root, and one in another loop."""
        may_begin(self)
        if asyncio._get_running_loop() is not self.owner.loop:
            raise Misuse("%s is begun in another loop than its component's" % self)

    def may_begin_beside(self) -> None:
        """Refuses a root inside a root, and a wait in the loop."""
        may_begin(self)
        must_be_beside(self.owner.loop, self)

    def begin(self) -> Block:
        """A root for `async with`, or in a thread `with`."""
        return Block(self)

    async def __call__(self, *args: Any, **words: Any) -> Any:
        self.may_begin()
        gate = self.gate
        if not gate.try_enter():
            await gate.enter()
        target = self.target
        if target.is_plain:
            try:
                return target.handler(*args, **words)
            finally:
                gate.leave()
        root = Root(gate.leave)
        try:
            return await target.serve(root, args, words)
        finally:
            root.release()

    def sync(self, *args: Any, **words: Any) -> Any:
        """The same from a thread."""
        self.may_begin_beside()
        self.gate.enter_from_thread()
        root = Root(self.gate.leave)
        try:
            return self.where().serve_from_thread(root, args, words)
        finally:
            root.release()


class Requires:
    """A requirement that services call. With a size it is an array: `self.workers[2](job)`, `len(self.workers)`."""

    made: Type[Handle] = Calls
    name: str

    def __init__(self, size: Size = None) -> None:
        self.size = size

    def __set_name__(self, owner: type, name: str) -> None:
        self.name = name

    def __get__(self, owner: Optional["Component"], _: type) -> Any:
        return self if owner is None else owner._ports[self.name]


class Begins(Requires):
    """A requirement at which the component begins roots of its own."""

    made = Roots


Made = TypeVar("Made", bound="Component")


class Component:
    """What one's own components derive from. The integers that `__init__` takes are its arguments in Darwin; without one of its own it
    takes a version, from 0 to 65,535. A component with other integers is another: a change replaces it."""

    provisions: Dict[str, Provision] = {}
    requirements: Dict[str, Requires] = {}
    integers: Tuple[str, ...] = ("version",)
    path: str = "a component that no system has made"
    loop: asyncio.AbstractEventLoop
    threads: Optional[Executor] = None
    heir: Optional["Component"] = None  # what took over from it, once it was removed
    _serving: int
    _lock: threading.Lock
    _tasks: List["asyncio.Task[Any]"]
    _handles: Dict[str, Handle]
    _ports: Dict[str, Any]

    def __init_subclass__(cls) -> None:
        members = [(name, member) for base in reversed(cls.__mro__) for name, member in vars(base).items()]
        cls.provisions = {name: member for name, member in members if isinstance(member, Provision)}
        cls.requirements = {name: member for name, member in members if isinstance(member, Requires)}
        cls.integers = tuple(list(inspect.signature(cls.__init__).parameters)[1:])

    def __new__(cls: Type[Made], *integers: int) -> Made:
        self = super().__new__(cls)
        self._serving, self._lock, self._tasks, self._handles, self._ports = 0, threading.Lock(), [], {}, {}
        for name, requirement in cls.requirements.items():
            count = size_of(cls, integers, requirement.size)
            keys = [name] if count is None else ["%s[%d]" % (name, index) for index in range(count)]
            made = [requirement.made(self, name, key) for key in keys]
            self._handles.update(zip(keys, made))
            self._ports[name] = made[0] if count is None else tuple(made)
        return self

    def __init__(self, version: int) -> None:
        self.version = version

    async def open(self) -> None:
        """Makes ready, before any gate is closed: files, connections, processes. It begins no root."""

    async def run(self) -> None:
        """What the component does by itself. Before its removal it is cancelled, while no root of its own is under way. Where the change
        isn't made then, it is started again. So what it holds in its hands outside a root is lost."""

    def state(self) -> Any:
        """What a successor takes over. It is asked for while the component is quiescent, and stays here: the change may yet fail."""
        return None

    def take(self, state: Any) -> None:
        """Takes a predecessor's state over."""
        raise TypeError("%s takes no state over" % type(self).__name__)

    async def close(self, owns: bool) -> None:
        """Ends: after it was removed, or where the change for which it was made isn't made. `owns` says whether its state is its own.
        It isn't where a successor has it, nor where it took over what its predecessor keeps after all."""

    def spawn(self, work: Coroutine[Any, Any, Any]) -> "asyncio.Task[Any]":
        """Starts a task of the component's own, which belongs to no root and ends with the component."""
        task = outside(self.loop, work)
        self._tasks.append(task)
        task.add_done_callback(self._tasks.remove)
        return task

    @classmethod
    def has_state(cls) -> bool:
        """Whether there is anything to lose: it has a `state` of its own."""
        return cls.state is not Component.state


def size_of(cls: Type[Component], integers: Tuple[int, ...], size: Size) -> Optional[int]:
    """The size of an array of ports of a component with these integers, None where it is no array."""
    return integers[cls.integers.index(size)] if isinstance(size, str) else size
