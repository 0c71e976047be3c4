"""How a change ends that isn't made. In each case the system is the one before, and goes on."""
from typing import List, NamedTuple


class GivenUp(Exception):
    """The change wasn't made in time. `open` has the requirements whose roots were still under way."""

    def __init__(self, lines: List[str], open: List[str]) -> None:
        super().__init__("still under way: " + ", ".join(open) if open else "; ".join(lines))
        self.lines, self.open = lines, open


class Refused(Exception):
    """The manager refuses the change, or denies what it was told."""


class ManagerDied(Exception):
    """The manager couldn't be started, ended, or said nothing for too long, before the change was made."""


class NotQuiescent(Exception):
    """The manager allowed the change while a component that it touches was in the middle of something."""


class WouldLose(Exception):
    """A component with a state would be removed that is named neither by `moving` nor by `losing`."""


class Changed(NamedTuple):
    """A change that was made."""

    held: List[str]  # the requirements whose gates were closed
    held_seconds: float  # from the first gate closed to the last opened
    waited_seconds: float  # of these, until all that was under way had ended
    seconds: float  # the whole call
    lines: List[str]  # the session with the manager; what was said to it begins with `> `


class Past(NamedTuple):
    """A change that has ended, for those who look back."""

    call: str
    ended: str  # `made`, or the name of what was raised
    said: str  # and its words
    at: float  # seconds since the epoch
    held: List[str]
    held_seconds: float
    waited_seconds: float


class Plan(NamedTuple):
    """What a change would do, by paths."""

    held: List[str]  # the requirements whose gates would be closed
    removed: List[str]
    made: List[str]  # one that stands in both is replaced
    relinked: List[str]  # requirements of components that stay
    moved: List[str]  # what hands its state over
    lost: List[str]  # what would be removed with a state that goes nowhere
