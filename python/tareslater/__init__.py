"""Systems of one's own components, wired in Darwin and changed while they run: docs/your-system.md tells how."""
from .components import Begins, Component, Requires, provides
from .gates import Misuse, Removed, Unlinked
from .outcomes import Changed, GivenUp, ManagerDied, NotQuiescent, Plan, Refused, WouldLose
from .system import System

__all__ = [
    "Begins", "Changed", "Component", "GivenUp", "ManagerDied", "Misuse", "NotQuiescent", "Plan", "Refused", "Removed", "Requires", "System",
    "Unlinked", "WouldLose", "provides",
]
