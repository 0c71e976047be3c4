"""The tables of the language: each kind of nodes with its provisions, its requirements and whether it has an argument; which requirements a kind's services depend
on; keywords and signs."""
KINDS = {
    "philosopher": ([], ["dine"], True),
    "place": (["dine"], ["left", "right"], True),
    "fork": (["hold"], [], False),
    "source": ([], ["out"], True),
    "map": (["in"], ["next"], True),
    "buffer": (["in"], ["next"], True),
    "sink": (["in"], [], False),
    "teller": ([], ["move"], True),
    "branch": (["move"], ["from", "to"], False),
    "account": (["post"], [], True),
    "asker": ([], ["sum"], True),
    "adder": (["sum"], [], False),
}
DEPENDS = {"place": {"left", "right"}, "map": {"next"}, "branch": {"from", "to"}}
KEYWORDS = "component provide require inst array bind forall when int and or".split()
SIGNS = "{ } ( ) [ ] ; : , . .. -- < > <= >= == != + - * / %".split()
