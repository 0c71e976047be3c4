"""The tool that says what a log of sessions tells."""
from tries import Came

SESSION = """session 2026-12-01T04:30:00 darwin_run apply 20 x.dar S 1 -- S 2
1.000 start S(1)
1.100 make 0 f.out source(0)
1.200 make 1 t.add account(1)
1.300 link 0 1 0
1.400 commit
1.500 change S(2)
1.600 close 0
1.700 wait 20
2.000 > busy 0
2.000 > closed 0
9.500 open 0 1
10.000 abandon
end 7
session 2026-12-01T04:31:00 darwin_run apply 20 x.dar S 1 -- S 2
1.000 start S(1)
1.100 make 0 f.out source(0)
1.200 make 1 t.add account(1)
1.300 link 0 1 0
1.400 commit
1.500 change S(2)
1.600 close 0
1.700 wait 20
2.000 > busy 0
2.000 > closed 0
3.500 > idle 0
3.600 drained 0 1
3.700 ready
3.800 > go
3.900 unlink 0
4.000 remove 1
4.100 make 2 t.add account(2)
4.200 link 0 2 0
4.300 reopen 0
4.500 commit
end 0
"""


def try_sessions(tries):
    wanted = """2026-12-01T04:30:00 S 1 -- S 2: NOT MADE
  held 8.0 ms: f.out
  still under way: f.out
2026-12-01T04:31:00 S 1 -- S 2: made
  held 2.5 ms: f.out
  waited 1.5 ms, at last for f.out
  made: t.add account(2)
"""
    tries.same("the summary of a log", Came(0, wanted, ""), tries.tool("session_summary", text=SESSION))
    tries.same("what was said", Came(0, "busy 0\nclosed 0\nidle 0\ngo\n", ""), tries.tool("session_summary", "--said", text=SESSION))


def try_bad_logs(tries):
    refused = "description x.dar: NoTop L\n"
    rows = [
        ("", "the text is empty, and no log"),
        (refused, "line 1 is none of a log: description x.dar: NoTop L"),
        (SESSION.replace("source", "engine"), "line 3 is none of a log: 1.100 make 0 f.out engine(0)"),
        (SESSION.replace("open 0", "open 9"), "line 12 is none of a log: 9.500 open 9 1"),
    ]
    for text, refusal in rows:
        came = tries.tool("session_summary", text=text)
        tries.same("session_summary of %r" % text[:40], 2, came.status)
        tries.has("its refusal", came.errors + came.text, ["session_summary: " + refusal])


TRIED = (try_sessions, try_bad_logs)
