"""Sessions of `apply` that were written by hand: what is said, and the lines that have to come.

A source s leads over a map m to a sink t, and so does a source r by itself; a source q leads to nothing. The ports of m, q, r and s are 0 to 3. A change
of the map closes those of m and s. `SCRIPTED` has sessions whose whole input is known, `OPEN` such in which the input stays open.
"""
FILES = {
    "a.dar": """component source(int n) { require out; }
component map(int k) { provide in; require next; }
component sink { provide in; }
component Line(int k) {
  inst q:source(0); r:source(0); s:source(0); m:map(k); t:sink;
  bind s.out -- m.in; m.next -- t.in; r.out -- t.in;
}
component Many(int n, int k) { array m[n]:map(k); forall i:0..n-1 inst m[i]; }
component Loop { inst m:map(1); bind m.next -- m.in; }
""",
    "bad.dar": "component Line { inst",
    "long.dar": "#" * ((1 << 20) + 1),
}
CALLS = ["Line", "1", "--", "Line", "2"]
START = b"""start Line(1)
make 0 m map(1)
make 1 q source(0)
make 2 r source(0)
make 3 s source(0)
make 4 t sink()
link 0 4 0
link 2 4 0
link 3 0 0
reopen 0
reopen 1
reopen 2
reopen 3
commit
change Line(2)
close 0
close 3
wait %d
"""
CLOSED = b"closed 0\nclosed 3\n"
READY = b"drained 0 0\ndrained 3 0\nready\n"
COMMIT = b"unlink 0\nunlink 3\nremove 0\nmake 5 m map(2)\nlink 3 5 0\nlink 4 4 0\nreopen 3\nreopen 4\ncommit\n"
ABANDON = b"reopen 0\nreopen 3\nabandon\n"
BOTH = b"open 0 0\nopen 3 0\n"
MOST = 4294967295


def bad(line):
    return b"bad %d\n" % line + ABANDON, 3


def denied(line, rule):
    return b"denied %d %d\n" % (line, rule) + ABANDON, 9


def pending(within, open_):
    return b"pending %d\n" % within + open_ + ABANDON, 7


DONE = READY + COMMIT, 0
STOPPED = READY + b"pending 9\n" + ABANDON, 7

# what is tried, how many rounds are waited for, what is said; what comes behind `wait`, and the status
SCRIPTED = [
    ("nothing comes", 9, b"", *pending(9, BOTH)),
    ("all is drained", 9, CLOSED + b"go\n", *DONE),
    ("ports in another order", 9, b"closed 3\nclosed 0\ngo\n", *DONE),
    ("a root is under way", 9, b"busy 3\nclosed 3\nclosed 0\nidle 3\ngo\n", b"drained 0 0\ndrained 3 1\nready\n" + COMMIT, 0),
    ("roots come and go", 9, b"busy 3\nidle 3\nbusy 3\nidle 3\nbusy 0\nidle 0\n" + CLOSED + b"go\n", b"drained 0 1\ndrained 3 2\nready\n" + COMMIT, 0),
    ("a root stays", 9, b"closed 0\nbusy 3\nclosed 3\nstop\n", *pending(9, b"open 3 1\n")),
    ("a port isn't closed", 9, b"closed 0\nbusy 3\n", *pending(9, b"open 3 1\n")),
    ("another port is busy all the time", 9, b"busy 2\n" + CLOSED + b"go\n", *DONE),
    ("another port is busy once all is ready", 9, CLOSED + b"busy 2\nidle 2\nbusy 2\ngo\n", *DONE),
    # ---- rounds and ends
    ("no round is waited for", 0, CLOSED + b"go\n", *pending(0, BOTH)),
    ("one round", 1, b"round\n" + CLOSED + b"go\n", *pending(1, BOTH)),
    ("one round is left", 2, b"round\n" + CLOSED + b"go\n", *DONE),
    ("the last round comes at once with the last line", 2, b"round\n" + CLOSED + b"round\ngo\n", *DONE),
    ("rounds once all is ready", 2, CLOSED + b"round\n" * 9 + b"go\n", *DONE),
    ("thousands of rounds, and one is left", 5000, b"round\n" * 4999 + CLOSED + b"go\n", *DONE),
    ("thousands of rounds, and none is left", 5000, b"round\n" * 5000 + CLOSED + b"go\n", *pending(5000, BOTH)),
    ("the most rounds", MOST, b"round\n" * 20000 + CLOSED + b"go\n", *DONE),
    ("stop before all else", 9, b"stop\n", *pending(9, BOTH)),
    ("stop once all is ready", 9, CLOSED + b"stop\n", *STOPPED),
    ("the end once all is ready", 9, CLOSED, *STOPPED),
    ("the end in the midst of go", 9, CLOSED + b"go", *STOPPED),
    ("the end in the midst of a line that has no form", 9, CLOSED + b"\0x", *STOPPED),
    ("the end in the midst of the last line", 9, b"closed 0\nclosed 3", *pending(9, BOTH[9:])),
    ("lines behind go", 9, CLOSED + b"go\n" + b"busy 9\n" * 20000, *DONE),
    ("lines behind stop", 9, b"stop\n" + CLOSED + b"go\n", *pending(9, BOTH)),
    ("lines behind one that is bad", 9, b"x\nx\n" + CLOSED + b"go\n", *bad(1)),
    ("zero bytes behind go", 9, CLOSED + b"go\n" + bytes(1 << 20), *DONE),
    # ---- lines that say nothing, and blanks
    ("blank lines and comments", 9, b"\n \n\t\r\n#\n# closed 0\n \t#x\n#\0\xff\n" + CLOSED + b"#\n\ngo\n", *DONE),
    ("blanks round words", 9, b" closed 0\t\r\n\tclosed \t 3 \n  go \n", *DONE),
    ("carriage returns", 9, CLOSED.replace(b"\n", b"\r\n") + b"go\r\n", *DONE),
    ("many lines that say nothing", 9, b"\n#\n" * 50000 + CLOSED + b"go\n", *DONE),
    ("a line behind many that say nothing is bad", 9, b"\n#\n" * 5000 + b"x\n", *bad(10001)),
    ("the longest lines", 9, b" " * 4096 + b"\n" + b"#" * 4096 + b"\n" + b"closed 0".ljust(4096) + b"\n" + b"closed 3".rjust(4096) + b"\ngo\n", *DONE),
    ("a blank line that is too long", 9, b" " * 4097 + b"\n" + CLOSED, *bad(1)),
    ("a comment that is too long", 9, b"\n#" + b"x" * 4096 + b"\n" + CLOSED, *bad(2)),
    ("a carriage return is one byte too much", 9, b"#".ljust(4096) + b"\r\n" + CLOSED, *bad(1)),
    ("a long line without an end", 9, b"closed 0\n" + b"x" * 4097, *bad(2)),
    ("a line without an end that isn't too long", 9, b"closed 0\n" + b"x" * 4096, *pending(9, BOTH[9:])),
    ("a line of many megabytes", 9, b"closed 0\n" + b"0" * 10000000, *bad(2)),
    # ---- forms
    ("a word by itself", 9, b"closed\n", *bad(1)),
    ("a word too many", 9, b"closed 0 0\n", *bad(1)),
    ("no such word", 9, CLOSED + b"open 0\n", READY + bad(3)[0], 3),
    ("capital letters", 9, b"Closed 0\n", *bad(1)),
    ("a number alone", 9, b"0\n", *bad(1)),
    ("round with a number", 9, b"round 1\n", *bad(1)),
    ("stop with a number", 9, b"stop 0\n", *bad(1)),
    ("go with a number", 9, CLOSED + b"go 0\n", READY + bad(3)[0], 3),
    ("an event", 9, b"close 0\n", *bad(1)),
    ("an event with a serial", 9, b"begin 3 1 0\n", *bad(1)),
    ("a sign before a number", 9, b"closed +0\n", *bad(1)),
    ("a minus before a number", 9, b"closed -0\n", *bad(1)),
    ("signs behind a number", 9, b"closed 0,\n", *bad(1)),
    ("signs round a number", 9, b"closed(0)\n", *bad(1)),
    ("a comment behind a word", 9, b"closed 0 # now\n", *bad(1)),
    ("letters in a number", 9, b"closed 0x0\n", *bad(1)),
    ("digits of another script", 9, "closed ٠\n".encode(), *bad(1)),
    ("a mark of bytes' order", 9, b"\xef\xbb\xbfclosed 0\n", *bad(1)),
    ("a zero byte", 9, b"closed 0\0\n", *bad(1)),
    ("a zero byte as a blank", 9, b"closed\0" + b"0\n", *bad(1)),
    ("a line of a zero byte", 9, b"\0\n", *bad(1)),
    ("a form feed as a blank", 9, b"closed\f0\n", *bad(1)),
    ("a line of a form feed", 9, b"\f\n", *bad(1)),
    ("a carriage return within a line", 9, b"closed 0\rclosed 3\n", *bad(1)),
    ("a space that is no blank", 9, "closed\u00a00\n".encode(), *bad(1)),
    ("leading zeros", 9, b"closed 00\nclosed " + b"0" * 4000 + b"3\ngo\n", *DONE),
    ("a number of thousands of digits", 9, b"closed " + b"9" * 4000 + b"\n", *bad(1)),
    ("a number one more than 32 bits hold", 9, b"closed 4294967296\n", *bad(1)),
    ("a number that is 3 but for 32 bits", 9, b"closed 4294967299\n", *bad(1)),
    ("a number that is 3 but for 64 bits", 9, b"closed 18446744073709551619\n", *bad(1)),
    # ---- what makes no sense, and what the machine denies
    ("go too early", 9, b"closed 0\ngo\n", *bad(2)),
    ("go at first", 9, b"go\n", *bad(1)),
    ("closed again", 9, b"closed 0\nclosed 0\n", *bad(2)),
    ("closed again once all is ready", 9, CLOSED + b"closed 3\n", READY + bad(3)[0], 3),
    ("closed of a port that needn't be", 9, b"closed 2\n", *bad(1)),
    ("closed of no port", 9, b"closed 4\n", *bad(1)),
    ("busy of no port", 9, b"\nbusy 4\n", *bad(2)),
    ("idle of no port", 9, b"idle 4\n", *bad(1)),
    ("busy of a port that the commit makes", 9, CLOSED + b"busy 4\n", READY + bad(3)[0], 3),
    ("idle without busy", 9, b"idle 3\n", *denied(1, 10)),
    ("idle again", 9, b"busy 3\nidle 3\nidle 3\n", *denied(3, 10)),
    ("busy again", 9, b"busy 3\nbusy 3\n", *denied(2, 4)),
    ("busy behind closed", 9, b"# one\nclosed 3\n\nbusy 3\n", *denied(4, 2)),
    ("busy of an unlinked port", 9, b"busy 1\n", *denied(1, 3)),
    ("idle of an unlinked port", 9, b"idle 1\n", *denied(1, 10)),
    ("busy once all is ready", 9, CLOSED + b"busy 3\n", READY + denied(3, 2)[0], 9),
    ("idle once all is ready", 9, CLOSED + b"idle 0\n", READY + denied(3, 10)[0], 9),
    ("busy of another port again once all is ready", 9, CLOSED + b"busy 2\nround\nbusy 2\n", READY + denied(5, 4)[0], 9),
]

# what is tried, how many rounds are waited for, and by turns what is said and what has to come at once; then the status, while the input is still open
OPEN = [
    ("each group comes before more is said", 9, [(b"", START % 9), (b"closed 0\n", b""), (b"closed 3\n", READY), (b"go\n", COMMIT)], 0),
    ("an answer comes in the midst of the next line", 9, [(b"", START % 9), (CLOSED + b"g", READY), (b"o\n", COMMIT)], 0),
    ("a line that is bad", 9, [(b"", START % 9), (b"x\n", bad(1)[0])], 3),
    ("a line that is denied", 9, [(b"", START % 9), (b"idle 0\n", denied(1, 10)[0])], 9),
    ("a line that is too long is refused before its end", 9, [(b"", START % 9), (b"#" * 4096, b""), (b"#", bad(1)[0])], 3),
    ("stop", 9, [(b"", START % 9), (b"stop\n", pending(9, BOTH)[0])], 7),
    ("stop once all is ready", 9, [(b"", START % 9), (CLOSED, READY), (b"stop\n", b"pending 9\n" + ABANDON)], 7),
    ("the last round", 2, [(b"", START % 2), (b"round\nround", b""), (b"\n", pending(2, BOTH)[0])], 7),
    ("no round is waited for", 0, [(b"", START % 0 + pending(0, BOTH)[0])], 7),
]

USAGE, NOTHING = (1, b"usage\n"), b"wait %d\nready\npending %d\nabandon\n"
# words that are refused, of which nothing is read; and words of a change that closes nothing, whatever its rounds are
REFUSED = [
    (["apply"], *USAGE),
    (["apply", "9"], *USAGE),
    (["apply", "9", "a.dar"], *USAGE),
    (["apply", "9", "a.dar", "Line", "1"], *USAGE),
    (["apply", "9", "a.dar", "Line", "1", "--"], *USAGE),
    (["apply", "9", "a.dar", "--", "Line", "1"], *USAGE),
    (["apply", "9", "a.dar"] + CALLS + ["--", "Line", "3"], *USAGE),
    (["apply", "9", ""] + CALLS, *USAGE),
    (["apply", ""] + ["a.dar"] + CALLS, *USAGE),
    (["apply", "x", "a.dar"] + CALLS, *USAGE),
    (["apply", "-1", "a.dar"] + CALLS, *USAGE),
    (["apply", "+1", "a.dar"] + CALLS, *USAGE),
    (["apply", "4294967296", "a.dar"] + CALLS, *USAGE),
    (["apply", "9", "a.dar", "Line", "x", "--", "Line", "2"], *USAGE),
    (["apply", "9", "a.dar", "9", "--", "Line", "2"], *USAGE),
    (["apply", "9", "no.dar"] + CALLS, 4, b"read fault no.dar\n"),
    (["apply", "9", "long.dar"] + CALLS, 2, b"description long.dar: TooLong\n"),
    (["apply", "9", "bad.dar"] + CALLS, 2, b"description bad.dar: Expected 1:22\n"),
    (["apply", "9", "a.dar", "Ring", "--", "Line", "2"], 2, b"description a.dar: NoTop Ring\n"),
    (["apply", "9", "a.dar", "Line", "1", "--", "Ring"], 2, b"description a.dar: NoTop Ring\n"),
    (["apply", "9", "a.dar", "Line", "1", "--", "Line"], 2, b"description a.dar: TopArgs 1 0\n"),
    (["apply", "9", "a.dar", "Line", "1", "--", "Loop"], 2, b"description a.dar: DependsCycle m\n"),
    (["apply", "9", "a.dar", "Many", "1024", "1", "--", "Line", "2"], 2, b"description a.dar: NodesFull 0 1024\n"),
    (["apply", "9", "a.dar", "Many", "600", "1", "--", "Many", "600", "2"], 2, b"description a.dar: NodesFull 600 600\n"),
    (["apply", "0", "a.dar", "Many", "1", "1", "--", "Many", "1", "1"], 7, b"start Many(1,1)\nmake 0 m[0] map(1)\nreopen 0\ncommit\nchange Many(1,1)\n" + NOTHING % (0, 0)),
    (["apply", "007", "a.dar", "Many", "0", "1", "--", "Many", "1", "-0"], 7, b"start Many(0,1)\ncommit\nchange Many(1,0)\n" + NOTHING % (7, 7)),
]
