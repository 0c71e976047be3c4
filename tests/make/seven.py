"""Seven changes, each between two components of one description: `PAIRS` has its text, and the words of both."""
import os

EXAMPLES = os.path.join(os.path.dirname(os.path.dirname(os.path.dirname(os.path.abspath(__file__)))), "examples")
# two producers with a queue each share a stage; then a second stage takes one of them
PIPES = """component source(int n) { require out; }
component map(int k) { provide in; require next; }
component buffer(int cap) { provide in; require next; }
component sink { provide in; }
component Lane(int n, int cap) { require out; inst s:source(n); q:buffer(cap); bind s.out -- q.in; q.next -- out; }
component Pipes(int stages, int cap) {
  array lane[2]:Lane(6, cap); stage[2]:map(1);
  inst archive:sink;
  forall i:0..1 inst lane[i];
  forall j:0..stages-1 { inst stage[j]; bind stage[j].next -- archive.in; }
  bind lane[0].out -- stage[0].in; lane[1].out -- stage[stages-1].in;
}
"""
# two offices; the account that both use goes from the one to the other, and then has another path
OFFICES = """component teller(int n) { require move; }
component branch { provide move; require from, to; }
component account(int b) { provide post; }
component Office(int shares) {
  provide shared; require other;
  inst t:teller(4); b:branch; own:account(30);
  bind t.move -- b.move; b.from -- own.post;
  when shares { inst till:account(50); bind b.to -- till.post; shared -- till.post; }
  when shares == 0 bind b.to -- other;
}
component Offices(int first) {
  inst n:Office(first); s:Office(1-first);
  bind n.other -- s.shared; s.other -- n.shared;
}
"""
# clerks ask for prices while they order from a shelf that all share; then there are more clerks, and other prices
ORDERS = """component source(int n) { require out; }
component buffer(int cap) { provide in; require next; }
component sink { provide in; }
component asker(int n) { require sum; }
component adder { provide sum; }
component Clerk(int cap) { require goods, price; inst s:source(5); desk:buffer(cap); a:asker(3); bind s.out -- desk.in; desk.next -- goods; a.sum -- price; }
component Orders(int clerks, int prices, int cap) {
  array clerk[clerks]:Clerk(cap); pricing[prices]:adder;
  inst shelf:sink;
  forall j:0..prices-1 inst pricing[j];
  forall i:0..clerks-1 { inst clerk[i]; bind clerk[i].goods -- shelf.in; clerk[i].price -- pricing[i % prices].sum; }
}
"""


def example(name):
    with open(os.path.join(EXAMPLES, name), encoding="utf-8") as file:
        return file.read()


PAIRS = {
    "pipes": (PIPES, ["Pipes", "1", "2"], ["Pipes", "2", "2"]),
    "offices": (OFFICES, ["Offices", "1"], ["Offices", "0"]),
    "orders": (ORDERS, ["Orders", "2", "1", "2"], ["Orders", "3", "3", "4"]),
    "fan": (example("fan.dar"), ["Fan", "2", "1", "2"], ["Fan", "3", "5", "2"]),
    "pipe": (example("pipe.dar"), ["Main", "2"], ["Main", "4"]),
    "table": (example("table.dar"), ["Table", "3", "1", "9"], ["Table", "3", "1", "0"]),
    "turn": (example("turn.dar"), ["Turn", "1"], ["Turn", "0"]),
}


def forms(old, new):
    """The ways to say the two sides of a change."""
    return [["a.dar", *old, "--", *file, *new] for file in ([], ["a.dar"], ["./a.dar"], ["b.dar"])]
