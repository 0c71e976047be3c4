"use strict";
// Moments and sections in words.

const NODE_VERBS = ["make", "remove", "freeze", "thaw"];
const PORT_VERBS = ["link", "unlink", "close", "reopen", "drained", "open", "closed", "busy", "idle", "begin", "call", "take", "more", "ask", "hear", "give", "end", "miss"];
const OF_RUNTIME = ["closed", "busy", "idle", "round", "go", "halt"];

// A moment as its line stands in the text.
function lineOf(course, moment) {
  const verb = course.verbs[moment], { a, b, c } = course;
  if (verb === "make") return made(course, a[moment]);
  if (NODE_VERBS.includes(verb)) return `${verb} ${course.nodes[a[moment]].path}`;
  if (verb === "link") return `link ${course.portName(a[moment])} ${course.nodes[b[moment]].path}`;
  if (["drained", "open"].includes(verb)) return `${verb} ${course.portName(a[moment])} ${b[moment]}`;
  if (OF_RUNTIME.includes(verb)) return `> ${verb === "halt" ? "stop" : verb}${PORT_VERBS.includes(verb) ? ` ${course.portName(a[moment])}` : ""}`;
  if (["unlink", "close", "reopen", "miss"].includes(verb)) return `${verb} ${course.portName(a[moment])}`;
  if (PORT_VERBS.includes(verb)) return `${verb} ${course.portName(a[moment])} ${b[moment]} ${c[moment]}`;
  if (["pending", "wait", "bad"].includes(verb)) return `${verb} ${a[moment]}`;
  if (verb === "denied") return `denied ${a[moment]} ${b[moment]}`;
  const section = course.section(moment);
  return section.first === moment ? section.words : verb;
}

function made(course, slot) {
  const node = course.nodes[slot];
  return `make ${node.path} ${node.shown}${node.source < 0 ? "" : ` from ${course.nodes[node.source].path}`}`;
}

// What a moment means, by its word: of an owner of a port, the node to which it leads, and its numbers.
const MEANINGS = {
  begin: ({ owner, to }) => `${owner} begins a transaction with ${to}`,
  call: ({ owner, to }) => `${owner} calls ${to} for the service that it is in`,
  take: ({ owner, to }) => `${to} takes the request of ${owner} up`,
  more: ({ owner, to }) => `${to} answers ${owner} in part, and asks back`,
  ask: ({ owner, to }) => `${owner} answers the question of ${to}`,
  hear: ({ owner, to }) => `${to} hears the answer of ${owner}`,
  give: ({ owner, to }) => `${to} answers ${owner}`,
  end: ({ owner }) => `${owner} has its answer: the transaction has ended`,
  miss: ({ owner }) => `${owner} has nobody to call there, which counts as answered`,
  close: ({ owner, what }) => (what === "session" ? "the program asks that the gate is closed" : `from here on ${owner} begins no transaction there`),
  reopen: ({ owner }) => `${owner} may begin transactions there`,
  drained: ({ owner }) => `found closed, and nothing is under way there that ${owner} began by itself`,
  open: ({ second }) => `transaction ${second} was still under way at the last look`,
  link: ({ owner, to }) => `${owner} leads to ${to} now`,
  unlink: ({ owner }) => `${owner} lets go of what it led to`,
  busy: ({ owner }) => `something that ${owner} began is under way there`,
  closed: () => "the runtime says that the gate is closed",
  idle: () => "the runtime says that nothing is under way there any more",
  freeze: () => "begins nothing from here on; what is under way ends",
  thaw: () => "its gates are opened",
  make: ({ what }) => (what === "plan" ? "is created" : "a node comes to be"),
  remove: () => "a node goes",
  run: ({ second }) => `rounds of turns; at the end of them ${plural(second, "transaction")} of this run had ended`,
  finish: ({ first, second }) => `rounds of turns until all is at rest: ${plural(second, "round")} of at most ${first}`,
  stop: () => "all gates close, and what is under way ends",
  commit: () => "the change is made",
  abandon: () => "the change is given up: all stays as it was",
  skipped: () => "passed over, since a change before it was given up",
  pending: () => "so many rounds were waited, and something was still under way",
  ready: () => "all is drained; the program waits for the word to go on",
  wait: () => "so many rounds may be waited",
  go: () => "the runtime lets the change be made",
  denied: () => "what the runtime told may not happen: line and rule",
  bad: () => "the runtime's line has no form",
};

function meaning(course, moment, state) {
  const verb = course.verbs[moment], first = course.a[moment], section = course.section(moment);
  const isOfPort = PORT_VERBS.includes(verb), target = isOfPort ? state.target[first] : -1;
  const owner = isOfPort ? course.nodes[course.owner[first]].path : "", to = target >= 0 ? course.nodes[target].path : "nothing";
  if (MEANINGS[verb]) return MEANINGS[verb]({ owner, to, first, second: course.b[moment], what: course.data.what });
  return section.first === moment ? summary(section) : "";
}

// What a section's change came to, in a line.
function summary(section) {
  const waited = section.waited ? `it waited for ${plural(section.waited, "round")}` : "";
  return [ending(section), section.isChange ? counted(section) : "", waited].filter(Boolean).join(", ");
}

function ending(section) {
  const told = { commit: "committed", abandon: "given up", skipped: "skipped", denied: "denied", bad: "refused: no form" };
  if (section.name === "run") return plural(Number(section.words.split(" ")[2]), "transaction") + " ended";
  if (section.name === "finish") return plural(Number(section.words.split(" ")[2]), "round");
  if (section.name === "part") return { commit: "", abandon: "given up", skipped: "not tried" }[section.end];
  if (["change", "start"].includes(section.name) && section.words !== "before") return told[section.end] || "without an end";
  return "";
}

// How a change came to its end, in a line.
function counted(section) {
  const counts = [[section.held.size, "frozen"], [section.removed.size, "removed"], [section.made.size, "made"], [section.moved.size, "moved"], [section.lost.size, "lost"]];
  return counts.filter(([count]) => count).map(([count, word]) => `${count} ${word}`).join(", ");
}

// The name by which a link leads to a section: changes and parts are counted by themselves.
function anchor(course, section) {
  const before = course.sections.filter((other) => other.name === section.name && other.number <= section.number).length;
  return section.isChange || before > 1 ? `${section.name}-${before}` : section.name;
}

function paths(course, slots) {
  return [...slots].map((slot) => course.nodes[slot].path);
}

// Paths that differ in one index alone, as one.
function folded(list) {
  const groups = new Map();
  for (const path of list) {
    const found = /^(.*\[)(\d+)(\].*?)$/.exec(path);
    const key = found ? `${found[1]}\u0000${found[3]}` : path;
    groups.set(key, [...(groups.get(key) || []), found ? Number(found[2]) : null]);
  }
  return [...groups].map(([key, numbers]) => key.replace("\u0000", ranges(numbers))).join(", ");
}

function ranges(numbers) {
  const rows = [];
  for (const number of [...new Set(numbers)].sort((one, other) => one - other)) {
    const last = rows[rows.length - 1];
    if (last && last[1] === number - 1) last[1] = number;
    else rows.push([number, number]);
  }
  return rows.map(([first, last]) => (first === last ? `${first}` : `${first}..${last}`)).join(",");
}
