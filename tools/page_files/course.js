"use strict";
// What happened, moment by moment: the state of the graph behind each moment, and what each change did.

const PHASES = ["idle", "asked", "taken up", "answered", "half answered", "asked again", "busy"];
const AFTER = { begin: 1, call: 1, take: 2, hear: 2, give: 3, more: 4, ask: 5, end: 0, busy: 6, idle: 0 };
const CHANGES = ["change", "plan", "part"];
const KEPT = 1024; // a state is kept at every so manyth moment

class State {
  constructor(nodes, ports) {
    this.live = new Uint8Array(nodes);
    this.open = new Uint8Array(ports);
    this.target = new Int32Array(ports).fill(-1);
    this.phase = new Uint8Array(ports);
    this.serial = new Int32Array(ports);
    this.isRoot = new Uint8Array(ports);
    this.closed = 0; // gates of live nodes
    this.busy = 0; // transactions under way
  }

  copy() {
    const made = Object.create(State.prototype);
    for (const [name, value] of Object.entries(this)) made[name] = typeof value === "number" ? value : value.slice();
    return made;
  }
}

class Course {
  constructor(data) {
    this.data = data;
    this.nodes = data.nodes;
    // in a session the program asks for closed gates, and the runtime says when they are
    this.closing = data.what === "session" ? ["closed", "drained"] : ["close"];
    this.length = data.moments[0].length;
    this.verbs = data.moments[0].map((code) => data.verbs[code]);
    [, this.a, this.b, this.c] = data.moments;
    this.owner = new Int32Array(data.ports);
    this.nodes.forEach((node, slot) => this.owner.fill(slot, node.first, node.first + node.requires.length));
    this.sections = data.sections.map((section, number) => ({ ...section, number, last: this.length - 1 }));
    this.sections.forEach((section, number) => this.begin(section, this.sections[number - 1]));
    this.walk();
  }

  begin(section, before) {
    if (before) before.last = section.first - 1;
    section.isChange = CHANGES.includes(section.name);
    section.held = new Set();
    section.removed = new Set();
    section.made = new Set();
    section.moved = new Set();
    section.lost = new Set();
    section.cut = new Map(); // where each port led that is unlinked
    section.linked = new Map();
    section.stillOpen = [];
    section.end = null;
    if (this.data.what === "session" && section.isChange) section.waited = 0; // lines `round`
  }

  // One pass over all moments: kept states, the heights of the line of time, when nodes came and went, and what each section did.
  walk() {
    const state = new State(this.nodes.length, this.data.ports);
    this.kept = [];
    this.closed = new Uint16Array(this.length);
    this.busy = new Uint16Array(this.length);
    this.born = new Int32Array(this.nodes.length).fill(-1);
    this.gone = new Int32Array(this.nodes.length).fill(-1);
    let section = 0;
    for (let moment = 0; moment < this.length; moment++) {
      if (moment % KEPT === 0) this.kept.push(state.copy());
      while (section + 1 < this.sections.length && this.sections[section + 1].first <= moment) section++;
      this.note(this.sections[section], moment, state);
      this.apply(state, moment);
      this.closed[moment] = state.closed;
      this.busy[moment] = state.busy;
    }
  }

  note(section, moment, state) {
    const verb = this.verbs[moment], number = this.a[moment];
    if (verb === "make") {
      this.born[number] = moment;
      section.made.add(number);
      if (this.nodes[number].source >= 0) section.moved.add(number);
    } else if (verb === "remove") {
      this.gone[number] = moment;
      section.removed.add(number);
      if (this.nodes[number].lost) section.lost.add(number);
    } else if (verb === "unlink") section.cut.set(number, state.target[number]);
    else if (verb === "link") section.linked.set(number, this.b[moment]);
    else if (verb === "close") section.held.add(this.owner[number]);
    else if (verb === "freeze") section.held.add(number);
    else if (verb === "drained") section.drainedLast = moment;
    else if (verb === "open") section.stillOpen.push(moment);
    else if (verb === "pending") section.pending = number;
    else if (verb === "round") section.waited++;
    else if (["commit", "abandon", "skipped", "denied", "bad"].includes(verb)) section.end = section.end || verb;
  }

  apply(state, moment) {
    const verb = this.verbs[moment], number = this.a[moment];
    if (verb in AFTER) this.turnPhase(state, number, verb, moment);
    else if (verb === "reopen" || this.closing.includes(verb)) this.turnGate(state, number, verb === "reopen");
    else if (verb === "freeze" || verb === "thaw") for (const port of this.portsOf(number)) this.turnGate(state, port, verb === "thaw");
    else if (verb === "make") this.make(state, number);
    else if (verb === "remove") this.remove(state, number);
    else if (verb === "link") state.target[number] = this.b[moment];
    else if (verb === "unlink") state.target[number] = -1;
    else if (verb === "start") this.clear(state);
  }

  // A start numbers its nodes anew: where one stands behind another, the nodes of the one before are no more.
  clear(state) {
    for (let slot = 0; slot < this.nodes.length; slot++) if (state.live[slot]) this.remove(state, slot);
  }

  portsOf(slot) {
    const { first, requires } = this.nodes[slot];
    return requires.map((_, at) => first + at);
  }

  make(state, slot) {
    state.live[slot] = 1;
    state.closed += this.nodes[slot].requires.length;
  }

  remove(state, slot) {
    state.live[slot] = 0;
    for (const port of this.portsOf(slot)) {
      if (!state.open[port]) state.closed--;
      if (state.phase[port]) this.setPhase(state, port, 0);
    }
  }

  turnGate(state, port, isOpen) {
    if (!state.live[this.owner[port]] || Boolean(state.open[port]) === isOpen) return;
    state.open[port] = isOpen ? 1 : 0;
    state.closed += isOpen ? -1 : 1;
  }

  setPhase(state, port, phase) {
    state.busy += (phase ? 1 : 0) - (state.phase[port] ? 1 : 0);
    state.phase[port] = phase;
  }

  turnPhase(state, port, verb, moment) {
    this.setPhase(state, port, AFTER[verb]);
    if (verb === "begin" || verb === "busy") state.isRoot[port] = 1;
    if (verb === "call") state.isRoot[port] = 0;
    if (verb === "busy") state.serial[port]++;
    else if (verb !== "idle") state.serial[port] = this.b[moment];
  }

  // The state behind a moment.
  at(moment) {
    const kept = Math.floor(moment / KEPT), state = this.kept[kept].copy();
    for (let one = kept * KEPT; one <= moment; one++) this.apply(state, one);
    return state;
  }

  section(moment) {
    let low = 0, high = this.sections.length - 1;
    while (low < high) {
      const middle = (low + high + 1) >> 1;
      if (this.sections[middle].first <= moment) low = middle;
      else high = middle - 1;
    }
    return this.sections[low];
  }

  // What a section's change does to a node.
  marks(section, slot) {
    if (!section.isChange) return [];
    const sets = { frozen: section.held, removed: section.removed, made: section.made, moved: section.moved, lost: section.lost };
    return Object.keys(sets).filter((mark) => sets[mark].has(slot));
  }

  isClosed(state, slot) {
    return state.live[slot] && this.portsOf(slot).some((port) => !state.open[port]);
  }

  openPorts(state) {
    const found = [];
    for (let port = 0; port < this.data.ports; port++) if (state.phase[port]) found.push(port);
    return found;
  }

  // Each link that ever stood, by the nodes that it joined.
  links() {
    const seen = new Set(), found = [];
    for (let moment = 0; moment < this.length; moment++) {
      const port = this.a[moment], target = this.b[moment], key = `${port} ${target}`;
      if (this.verbs[moment] !== "link" || seen.has(key)) continue;
      seen.add(key);
      found.push({ port, target, from: this.owner[port], to: target });
    }
    return found;
  }

  portName(port) {
    const node = this.nodes[this.owner[port]];
    return `${node.path}.${node.requires[port - node.first]}`;
  }
}
