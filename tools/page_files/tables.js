"use strict";
// The same as tables, for those who would rather read.

const ABOUT = 200; // so many moments before and behind the one that is shown

class Tables {
  constructor(course, place) {
    Object.assign(this, { course, place });
    this.kind = "changes";
  }

  show(moment, state) {
    if (this.kind === "changes" && this.shown === "changes") return;
    this.shown = this.kind;
    const made = { changes: () => this.changes(), nodes: () => this.nodes(moment, state), open: () => this.open(state), lines: () => this.lines(moment) }[this.kind]();
    this.place.replaceChildren(made);
    this.place.setAttribute("aria-labelledby", `tab-${this.kind}`);
  }

  changes() {
    const { course } = this;
    const rows = course.sections.map((section) => {
      const list = (slots) => (section.isChange ? folded(paths(course, slots)) : "");
      const drained = section.drainedLast === undefined ? "" : `${course.portName(course.a[section.drainedLast])}, serial ${course.b[section.drainedLast]}`;
      const lost = list(section.lost), made = section.isChange || section.name === "start" ? folded(paths(course, section.made)) : "";
      return [link(section.words, `#${anchor(course, section)}`), this.how(section), list(section.held), section.isChange ? drained : "", list(section.removed), made, this.moves(section), lost];
    });
    return table(["what", "how it ended", "frozen", "drained last", "removed", "made", "moved", "state lost"], rows);
  }

  how(section) {
    const told = [ending(section)];
    const waited = section.waited === undefined ? section.pending : section.waited;
    if (waited !== undefined && section.held.size) told.push(`waited for ${waited ? plural(waited, "round") : section.end === "commit" ? "nothing" : "no round"}`);
    for (const moment of section.stillOpen) told.push(`still open: ${this.course.portName(this.course.a[moment])}, transaction ${this.course.b[moment]}`);
    const observers = this.seen(section);
    if (observers.length) told.push(`seen by observer ${observers.join(", ")}`);
    return told.filter(Boolean).join("; ");
  }

  // The observers that saw the graph of a commit.
  seen(section) {
    const commits = this.course.sections.filter((other) => other.end === "commit" && other.number <= section.number).length;
    return section.end === "commit" ? this.course.data.seen.filter((line) => line[1] === commits).map((line) => line[0]) : [];
  }

  moves(section) {
    const { nodes } = this.course;
    if (!section.isChange) return "";
    return [...section.moved].map((slot) => `${nodes[nodes[slot].source].path} → ${nodes[slot].path}`).join(", ");
  }

  nodes(moment, state) {
    const { course } = this, section = course.section(moment), rows = [];
    const engaged = new Map();
    for (const port of course.openPorts(state)) {
      const says = `${course.portName(port)} ${state.serial[port]}`;
      for (const slot of [course.owner[port], state.target[port]]) if (slot >= 0) engaged.set(slot, [...(engaged.get(slot) || []), says]);
    }
    course.nodes.forEach((node, slot) => {
      const marks = course.marks(section, slot);
      if (!state.live[slot] && !marks.length) return;
      const gates = node.requires.map((name, at) => `${name} ${state.open[node.first + at] ? "open" : "closed"}`).join(", ");
      const leads = node.requires.map((name, at) => (state.target[node.first + at] < 0 ? "–" : course.nodes[state.target[node.first + at]].path)).join(", ");
      rows.push([link(node.path, `#at=${moment + 1}&node=${encodeURIComponent(node.path)}`), node.shown, state.live[slot] ? "there" : course.born[slot] > moment ? "to come" : "gone", marks.join(", "), state.live[slot] ? gates : "", leads, (engaged.get(slot) || []).join("; ")]);
    });
    return table(["path", "kind", "", "in this change", "gates", "leads to", "in transaction"], rows);
  }

  open(state) {
    const { course } = this;
    const rows = course.openPorts(state).map((port) => [course.portName(port), `${state.serial[port]}`, course.nodes[course.owner[port]].path, state.target[port] < 0 ? "–" : course.nodes[state.target[port]].path, PHASES[state.phase[port]], state.isRoot[port] ? "by itself" : "for a service", state.open[port] ? "open" : "closed"]);
    return rows.length ? table(["port", "serial", "begun by", "with", "phase", "begun", "gate"], rows) : cell("p", "No transaction is under way.");
  }

  lines(moment) {
    const { course } = this, first = Math.max(0, moment - ABOUT), last = Math.min(course.length, moment + ABOUT + 1), rows = [];
    for (let one = first; one < last; one++) rows.push([link(`${one + 1}`, `#at=${one + 1}`), course.section(one).words, lineOf(course, one)]);
    const made = table(["moment", "part", "line"], rows), here = made.lastChild.children[moment - first];
    here.className = "now";
    requestAnimationFrame(() => (this.place.scrollTop = here.offsetTop - this.place.clientHeight / 2));
    return made;
  }
}
