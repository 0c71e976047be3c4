"use strict";
// The graph as it stood at a moment, drawn as SVG: boxes that fold, links, and signs of what a change does.

class Graph extends Drawing {
  constructor(course, tree, svg, choose) {
    super(tree, svg, choose);
    this.course = course;
  }

  // ---- a moment

  show(moment, state) {
    const section = this.course.section(moment), engaged = this.engaged(state);
    const isThere = (slot) => state.live[slot] || (section.isChange && (section.removed.has(slot) || section.made.has(slot)));
    for (const drawn of this.drawn.values()) {
      const { box } = drawn, slots = [...box.all()].filter(isThere), marks = this.marksOf(section, state, slots, engaged);
      const classes = slots.length ? [] : ["absent"];
      if (drawn.kind) classes.push(...this.tint(box, slots, marks, state));
      this.tell(drawn, slots, marks, classes);
    }
    this.showEdges(section, state);
  }

  engaged(state) {
    const found = new Set();
    for (const port of this.course.openPorts(state)) {
      found.add(this.course.owner[port]);
      if (state.phase[port] !== 6 && state.target[port] >= 0) found.add(state.target[port]);
    }
    return found;
  }

  // How many nodes below a box have each mark.
  marksOf(section, state, slots, engaged) {
    const counts = { frozen: 0, removed: 0, made: 0, moved: 0, lost: 0, busy: 0 };
    for (const slot of slots) {
      for (const mark of this.course.marks(section, slot)) counts[mark]++;
      if (engaged.has(slot)) counts.busy++;
    }
    return counts;
  }

  // The classes that colour a box: of one that holds others, those that hold of all.
  tint(box, slots, marks, state) {
    const least = box.isFrame ? slots.length : 1;
    const found = ["frozen", "removed", "made", "lost"].filter((mark) => slots.length && marks[mark] >= least);
    if (box.isFrame && Object.keys(marks).some((mark) => mark !== "busy" && marks[mark])) found.push("touched");
    if (slots.length && slots.filter((slot) => this.course.isClosed(state, slot)).length >= least) found.push("closed");
    return found;
  }

  showEdges(section, state) {
    for (const { links, path } of this.edges) {
      const stands = links.filter(({ port, target }) => state.target[port] === target);
      const isCut = section.isChange && links.some(({ port, target }) => section.cut.get(port) === target && section.linked.get(port) !== target);
      const isMade = section.isChange && links.some(({ port, target }) => section.linked.get(port) === target);
      const isUnder = stands.some(({ port }) => state.phase[port]);
      const classes = ["link"];
      if (!stands.length && !isCut && !isMade) classes.push("gone");
      if (isMade) classes.push("linked");
      else if (isCut) classes.push("cut");
      if (isUnder) classes.push("under");
      path.setAttribute("class", classes.join(" "));
    }
  }
}
