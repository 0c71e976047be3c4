"use strict";
// The paths of all nodes as a tree that folds: an array, or an instance that holds others, is one box until it is opened.

const DEEPEST = 64;
const FEW = 40; // so many boxes are shown at first, at most
const MANY = 400; // and so many, where there would be one alone
const BOX = { height: 38, folded: 54, least: 64, most: 230, sign: 6.9, inner: 12, head: 24 };

class Box {
  constructor(key, name, above) {
    this.key = key;
    this.name = name;
    this.above = above;
    this.inner = new Map();
    this.slots = []; // the nodes that have had this path, of one that holds no others
    this.links = new Map(); // between boxes right in it, by their places
    this.isOpen = false;
  }

  get isFrame() {
    return this.inner.size > 0;
  }

  // All nodes below it.
  *all() {
    yield* this.slots;
    for (const box of this.inner.values()) yield* box.all();
  }

  lineage() {
    const found = [];
    for (let box = this; box; box = box.above) found.unshift(box);
    return found;
  }
}

class Tree {
  // Nodes have a path and what is shown of them; links lead from a node to another, by their places in the list, and may tell more.
  constructor(nodes, links) {
    this.nodes = nodes;
    this.root = new Box("", "", null);
    this.root.isOpen = true;
    this.boxes = new Map();
    this.leaves = [];
    this.elements = this.countElements();
    nodes.forEach((node, slot) => this.put(node.path, slot));
    for (const box of [this.root, ...this.boxes.values()]) box.inner = new Map([...box.inner].sort(([one], [other]) => inOrder(one, other)));
    this.links = links.map((link) => ({ ...link, from: this.leaves[link.from], to: this.leaves[link.to] }));
    for (const { from, to } of this.links) this.lift(from, to);
    this.openFew();
  }

  segments(path) {
    const parts = path.split(".");
    return parts.length > DEEPEST ? [path] : parts;
  }

  // How many elements each array has, by the path without its index.
  countElements() {
    const found = new Map();
    for (const { path } of this.nodes) {
      let key = "";
      for (const segment of this.segments(path)) {
        const at = segment.indexOf("[");
        if (at > 0) {
          const array = `${key}${segment.slice(0, at)}[]`;
          found.set(array, (found.get(array) || new Set()).add(segment));
        }
        key += `${segment}.`;
      }
    }
    return found;
  }

  put(path, slot) {
    let box = this.root, key = "";
    for (const segment of this.segments(path)) {
      const at = segment.indexOf("["), array = at > 0 ? `${key}${segment.slice(0, at)}[]` : "";
      if (array && this.elements.get(array).size > 1) box = this.child(box, array, `${segment.slice(0, at)}[ ]`);
      box = this.child(box, key + segment, segment);
      key += `${segment}.`;
    }
    box.slots.push(slot);
    this.leaves[slot] = box;
  }

  child(box, key, name) {
    if (!box.inner.has(key)) {
      box.inner.set(key, new Box(key, name, box));
      this.boxes.set(key, box.inner.get(key));
    }
    return box.inner.get(key);
  }

  // Notes between which boxes right in one a link leads.
  lift(from, to) {
    const one = from.lineage(), other = to.lineage();
    let same = 0;
    while (one[same] && one[same] === other[same]) same++;
    if (one[same] && other[same]) one[same - 1].links.set(`${one[same].key}\u0000${other[same].key}`, [one[same], other[same]]);
  }

  // Opens boxes, the outer ones first, as long as few are shown.
  openFew() {
    const waiting = [...this.root.inner.values()];
    let shown = waiting.length;
    while (waiting.length) {
      const box = waiting.shift();
      if (!box.isFrame || shown + box.inner.size > (shown === 1 ? MANY : FEW)) continue;
      box.isOpen = true;
      shown += box.inner.size;
      waiting.push(...box.inner.values());
    }
  }

  openAll(isOpen) {
    for (const box of this.boxes.values()) box.isOpen = isOpen && box.isFrame;
  }

  // Opens all that is around a box.
  reveal(box) {
    for (let one = box.above; one; one = one.above) one.isOpen = true;
  }

  // The box that stands for one: the outermost around it that is folded, or itself. (A path may be a node first, and hold others later.)
  shown(box) {
    return box.lineage().find((one) => !one.isOpen || !one.isFrame) || box;
  }

  // Places the boxes that are shown: x, y, width and height of each, in the order in which they are drawn.
  place() {
    this.measure(this.root);
    const found = [];
    this.settle(this.root, 0, 0, found);
    return found;
  }

  measure(box) {
    if (!box.isFrame || !box.isOpen) {
      [box.width, box.height] = [this.widthOf(box), box.isFrame ? BOX.folded : BOX.height];
      return;
    }
    const inner = [...box.inner.values()], number = new Map(inner.map((one, at) => [one.key, at]));
    inner.forEach((one) => this.measure(one));
    const links = [...box.links.values()].map((ends) => ends.map((one) => number.get(one.key)));
    const { places, ways, width, height } = laidOut(inner, links);
    inner.forEach((one, at) => (one.within = places[at]));
    box.ways = new Map(ways.map(([from, to, way]) => [`${inner[from].key}\u0000${inner[to].key}`, way]));
    const border = box === this.root ? 0 : BOX.inner;
    box.width = Math.max(width, box === this.root ? 0 : shortened(box.name).length * BOX.sign + 20) + 2 * border;
    box.height = height + 2 * border + (box === this.root ? 0 : BOX.head - BOX.inner);
  }

  widthOf(box) {
    if (box.isFrame) return Math.max(120, 30 + BOX.sign * shortened(box.name).length);
    const second = longest(this.nodes, box);
    return Math.min(BOX.most, Math.max(BOX.least, 20 + BOX.sign * Math.max(shortened(box.name).length + 5, shortened(second).length * 0.92)));
  }

  // The way between two boxes right in one, past others there: [{left, right, y}].
  way(from, to) {
    const found = from.above === to.above && from.above.ways ? from.above.ways.get(`${from.key}\u0000${to.key}`) : null;
    const [x, y] = this.corner(from.above);
    return (found || []).map((bend) => ({ left: bend.left + x, right: bend.right + x, y: bend.y + y }));
  }

  // Where what is in a box begins.
  corner(box) {
    return box === this.root ? [box.x, box.y] : [box.x + BOX.inner, box.y + BOX.head];
  }

  settle(box, x, y, found) {
    [box.x, box.y] = [x, y];
    if (box !== this.root) found.push(box);
    if (!box.isFrame || !box.isOpen) return;
    const [left, top] = this.corner(box);
    for (const one of box.inner.values()) this.settle(one, left + one.within.x, top + one.within.y, found);
  }
}

// By what paths are put in order for a reader: indexes by their value.
const inOrder = new Intl.Collator("en", { numeric: true, caseFirst: "upper" }).compare;

function shortened(text) {
  return text.length > 28 ? `${text.slice(0, 16)}…${text.slice(-11)}` : text;
}

function longest(nodes, box) {
  const shown = box.slots.map((slot) => nodes[slot].shown);
  const widest = shown.reduce((one, other) => (other.length > one.length ? other : one), "");
  return box.slots.length > 1 ? `${widest} → ${widest}` : widest;
}

function insideOf(box) {
  return box.key.endsWith("[]") ? `${box.inner.size} elements` : plural(box.inner.size, "part");
}
