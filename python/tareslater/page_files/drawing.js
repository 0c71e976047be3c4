"use strict";
// A graph as SVG: boxes that fold, links between them, what one looks at, and hands. What boxes tell, a class that builds on this says.

const SVG = "http://www.w3.org/2000/svg";
const SIGNS = { frozen: "‖", removed: "−", made: "+", moved: "⇢", lost: "!", busy: "●" };
const TELLS = {
  frozen: "frozen: it begins nothing until the change has ended; a thick border where its gates are closed now",
  removed: "removed by this change",
  made: "made by this change",
  moved: "made with a state that was handed over",
  lost: "removed, and its state went nowhere",
  busy: "takes part in a transaction that is under way",
};

function element(name, attributes, ...inner) {
  const made = document.createElementNS(SVG, name);
  for (const [key, value] of Object.entries(attributes)) made.setAttribute(key, value);
  made.append(...inner);
  return made;
}

class Drawing {
  constructor(tree, svg, choose) {
    Object.assign(this, { tree, svg, choose });
    this.sought = new Set();
    this.layer = element("g", {});
    const tip = element("marker", { id: "tip", viewBox: "0 0 8 8", refX: 7, refY: 4, markerWidth: 7, markerHeight: 7, orient: "auto", markerUnits: "userSpaceOnUse" }, element("path", { d: "M0 0L8 4L0 8z" }));
    svg.append(element("defs", {}, tip), this.layer);
    this.listen();
  }

  // ---- drawing

  draw() {
    const boxes = this.tree.place();
    this.drawn = new Map();
    this.edges = this.edgesOf();
    const frames = boxes.filter((box) => box.isFrame && box.isOpen), others = boxes.filter((box) => !box.isFrame || !box.isOpen);
    this.layer.replaceChildren(...frames.map((box) => this.frame(box)), ...this.edges.map((edge) => edge.path), ...others.map((box) => this.box(box)));
    this.order = boxes;
    if (boxes.length) this.drawn.get(boxes[0].key).g.setAttribute("tabindex", 0);
    if (!this.isMoved) this.fit();
  }

  frame(box) {
    const g = element("g", { class: "frame box", "data-path": box.key, "aria-expanded": "true", role: "button", tabindex: -1, "aria-label": `${box.key}, open` });
    g.append(element("rect", { class: "front", x: box.x, y: box.y, width: box.width, height: box.height, rx: 8 }), ring(box));
    g.append(label("", box.x + 10, box.y + 16, `▾ ${shortened(box.name)}`));
    this.drawn.set(box.key, { box, g });
    return g;
  }

  box(box) {
    const g = element("g", { class: box.isFrame ? "box many" : "box", "data-path": box.key, role: "button", tabindex: -1 });
    if (box.isFrame) {
      g.setAttribute("aria-expanded", "false");
      g.append(element("rect", { class: "back", x: box.x + 4, y: box.y + 4, width: box.width, height: box.height, rx: 5 }));
    }
    const front = element("rect", { class: "front", x: box.x, y: box.y, width: box.width, height: box.height, rx: 5 });
    const kind = label("kind", box.x + 8, box.y + 30, "");
    const signs = box.isFrame ? label("signs", box.x + 8, box.y + 46, "") : label("signs", box.x + box.width - 6, box.y + 13, "");
    if (!box.isFrame) signs.setAttribute("text-anchor", "end");
    g.append(front, ring(box), label("name", box.x + 8, box.y + 15, (box.isFrame ? "▸ " : "") + shortened(box.name)), kind, signs, element("title", {}));
    this.drawn.set(box.key, { box, g, kind, signs, title: g.lastChild });
    return g;
  }

  // Links as they are drawn: those between the same two boxes are one.
  edgesOf() {
    const found = new Map();
    for (const link of this.tree.links) {
      const from = this.tree.shown(link.from), to = this.tree.shown(link.to);
      if (from === to && link.from !== link.to) continue;
      const key = `${from.key}\u0000${to.key}`;
      if (!found.has(key)) found.set(key, { from, to, links: [], path: element("path", { d: curve(from, to, this.tree.way(from, to)), "data-from": from.key, "data-to": to.key }) });
      found.get(key).links.push(link);
    }
    return [...found.values()];
  }

  // What a box is at the moment: the nodes below it that are there, how many of these have each mark, and its classes for colours.
  tell({ box, g, kind, signs, title }, slots, marks, classes) {
    const all = [g.classList.contains("frame") ? "frame box" : box.isFrame ? "box many" : "box", ...classes];
    if (this.sought.has(box.key)) all.push("sought");
    if (box === this.chosen) all.push("chosen");
    g.setAttribute("class", all.join(" "));
    g.setAttribute("data-marks", Object.keys(marks).filter((mark) => marks[mark]).join(" "));
    if (!kind) return;
    const shown = slots.map((slot) => this.tree.nodes[slot].shown).filter(Boolean);
    kind.textContent = box.isFrame ? insideOf(box) : shortened([...new Set(shown)].join(" → "));
    const told = Object.entries(marks).filter(([, count]) => count);
    signs.replaceChildren(...told.map(([mark, count], at) => {
      const sign = element("tspan", { class: mark });
      sign.textContent = `${at ? " " : ""}${SIGNS[mark]}${box.isFrame ? count : ""}`;
      return sign;
    }));
    const words = `${box.key}${shown.length && !box.isFrame ? ` ${shown.join(", then ")}` : ""}${told.map(([mark, count]) => `, ${box.isFrame ? `${count} ` : ""}${mark}`).join("")}`;
    title.textContent = words;
    g.setAttribute("aria-label", words);
  }

  // ---- what one looks at

  view(x, y, width, height) {
    this.at = { x, y, width, height };
    this.svg.setAttribute("viewBox", `${x} ${y} ${width} ${height}`);
  }

  // All of it; it stays so until somebody moves what is seen.
  fit() {
    this.isMoved = false;
    const { width, height } = this.tree.root, { clientWidth, clientHeight } = this.svg;
    const scale = Math.min(clientWidth / (width + 40), clientHeight / (height + 40), 1.4);
    const [across, down] = [clientWidth / scale, clientHeight / scale];
    this.view((width - across) / 2, (height - down) / 2, across, down);
  }

  zoom(factor, x = this.at.x + this.at.width / 2, y = this.at.y + this.at.height / 2) {
    const { at } = this;
    this.isMoved = true;
    this.view(x - (x - at.x) * factor, y - (y - at.y) * factor, at.width * factor, at.height * factor);
  }

  centre(box) {
    this.isMoved = true;
    const width = Math.min(this.at.width, Math.max(700, box.width * 1.5)), height = (width * this.svg.clientHeight) / this.svg.clientWidth;
    this.view(box.x + box.width / 2 - width / 2, box.y + box.height / 2 - height / 2, width, height);
  }

  // ---- hands

  listen() {
    this.svg.addEventListener("click", (event) => {
      const g = event.target.closest(".box");
      if (g && !this.isDragged) this.press(g.dataset.path);
    });
    this.svg.addEventListener("wheel", (event) => {
      event.preventDefault();
      const { left, top, width, height } = this.svg.getBoundingClientRect(), { at } = this;
      this.zoom(event.deltaY > 0 ? 1.15 : 1 / 1.15, at.x + ((event.clientX - left) / width) * at.width, at.y + ((event.clientY - top) / height) * at.height);
    }, { passive: false });
    this.svg.addEventListener("pointerdown", (event) => this.drag(event));
    this.svg.addEventListener("keydown", (event) => this.key(event));
  }

  drag(down) {
    const { at } = this, scale = at.width / this.svg.clientWidth;
    this.isDragged = false;
    const move = (event) => {
      const [x, y] = [event.clientX - down.clientX, event.clientY - down.clientY];
      this.isDragged = this.isDragged || Math.hypot(x, y) > 4;
      this.isMoved = this.isMoved || this.isDragged;
      if (this.isDragged) this.view(at.x - x * scale, at.y - y * scale, at.width, at.height);
    };
    const up = () => {
      window.removeEventListener("pointermove", move);
      window.removeEventListener("pointerup", up);
    };
    window.addEventListener("pointermove", move);
    window.addEventListener("pointerup", up);
  }

  // A box that holds others opens or folds; a node is chosen.
  press(key) {
    const box = this.tree.boxes.get(key), { x, y } = box;
    if (box.isFrame) box.isOpen = !box.isOpen;
    this.choose(box, box.isFrame);
    if (this.isMoved) this.view(this.at.x + box.x - x, this.at.y + box.y - y, this.at.width, this.at.height);
    this.focus(key);
  }

  focus(key) {
    const shown = this.drawn.get(key);
    if (!shown) return;
    for (const { g } of this.drawn.values()) g.setAttribute("tabindex", -1);
    shown.g.setAttribute("tabindex", 0);
    shown.g.focus({ preventScroll: true });
  }

  key(event) {
    const here = document.activeElement.closest ? document.activeElement.closest(".box") : null;
    const way = { ArrowLeft: [-1, 0], ArrowRight: [1, 0], ArrowUp: [0, -1], ArrowDown: [0, 1] }[event.key];
    if (here && (event.key === "Enter" || event.key === " ")) this.press(here.dataset.path);
    else if (way) this.step(here && this.drawn.get(here.dataset.path).box, way);
    else if (event.key === "+" || event.key === "=") this.zoom(1 / 1.3);
    else if (event.key === "-") this.zoom(1.3);
    else return;
    event.preventDefault();
    event.stopPropagation();
  }

  // The focus goes to the next box in this direction.
  step(from, [x, y]) {
    const middle = (box) => (box.isOpen && box.isFrame ? [box.x + 20, box.y + 10] : [box.x + box.width / 2, box.y + box.height / 2]);
    if (!from) return this.order.length ? this.focus(this.order[0].key) : undefined;
    const [fromX, fromY] = middle(from);
    let best = null;
    for (const box of this.order) {
      const [toX, toY] = middle(box), along = (toX - fromX) * x + (toY - fromY) * y, beside = Math.abs((toX - fromX) * y) + Math.abs((toY - fromY) * x);
      const far = along + 3 * beside;
      if (box !== from && along > 1 && (!best || far < best.far)) best = { box, far };
    }
    if (best) this.focus(best.box.key);
  }
}

function ring(box) {
  return element("rect", { class: "ring", x: box.x - 4, y: box.y - 4, width: box.width + 8, height: box.height + 8, rx: 9 });
}

function label(kind, x, y, words) {
  const made = element("text", { class: kind, x, y });
  made.textContent = words;
  return made;
}

// From one box to another, by a way past others.
function curve(from, to, way) {
  const [x1, y1, x2, y2] = [from.x + from.width, from.y + from.height / 2, to.x, to.y + to.height / 2];
  if (from === to) return `M${x1 - 14} ${from.y}C${x1 - 14} ${from.y - 30},${x1 - 44} ${from.y - 30},${x1 - 44} ${from.y}`;
  if (x2 > x1) {
    let [x, y, drawn] = [x1, y1, `M${x1} ${y1}`];
    for (const { left, right, y: down } of [...way, { left: x2 - 1, right: x2 - 1, y: y2 }]) {
      drawn += `C${(x + left) / 2} ${y},${(x + left) / 2} ${down},${left} ${down}${right > left ? `H${right}` : ""}`;
      [x, y] = [right, down];
    }
    return drawn;
  }
  const down = Math.max(from.y + from.height, to.y + to.height) + 26;
  return `M${x1} ${y1}C${x1 + 50} ${y1},${x1 + 50} ${down},${(x1 + x2) / 2} ${down}S${x2 - 50} ${y2},${x2 - 1} ${y2}`;
}
