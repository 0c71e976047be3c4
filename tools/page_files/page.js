"use strict";
// Puts the page together: one moment and one node are chosen, and all that is shown follows them and the address.

class Page {
  constructor(data) {
    this.course = new Course(data);
    this.tree = new Tree(this.course.nodes, this.course.links());
    this.graph = new Graph(this.course, this.tree, byId("graph"), (box, isFolded) => this.choose(box, isFolded));
    this.timeline = new Timeline(this.course, byId("line"), (moment) => this.go(moment));
    this.tables = new Tables(this.course, byId("table"));
    this.moment = 0;
    this.box = null;
    this.writeHead(data);
    this.writeCourse();
    this.writeLegend();
    this.listen();
    this.graph.draw();
    this.follow();
  }

  // ---- what stands still

  writeHead(data) {
    const lost = data.nodes.filter((node) => node.lost).length, changes = this.course.sections.filter((section) => section.isChange);
    const told = [{ report: "Report", plan: "Plan", session: "Session" }[data.what], `${plural(this.course.length, "moment")}`, `${plural(data.nodes.length, "node")}`];
    told.push(plural(changes.length, data.what === "plan" ? "part" : "change"));
    if (data.status !== null) told.push(`status ${data.status}`);
    if (data.unfinished !== null) told.push(`${data.nodes[data.unfinished].path} isn't done`);
    if (lost) told.push(`the state of ${plural(lost, "node")} went nowhere`);
    byId("about").textContent = told.join(" · ");
    byId("note").textContent = data.note;
  }

  writeCourse() {
    byId("course").append(...this.course.sections.map((section) => {
      const to = link(section.words, `#${anchor(this.course, section)}`);
      const how = [ending(section), section.isChange ? counted(section) : ""].filter(Boolean).join(": ");
      if (how) to.append(cell("small", how));
      to.dataset.section = section.number;
      return cell("li", to);
    }));
  }

  writeLegend() {
    byId("legend").append(...Object.entries(SIGNS).map(([mark, sign]) => {
      const shown = cell("span", sign), item = cell("span", shown, ` ${mark === "busy" ? "in a transaction" : mark}`);
      shown.className = `sign ${mark}`;
      item.title = TELLS[mark];
      return item;
    }));
  }

  // ---- the address

  // `#change-2` is the first moment of the second change, `#at=12&node=a.b` the twelfth moment with a node.
  follow() {
    const hash = location.hash.slice(1), found = new URLSearchParams(hash);
    const section = this.course.sections.find((one) => anchor(this.course, one) === hash);
    if (section) this.goTo(section);
    else if (Number(found.get("at")) >= 1) this.moment = Math.min(this.course.length, Number(found.get("at"))) - 1;
    else if (!hash) this.moment = (this.course.sections.find((one) => one.isChange) || this.course.sections[0]).first;
    const box = this.tree.boxes.get(found.get("node") || "");
    if (box) this.reveal(box);
    this.show();
  }

  goTo(section) {
    this.moment = section.first;
    this.timeline.keep(section.first);
  }

  write() {
    const node = this.box ? `&node=${encodeURIComponent(this.box.key)}` : "";
    history.replaceState(null, "", `#at=${this.moment + 1}${node}`);
  }

  // ---- choosing

  go(moment) {
    this.moment = Math.max(0, Math.min(this.course.length - 1, moment));
    this.write();
    this.show();
  }

  choose(box, isFolded) {
    this.box = box;
    if (isFolded) this.graph.draw();
    this.write();
    this.show();
  }

  reveal(box) {
    this.tree.reveal(box);
    this.box = box;
    this.graph.draw();
    this.graph.centre(box);
  }

  openAll(isOpen) {
    this.tree.openAll(isOpen);
    this.graph.isMoved = false;
    this.graph.draw();
    this.show();
  }

  // ---- a moment

  show() {
    const { course, moment } = this, state = course.at(moment), section = course.section(moment);
    this.graph.chosen = this.box;
    this.graph.show(moment, state);
    this.timeline.show(moment, new Set(this.box ? this.box.all() : []));
    this.tables.show(moment, state);
    byId("moment").textContent = lineOf(course, moment);
    byId("told").textContent = meaning(course, moment, state);
    byId("place").textContent = `${(moment + 1).toLocaleString("en")} of ${course.length.toLocaleString("en")}`;
    byId("span").textContent = `moments ${Math.floor(this.timeline.from) + 1} to ${Math.ceil(this.timeline.to)}`;
    for (const to of byId("course").querySelectorAll("a")) {
      if (Number(to.dataset.section) === section.number) to.setAttribute("aria-current", "true");
      else to.removeAttribute("aria-current");
    }
    for (const tab of document.querySelectorAll("[role=tab]")) tab.setAttribute("aria-selected", tab.id === `tab-${this.tables.kind}`);
    this.writeOpen(state);
    this.writeChosen(state);
  }

  writeOpen(state) {
    const { course } = this, ports = course.openPorts(state);
    const items = ports.slice(0, 40).map((port) => {
      const to = state.target[port] < 0 ? "nothing" : course.nodes[state.target[port]].path;
      return cell("li", `${course.portName(port)}${state.phase[port] === 6 ? "" : ` ${state.serial[port]}`} → ${to}: ${PHASES[state.phase[port]]}${state.open[port] ? "" : ", gate closed"}`);
    });
    if (ports.length > items.length) items.push(cell("li", `and ${ports.length - items.length} more`));
    byId("open").replaceChildren(ports.length ? cell("ul", ...items) : cell("p", "Nothing is under way."));
  }

  writeChosen(state) {
    const { course, box } = this;
    if (!box) return byId("chosen").replaceChildren();
    const rows = [];
    const slots = [...new Set(box.all())];
    if (box.isFrame) rows.push(["holds", insideOf(box)], ["there now", plural(slots.filter((slot) => state.live[slot]).length, "node")]);
    else for (const slot of slots) rows.push(...this.about(slot, state));
    const list = cell("dl");
    for (const [name, ...told] of rows) list.append(cell("dt", name), cell("dd", ...told));
    byId("chosen").replaceChildren(cell("strong", box.key), list);
  }

  about(slot, state) {
    const { course } = this, node = course.nodes[slot], to = (moment) => link(`${moment + 1}`, `#at=${moment + 1}&node=${encodeURIComponent(node.path)}`);
    const rows = [["kind", node.shown || "not told"], ["made at", to(course.born[slot])]];
    if (node.source >= 0) rows.push(["state from", `${course.nodes[node.source].path} ${course.nodes[node.source].shown}`]);
    if (course.gone[slot] >= 0) rows.push(["removed at", to(course.gone[slot])]);
    if (state.live[slot]) for (const port of course.portsOf(slot)) rows.push([course.portName(port).slice(node.path.length + 1), `${state.open[port] ? "gate open" : "gate closed"}, ${PHASES[state.phase[port]]}`]);
    if (node.events !== undefined) rows.push(["events", node.events.toLocaleString("en")]);
    if (node.state !== undefined) rows.push(["kept at last", node.lost ? `${node.state}, and it went nowhere` : node.state]);
    return rows;
  }

  // ---- finding

  find(words) {
    const sought = words.trim(), found = sought ? [...this.tree.boxes.values()].filter((box) => box.key.includes(sought)) : [];
    found.sort((one, other) => one.key.length - other.key.length || (one.key < other.key ? -1 : 1));
    this.graph.sought = new Set(found.map((box) => this.tree.shown(box).key));
    byId("found").hidden = !sought;
    const items = found.slice(0, 20).map((box) => {
      const button = cell("button", box.key);
      button.type = "button";
      button.addEventListener("click", () => this.take(box));
      return cell("li", button);
    });
    if (!found.length) items.push(cell("li", "no path has this"));
    if (found.length > 20) items.push(cell("li", `and ${found.length - 20} more`));
    byId("found").replaceChildren(...items);
    this.graph.show(this.moment, this.course.at(this.moment));
    return found;
  }

  take(box) {
    this.reveal(box);
    byId("found").hidden = true;
    this.write();
    this.show();
  }

  // ---- hands

  listen() {
    const on = (id, event, act) => byId(id).addEventListener(event, act);
    on("unfold", "click", () => this.openAll(true));
    on("fold", "click", () => this.openAll(false));
    on("larger", "click", () => this.graph.zoom(1 / 1.3));
    on("smaller", "click", () => this.graph.zoom(1.3));
    on("fit", "click", () => this.graph.fit());
    on("earlier", "click", () => this.go(this.moment - 1));
    on("later", "click", () => this.go(this.moment + 1));
    on("in", "click", () => this.zoomTime(() => this.timeline.zoom(0.5)));
    on("out", "click", () => this.zoomTime(() => this.timeline.zoom(2)));
    on("whole", "click", () => this.zoomTime(() => this.timeline.window(0, this.course.length)));
    on("here", "click", () => this.zoomTime(() => this.timeline.window(this.course.section(this.moment).first, this.course.section(this.moment).last + 1)));
    on("sought", "input", () => this.find(byId("sought").value));
    on("search", "submit", (event) => {
      event.preventDefault();
      const [first] = this.find(byId("sought").value);
      if (first) this.take(first);
    });
    for (const tab of document.querySelectorAll("[role=tab]")) tab.addEventListener("click", () => this.turnTo(tab.id.slice(4)));
    window.addEventListener("hashchange", () => this.follow());
    window.addEventListener("resize", () => this.resize());
    window.matchMedia("(prefers-color-scheme: dark)").addEventListener("change", () => this.timeline.draw());
    document.addEventListener("keydown", (event) => this.key(event));
  }

  zoomTime(act) {
    act();
    this.show();
  }

  turnTo(kind) {
    this.tables.kind = kind;
    this.show();
  }

  resize() {
    this.graph.fit();
    this.timeline.draw();
  }

  // The first moment of the part before this, or behind it; first of all that of this part.
  part(by) {
    const { number, first } = this.course.section(this.moment), to = by < 0 && this.moment > first ? number : number + by;
    const section = this.course.sections[Math.max(0, Math.min(this.course.sections.length - 1, to))];
    this.go(section.first);
  }

  key(event) {
    const isTyping = event.target.closest("input"), far = event.shiftKey ? 10 : 1;
    if (event.key === "Escape" && isTyping) {
      byId("sought").value = "";
      this.find("");
      byId("sought").blur();
    }
    if (isTyping || event.ctrlKey || event.metaKey || event.altKey) return;
    const acts = {
      ArrowLeft: () => this.go(this.moment - far), ArrowRight: () => this.go(this.moment + far), "[": () => this.part(-1), "]": () => this.part(1),
      Home: () => this.go(0), End: () => this.go(this.course.length - 1), "/": () => byId("sought").focus(),
    };
    if (!acts[event.key]) return;
    acts[event.key]();
    event.preventDefault();
  }
}

window.page = new Page(JSON.parse(byId("data").textContent));
