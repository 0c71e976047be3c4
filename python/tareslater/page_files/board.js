"use strict";
// Follows a running system: what is seen comes as events, and questions go with the token.

const RETRY = 1000; // milliseconds until it tries again
const LATE = 3000; // so many without news are told
// places along a link, the middle first
const ALONG = Array.from({ length: 37 }, (_, at) => 0.5 + (at % 2 ? 0.025 : -0.025) * Math.ceil(at / 2));
const ROOM = { width: 30, height: 15 }; // of the number of a link
GAP.across = 84; // so that numbers have room
const PHASES = {
  "making ready": "New components are opened and the manager is asked. Nothing is held yet.",
  waiting: "Gates are closed. What is under way there ends, and nothing more begins.",
  "handing over": "All is quiescent. States are handed over.",
  ending: "Gates are open again.",
};

// How often a second, short.
function rate(number) {
  if (number >= 10000) return `${(number / 1000).toFixed(0)}k`;
  if (number >= 1000) return `${(number / 1000).toFixed(1)}k`;
  return number >= 10 ? number.toFixed(0) : `${number}`;
}

function time(seconds) {
  return seconds < 1 ? `${(seconds * 1000).toFixed(1)} ms` : `${seconds.toFixed(1)} s`;
}

// Paths that a field lists, with commas between.
function listed(text) {
  return text.split(",").map((one) => one.trim()).filter(Boolean);
}

// Which hand over to which: `stock` to what replaces it, `mail -> post` to another.
function movesOf(text) {
  return Object.fromEntries(listed(text).map((one) => {
    const [from, to] = one.split("->").map((path) => path.trim());
    return [from, to || from];
  }));
}

// Where the number of a link may stand: above it or below, the best first.
function* roomsAlong(path) {
  const length = path.getTotalLength();
  for (const part of ALONG) {
    const { x, y } = path.getPointAtLength(part * length);
    for (const top of [y - ROOM.height - 1, y + 2]) yield { x: x - ROOM.width / 2, y: top, ...ROOM };
  }
}

// The first room of a link's number that lies on nothing, or else the one that lies least on what is there.
function roomOf(path, taken) {
  let best = null, least = Infinity;
  for (const room of roomsAlong(path)) {
    const lies = taken.reduce((sum, one) => sum + shared(room, one), 0);
    if (lies < least) [best, least] = [room, lies];
    if (!lies) break;
  }
  return best;
}

// The area that two boxes share.
function shared(one, other) {
  const across = Math.min(one.x + one.width, other.x + other.width) - Math.max(one.x, other.x);
  const down = Math.min(one.y + one.height, other.y + other.height) - Math.max(one.y, other.y);
  return Math.max(0, across) * Math.max(0, down);
}

// The component of a requirement.
function ownerOf(name) {
  return name.slice(0, name.lastIndexOf("."));
}

// The graph that stands, with what goes through its links.
class Live extends Drawing {
  // Another graph: what was open stays so.
  turnTo(tree) {
    for (const [key, box] of tree.boxes) if (this.tree.boxes.has(key)) box.isOpen = this.tree.boxes.get(key).isOpen;
    const chosen = this.chosen && tree.boxes.get(this.chosen.key);
    Object.assign(this, { tree, chosen });
    this.draw();
  }

  draw() {
    super.draw();
    const taken = this.order.filter((box) => !box.isFrame || !box.isOpen);
    for (const edge of this.edges) {
      const room = roomOf(edge.path, taken);
      edge.rate = label("rate", room.x + ROOM.width / 2, room.y + 12, "");
      taken.push(room);
      this.layer.append(edge.rate);
    }
  }

  show(now) {
    for (const drawn of this.drawn.values()) {
      const slots = [...drawn.box.all()], marks = { frozen: 0, removed: 0, made: 0, moved: 0, busy: 0 };
      for (const slot of slots) this.count(marks, this.tree.nodes[slot].path, now);
      const least = drawn.box.isFrame ? slots.length : 1, classes = ["frozen", "removed", "made"].filter((mark) => marks[mark] >= least);
      if (drawn.box.isFrame && marks.frozen + marks.removed) classes.push("touched");
      this.tell(drawn, slots, marks, drawn.kind ? classes : []);
    }
    for (const { links, path, rate: shown } of this.edges) {
      const sum = links.reduce((all, { name }) => all + (now.of[name] ? now.of[name][0] : 0), 0);
      path.setAttribute("class", sum ? "link under" : "link");
      shown.textContent = sum ? rate(sum) : "";
    }
  }

  // What a component takes part in.
  count(marks, path, { change, serving, frozen }) {
    if (serving[path]) marks.busy++;
    if (!change) return;
    if (frozen.has(path)) marks.frozen++;
    if (change.gone.includes(path)) marks.removed++;
    if (change.made.includes(path)) marks.made++;
    if (path in change.moving) marks.moved++;
  }
}

class Board {
  constructor() {
    this.graph = new Live(new Tree([], []), byId("graph"), (box, isFolded) => this.choose(box, isFolded));
    this.now = { of: {}, serving: {}, change: null, frozen: new Set() };
    this.planned = "";
    this.writeLegend();
    this.listen();
    this.takeToken();
    setInterval(() => this.writeState(), RETRY);
    this.follow();
  }

  // ---- the token, and what comes

  // The token stands behind the `#` of the address first, and then in this tab alone.
  takeToken() {
    const said = decodeURIComponent(location.hash.slice(1));
    if (said) {
      sessionStorage.setItem("token", said);
      history.replaceState(null, "", location.pathname);
    }
    this.token = sessionStorage.getItem("token") || "";
  }

  get headers() {
    return { Authorization: `Bearer ${encodeURIComponent(this.token)}` };
  }

  async follow() {
    for (;;) {
      this.state = "The board isn't reached, and is tried again.";
      try {
        const answer = await fetch("events", { headers: this.headers });
        byId("key").hidden = answer.status !== 401;
        if (answer.status === 401) this.state = "The token is wanted.";
        else if (answer.ok) await this.hear(answer.body.pipeThrough(new TextDecoderStream()).getReader());
        else this.state = (await answer.text()).trim();
      } catch (fault) {
        if (!(fault instanceof TypeError)) throw fault; // the network's
      }
      this.writeState();
      await new Promise((go) => setTimeout(go, RETRY));
    }
  }

  async hear(reader) {
    let text = "";
    for (;;) {
      const { value, done } = await reader.read();
      if (done) return;
      const events = (text + value).split("\n\n");
      text = events.pop();
      for (const event of events) {
        const found = /^event: (\w+)\ndata: (.*)$/.exec(event);
        if (found) this.take(found[1], JSON.parse(found[2]));
      }
      this.writeState();
    }
  }

  take(name, news) {
    if (name === "graph") this.takeGraph(news);
    if (name === "past") this.writePast(news);
    if (name !== "now") return;
    this.heard = performance.now();
    this.state = "";
    const held = news.change && news.change.phase !== "ending" ? news.change.held : [];
    this.now = { ...news, frozen: new Set(held.map(ownerOf)) };
    this.show();
  }

  takeGraph(news) {
    this.system = news;
    this.graph.turnTo(new Tree(news.nodes, news.links));
    byId("call").textContent = news.call || "No system stands";
    document.title = `${news.call} – board`;
    if (!byId("to").value) byId("to").value = news.call;
    this.writeRequirements();
    this.forget();
  }

  // ---- what is shown

  show() {
    this.graph.show(this.now);
    this.showRequirements();
    this.writeUnderWay();
    this.writeChosen();
  }

  writeState() {
    const late = Math.floor(performance.now() - (this.heard || 0)), silent = this.state || (late > LATE ? `No news for ${Math.round(late / 1000)} s: the system's loop is kept busy.` : "");
    const all = Object.values(this.now.of).filter((one) => one[3] !== null), sum = all.reduce((total, one) => total + one[0], 0);
    const count = this.system ? this.system.nodes.length : 0;
    byId("about").textContent = silent || `${plural(count, "component")} · ${rate(Math.round(sum))} requests a second · ${plural(all.reduce((total, one) => total + one[1], 0), "request")} under way`;
    byId("about").classList.toggle("late", Boolean(silent));
  }

  writeLegend() {
    const told = { frozen: "its gates are closed", removed: "goes", made: "comes", moved: "hands its state over", busy: "serves" };
    byId("legend").append(...Object.entries(told).map(([mark, words]) => {
      const sign = cell("span", SIGNS[mark]);
      sign.className = `sign ${mark}`;
      return cell("span", sign, ` ${words}`);
    }));
  }

  writeUnderWay() {
    const { change } = this.now, place = byId("under-way");
    place.classList.toggle("busy", Boolean(change));
    if (!change) return place.replaceChildren(cell("p", "No change."));
    const bar = cell("progress"), waits = Object.entries(change.waits).map(([name, count]) => `${name} (${count})`);
    Object.assign(bar, { max: change.within, value: Math.min(change.within, change.seconds) });
    bar.setAttribute("aria-label", "How long it has held");
    const rows = [["holds", change.held.join(", ") || "nothing"], ["for", `${change.seconds.toFixed(1)} of ${change.within} s`], ["waits for", waits.join(", ") || "nothing"]];
    place.replaceChildren(cell("p", cell("strong", `To ${change.call}`)), cell("p", PHASES[change.phase]), bar, definitions(rows));
  }

  writePast(past) {
    const rows = past.map((one) => {
      const ended = cell("span", one.ended === "made" ? "made" : `${one.ended}: ${one.said}`);
      ended.className = one.ended === "made" ? "made" : "failed";
      return [new Date(one.at * 1000).toLocaleTimeString("en-GB"), one.call, ended, time(one.held_seconds), time(one.waited_seconds), one.held.join(", ")];
    });
    byId("past").lastElementChild.replaceChildren(rows.length ? table(["at", "to", "how it ended", "held", "of it waiting", "what was held"], rows) : cell("p", "None yet."));
  }

  // ---- requirements

  writeRequirements() {
    this.cells = new Map();
    const names = Object.keys(this.system.requirements).sort(inOrder);
    const made = table(["requirement", "leads to", "a second", "under way", "waiting", "gate"], names.map((name) => [name, this.system.requirements[name] || "–", "", "", "", ""]));
    names.forEach((name, at) => this.cells.set(name, made.lastChild.children[at]));
    for (const row of made.querySelectorAll("tr")) for (const at of [2, 3, 4]) row.children[at].className = "number";
    byId("requirements").lastElementChild.replaceChildren(made);
    this.find(byId("sought").value);
  }

  showRequirements() {
    const chosen = this.graph.chosen ? new Set([...this.graph.chosen.all()].map((slot) => this.graph.tree.nodes[slot].path)) : new Set();
    for (const [name, row] of this.cells || []) {
      const [often, underWay, waiting, isOpen] = this.now.of[name] || [0, 0, 0, null];
      const told = isOpen === null ? [rate(often), "", "", ""] : [rate(often), `${underWay}`, `${waiting}`, this.system.requirements[name] ? (isOpen ? "open" : "closed") : ""];
      told.forEach((text, at) => {
        if (row.children[at + 2].textContent !== text) row.children[at + 2].textContent = text;
      });
      row.classList.toggle("chosen", chosen.has(ownerOf(name)));
    }
  }

  find(words) {
    const sought = words.trim();
    const found = sought ? [...this.graph.tree.boxes.values()].filter((box) => box.key.includes(sought)) : [];
    this.graph.sought = new Set(found.map((box) => this.graph.tree.shown(box).key));
    for (const [name, row] of this.cells || []) row.hidden = !name.includes(sought);
    this.graph.show(this.now);
  }

  // ---- a box that was chosen

  choose(box, isFolded) {
    this.graph.chosen = box;
    if (isFolded) this.graph.draw();
    this.show();
  }

  openAll(isOpen) {
    this.graph.tree.openAll(isOpen);
    this.graph.isMoved = false;
    this.graph.draw();
    this.graph.show(this.now);
  }

  writeChosen() {
    const box = this.graph.chosen;
    if (!box) return byId("chosen").replaceChildren();
    const slots = [...box.all()], paths = slots.map((slot) => this.graph.tree.nodes[slot].path);
    const serving = paths.reduce((sum, path) => sum + (this.now.serving[path] || 0), 0);
    const rows = box.isFrame ? [["holds", insideOf(box)]] : [["class", this.graph.tree.nodes[slots[0]].shown]];
    byId("chosen").replaceChildren(cell("strong", box.key), definitions([...rows, ["serves", plural(serving, "request")]]));
  }

  // ---- a change

  question() {
    return JSON.stringify({ call: byId("to").value, within: Number(byId("within").value), moving: movesOf(byId("moving").value), losing: listed(byId("losing").value), by_parts: byId("by-parts").checked });
  }

  // What was planned holds no more.
  forget() {
    this.planned = "";
    byId("make").disabled = true;
  }

  async ask(path, question) {
    try {
      const answer = await fetch(path, { method: "POST", headers: { ...this.headers, "Content-Type": "application/json" }, body: question });
      if (answer.headers.get("Content-Type").startsWith("application/json")) return await answer.json();
      return { ended: "Refused", said: (await answer.text()).trim() };
    } catch (fault) {
      return { ended: "Lost", said: "the board isn't reached; whether anything was changed isn't known" };
    }
  }

  failed(answer) {
    const told = cell("p", `${answer.ended}: ${answer.said}`);
    told.className = "failed";
    byId("told").replaceChildren(told);
  }

  async plan() {
    const question = this.question();
    this.forget();
    const answer = await this.ask("plan", question);
    if (question !== this.question()) return;
    if (answer.ended !== "planned") return this.failed(answer);
    const rows = ["held", "removed", "made", "relinked", "moved", "lost"].map((name) => [name, answer[name].join(", ") || "–"]);
    if (answer.lost.length) rows[5] = ["lost", ...answer.lost.map((path) => this.offered(path, answer.made.includes(path)))];
    byId("told").replaceChildren(cell("p", cell("strong", `Plan to ${byId("to").value}`)), definitions(rows));
    this.planned = question;
    byId("make").disabled = answer.lost.some((path) => !listed(byId("losing").value).includes(path));
  }

  // What would be lost, with what can be done about it.
  offered(path, isMade) {
    const told = cell("div", path);
    const offer = (words, field) => {
      const button = cell("button", words);
      button.type = "button";
      button.addEventListener("click", () => {
        byId(field).value = [...listed(byId(field).value), path].join(", ");
        this.plan();
      });
      told.append(button);
    };
    if (isMade) offer("hand over", "moving");
    if (!listed(byId("losing").value).includes(path)) offer("may be lost", "losing");
    return told;
  }

  async make() {
    if (!this.planned || this.planned !== this.question()) return;
    const question = this.planned, { call } = JSON.parse(question);
    this.forget();
    byId("told").replaceChildren(cell("p", `Changing to ${call}.`));
    const answer = await this.ask("change", question);
    if (answer.ended !== "made") return this.failed(answer);
    byId("told").replaceChildren(cell("p", cell("strong", `${call} stands.`)), definitions([["held", answer.held.join(", ") || "nothing"], ["for", time(answer.held_seconds)], ["of it waiting", time(answer.waited_seconds)]]));
    for (const field of ["moving", "losing"]) byId(field).value = "";
  }

  // ---- hands

  listen() {
    const on = (id, event, act) => byId(id).addEventListener(event, act);
    on("unfold", "click", () => this.openAll(true));
    on("fold", "click", () => this.openAll(false));
    on("larger", "click", () => this.graph.zoom(1 / 1.3));
    on("smaller", "click", () => this.graph.zoom(1.3));
    on("fit", "click", () => this.graph.fit());
    on("sought", "input", () => this.find(byId("sought").value));
    on("search", "submit", (event) => event.preventDefault());
    on("ask", "input", () => this.forget());
    on("ask", "submit", (event) => {
      event.preventDefault();
      this.plan();
    });
    on("make", "click", () => this.make());
    on("key", "submit", (event) => {
      event.preventDefault();
      sessionStorage.setItem("token", byId("token").value.trim());
      byId("token").value = "";
      this.takeToken();
    });
    window.addEventListener("hashchange", () => this.takeToken());
    window.addEventListener("resize", () => this.graph.isMoved || this.graph.fit());
    document.addEventListener("keydown", (event) => {
      if (event.key !== "/" || event.target.closest("input")) return;
      byId("sought").focus();
      event.preventDefault();
    });
  }
}

function definitions(rows) {
  const list = cell("dl");
  for (const [name, ...told] of rows) list.append(cell("dt", name), cell("dd", ...told));
  return list;
}

window.board = new Board();
