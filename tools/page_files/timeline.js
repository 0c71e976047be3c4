"use strict";
// The line of time: moments from left to right, what was changed when, how many gates were closed and how much was under way.

const ROWS = { heads: 20, closed: [26, 62], busy: [68, 100], ticks: [106, 128] };
const CLOSEST = 12; // moments that fill the line at the closest
const TICKS = { make: "made", remove: "removed", close: "frozen", freeze: "frozen", drained: "frozen", reopen: "soft", thaw: "soft", commit: "made", abandon: "given-up", pending: "given-up", open: "given-up", link: "made", unlink: "removed", denied: "given-up" };

class Timeline {
  constructor(course, canvas, go) {
    Object.assign(this, { course, canvas, go });
    this.from = 0;
    this.to = Math.max(course.length, 1);
    this.moment = 0;
    this.chosen = new Set();
    this.most = { closed: greatest(course, course.closed, true), busy: greatest(course, course.busy, false) };
    this.listen();
  }

  // ---- what is seen

  window(from, to) {
    const { length } = this.course, span = Math.min(length, Math.max(CLOSEST, to - from));
    this.from = Math.max(0, Math.min(from, length - span));
    this.to = this.from + Math.max(span, 1);
    this.draw();
  }

  zoom(factor, around = this.moment + 0.5) {
    this.window(around - (around - this.from) * factor, around + (this.to - around) * factor);
  }

  // Moves the window as far as a moment is seen.
  keep(moment) {
    const span = this.to - this.from;
    if (moment < this.from) this.window(moment - span * 0.1, moment + span * 0.9);
    else if (moment >= this.to) this.window(moment - span * 0.9, moment + span * 0.1);
  }

  show(moment, slots) {
    this.moment = moment;
    this.chosen = slots;
    this.keep(moment);
    this.draw();
    this.canvas.setAttribute("aria-valuemin", 1);
    this.canvas.setAttribute("aria-valuemax", this.course.length);
    this.canvas.setAttribute("aria-valuenow", moment + 1);
    this.canvas.setAttribute("aria-valuetext", `${moment + 1}: ${lineOf(this.course, moment)}`);
  }

  x(moment) {
    return ((moment - this.from) / (this.to - this.from)) * this.width;
  }

  momentAt(x) {
    return Math.max(0, Math.min(this.course.length - 1, Math.floor(this.from + (x / this.width) * (this.to - this.from))));
  }

  // ---- drawing

  draw() {
    const { canvas } = this, ratio = window.devicePixelRatio || 1;
    this.width = canvas.clientWidth || 600;
    canvas.width = this.width * ratio;
    canvas.height = canvas.clientHeight * ratio;
    this.pen = canvas.getContext("2d");
    this.pen.scale(ratio, ratio);
    this.pen.font = "11px system-ui, sans-serif";
    this.colours = getComputedStyle(document.documentElement);
    this.drawSections();
    this.drawHeights(this.course.closed, this.most.closed, ROWS.closed, "frozen", "gates closed in a change");
    this.drawHeights(this.course.busy, this.most.busy, ROWS.busy, "soft", this.course.data.what === "session" ? "ports that are busy" : "transactions under way");
    this.drawTicks();
    this.drawHere();
  }

  colour(name) {
    return this.colours.getPropertyValue(`--${name}`).trim();
  }

  drawSections() {
    const { pen } = this;
    let free = 0;
    for (const section of this.course.sections) {
      const [x, end] = [this.x(section.first), this.x(section.last + 1)];
      if (end < 0 || x > this.width) continue;
      pen.fillStyle = this.colour(!section.isChange ? "panel" : section.end === "commit" ? "made-fill" : "removed-fill");
      pen.fillRect(x, 0, Math.max(1, end - x), ROWS.ticks[1]);
      pen.fillStyle = this.colour("edge");
      pen.fillRect(x, 0, 1, ROWS.ticks[1]);
      const words = section.isChange ? `${section.end === "commit" ? "✓" : "✗"} ${section.words}` : section.words, left = Math.max(x, 0) + 4;
      if (left < free || end - left < 14) continue;
      pen.fillStyle = this.colour("text");
      pen.save();
      pen.beginPath();
      pen.rect(left, 0, Math.max(0, end - left - 2), ROWS.heads);
      pen.clip();
      pen.fillText(words, left, 14);
      pen.restore();
      free = left;
    }
  }

  // The greatest number of each column of pixels, as one shape.
  drawHeights(numbers, most, [top, bottom], colour, words) {
    const { pen } = this;
    if (!most) return;
    pen.beginPath();
    pen.moveTo(0, bottom);
    const step = (this.to - this.from) / this.width;
    for (let x = 0; x < this.width; x++) {
      const first = Math.floor(this.from + x * step), last = Math.min(numbers.length, Math.max(first + 1, Math.floor(this.from + (x + 1) * step)));
      let height = 0;
      for (let at = first; at < last; at++) if (numbers[at] > height) height = numbers[at];
      const y = bottom - ((bottom - top) * Math.min(height, most)) / most;
      pen.lineTo(x, y);
      pen.lineTo(x + 1, y);
    }
    pen.lineTo(this.width, bottom);
    pen.fillStyle = this.colour(colour);
    pen.globalAlpha = 0.55;
    pen.fill();
    pen.globalAlpha = 1;
    pen.fillStyle = this.colour("text");
    const told = `${words} (at most ${most})`;
    pen.globalAlpha = 0.8;
    pen.fillStyle = this.colour("back");
    pen.fillRect(2, top, pen.measureText(told).width + 6, 14);
    pen.globalAlpha = 1;
    pen.fillStyle = this.colour("soft");
    pen.fillText(told, 5, top + 11);
  }

  // A tick for each line of a change, and for what the chosen node did; for other events where there is room.
  drawTicks() {
    const { pen, course } = this, [top, bottom] = ROWS.ticks, across = this.width / (this.to - this.from);
    const seen = new Set();
    for (let moment = Math.max(0, Math.floor(this.from)); moment < Math.min(course.length, this.to); moment++) {
      const colour = this.isOfChosen(moment) ? "accent" : TICKS[course.verbs[moment]] || (across > 3 ? "line" : null);
      const x = Math.round(this.x(moment)), key = `${x} ${colour}`;
      if (!colour || seen.has(key)) continue;
      seen.add(key);
      pen.fillStyle = this.colour(colour);
      const isTall = colour === "accent";
      pen.fillRect(x, isTall ? top - 4 : top, Math.max(1, Math.min(across - 1, 6)), bottom - top + (isTall ? 4 : 0));
    }
  }

  isOfChosen(moment) {
    if (!this.chosen.size) return false;
    const verb = this.course.verbs[moment], number = this.course.a[moment];
    if (NODE_VERBS.includes(verb)) return this.chosen.has(number);
    return PORT_VERBS.includes(verb) && this.chosen.has(this.course.owner[number]);
  }

  drawHere() {
    const { pen } = this, x = this.x(this.moment + 0.5);
    pen.fillStyle = this.colour("accent");
    pen.fillRect(x - 1, 0, 2.5, ROWS.ticks[1]);
    pen.beginPath();
    pen.moveTo(x - 6, 0);
    pen.lineTo(x + 6, 0);
    pen.lineTo(x, 9);
    pen.fill();
  }

  // ---- hands

  listen() {
    const { canvas } = this;
    canvas.addEventListener("wheel", (event) => {
      event.preventDefault();
      const around = this.from + (event.offsetX / this.width) * (this.to - this.from);
      if (Math.abs(event.deltaX) > Math.abs(event.deltaY)) this.slide((event.deltaX / this.width) * (this.to - this.from));
      else this.zoom(event.deltaY > 0 ? 1.25 : 0.8, around);
    }, { passive: false });
    canvas.addEventListener("pointerdown", (event) => {
      canvas.setPointerCapture(event.pointerId);
      this.isHeld = true;
      this.go(this.momentAt(event.offsetX));
    });
    canvas.addEventListener("pointermove", (event) => this.isHeld && this.goSoon(this.momentAt(event.offsetX)));
    canvas.addEventListener("pointerup", () => (this.isHeld = false));
    canvas.addEventListener("keydown", (event) => {
      if (event.key === "+" || event.key === "=") this.zoom(0.5);
      else if (event.key === "-") this.zoom(2);
      else return;
      event.stopPropagation();
      event.preventDefault();
    });
  }

  // Goes to the last of the moments that come between two pictures.
  goSoon(moment) {
    if (this.soon === undefined) {
      requestAnimationFrame(() => {
        this.go(this.soon);
        this.soon = undefined;
      });
    }
    this.soon = moment;
  }

  slide(by) {
    this.window(this.from + by, this.to + by);
  }
}

// The greatest number; of gates only in changes, since at the start and the stop all are closed.
function greatest(course, numbers, isOfChanges) {
  const isAsked = (section) => !isOfChanges || section.isChange || !course.sections.some((other) => other.isChange);
  let most = 0;
  for (const section of course.sections.filter(isAsked)) for (let at = section.first; at <= section.last; at++) most = Math.max(most, numbers[at]);
  return most;
}
