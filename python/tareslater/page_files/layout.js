"use strict";
// Places boxes from left to right, as their links lead: in layers, each in an order that crosses few links.

const GAP = { across: 46, down: 14 };
const WIDEST = 1500; // a row of layers that is wider goes on below
const GRID = 1.7; // how many times as wide as high many boxes without links are laid out
const COLUMN = 12; // so few stand below one another
const BEND = { width: 0, height: 14 }; // of the way that a link has between the boxes of a layer
const BENDS = 2000; // with more of them links lead straight

// The places of boxes with these sizes, between which links lead: [{x, y}]; the ways of links that lead over layers, as [from, to, way], where
// a way is [{left, right, y}]; and how large all is.
function laidOut(sizes, links) {
  const isLinked = new Array(sizes.length).fill(false);
  for (const [from, to] of links) isLinked[from] = isLinked[to] = true;
  const linked = sizes.map((_, box) => box).filter((box) => isLinked[box]);
  const alone = sizes.map((_, box) => box).filter((box) => !isLinked[box]);
  const places = new Array(sizes.length);
  const above = linked.length ? layered(sizes, links, linked, places) : { ways: [], width: 0, height: 0 };
  const below = grid(sizes, alone, places, above.height ? above.height + GAP.down * 2 : 0, above.width);
  return { places, ways: above.ways, width: Math.max(above.width, below.width), height: Math.max(above.height, below.height) };
}

function grid(sizes, boxes, places, top, least) {
  const widest = Math.max(0, ...boxes.map((box) => sizes[box].width)) + GAP.down;
  const area = boxes.reduce((sum, box) => sum + (sizes[box].height + GAP.down) * widest, 0);
  const across = boxes.length <= COLUMN && !least ? widest : Math.max(least, widest, Math.sqrt(area * GRID));
  let x = 0, y = top, row = 0, width = 0;
  for (const box of boxes) {
    if (x && x + sizes[box].width > across) [x, y, row] = [0, y + row + GAP.down, 0];
    places[box] = { x, y };
    x += sizes[box].width + GAP.down;
    row = Math.max(row, sizes[box].height);
    width = Math.max(width, x - GAP.down);
  }
  return { width, height: boxes.length ? y + row : 0 };
}

// Links without those that lead back to a box from which they come.
function withoutCycles(links, boxes) {
  const next = new Map(boxes.map((box) => [box, []]));
  for (const [from, to] of links) if (from !== to) next.get(from).push(to);
  const state = new Map(), kept = [];
  for (const start of boxes) {
    const path = state.has(start) ? [] : [[start, 0]];
    while (path.length) {
      const top = path[path.length - 1], [box] = top;
      state.set(box, "inside");
      const to = next.get(box)[top[1]++];
      if (to === undefined) state.set(path.pop()[0], "done");
      else if (state.get(to) !== "inside") {
        kept.push([box, to]);
        if (!state.has(to)) path.push([to, 0]);
      }
    }
  }
  return kept;
}

// The layer of each box: behind all that lead to it.
function layersOf(boxes, links) {
  const layer = new Map(boxes.map((box) => [box, 0])), before = new Map(boxes.map((box) => [box, 0])), next = new Map(boxes.map((box) => [box, []]));
  for (const [from, to] of links) {
    next.get(from).push(to);
    before.set(to, before.get(to) + 1);
  }
  const ready = boxes.filter((box) => before.get(box) === 0);
  for (let at = 0; at < ready.length; at++) {
    for (const to of next.get(ready[at])) {
      layer.set(to, Math.max(layer.get(to), layer.get(ready[at]) + 1));
      before.set(to, before.get(to) - 1);
      if (before.get(to) === 0) ready.push(to);
    }
  }
  const rows = [];
  for (const box of boxes) (rows[layer.get(box)] = rows[layer.get(box)] || []).push(box);
  return rows;
}

function neighbours(boxes, links) {
  const found = new Map(boxes.map((box) => [box, { before: [], behind: [] }]));
  for (const [from, to] of links) {
    found.get(from).behind.push(to);
    found.get(to).before.push(from);
  }
  return found;
}

function mean(numbers) {
  return numbers.reduce((sum, number) => sum + number, 0) / numbers.length;
}

// Boxes of a layer in the order of the mean places of their neighbours in the layers before, or behind.
function ordered(rows, near) {
  const at = new Map();
  const number = (row) => row.forEach((box, place) => at.set(box, place));
  rows.forEach(number);
  for (let sweep = 0; sweep < 6; sweep++) {
    const side = sweep % 2 ? "behind" : "before";
    for (const row of sweep % 2 ? [...rows].reverse() : rows) {
      const wanted = new Map(row.map((box) => [box, near.get(box)[side].length ? mean(near.get(box)[side].map((other) => at.get(other))) : at.get(box)]));
      row.sort((one, other) => wanted.get(one) - wanted.get(other) || one - other);
      number(row);
    }
  }
}

// Heights of the boxes of each layer: beside their neighbours, as far as none lies on another.
function heights(rows, near, sizes) {
  const middle = new Map();
  const stack = (row, wanted) => {
    let top = -Infinity, moved = 0;
    const tops = row.map((box, at) => {
      top = Math.max(wanted[at] - sizes[box].height / 2, top);
      moved += top + sizes[box].height / 2 - wanted[at];
      const here = top;
      top += sizes[box].height + GAP.down;
      return here;
    });
    row.forEach((box, at) => middle.set(box, tops[at] - moved / row.length + sizes[box].height / 2));
  };
  rows.forEach((row) => stack(row, row.map((_, at) => at * 50)));
  for (let sweep = 0; sweep < 8; sweep++) {
    const side = sweep % 2 ? "behind" : "before";
    for (const row of sweep % 2 ? [...rows].reverse() : rows) {
      stack(row, row.map((box) => (near.get(box)[side].length ? mean(near.get(box)[side].map((other) => middle.get(other))) : middle.get(box))));
    }
  }
  return middle;
}

// A link that leads over layers has a bend in each of them, which is a box for the layout: links between neighbouring layers, and bends.
function bent(rows, forward, sizes) {
  const layer = new Map(rows.flatMap((row, at) => row.map((box) => [box, at]))), links = [], bends = [];
  const over = forward.reduce((sum, [from, to]) => sum + layer.get(to) - layer.get(from) - 1, 0);
  if (over > BENDS) return { links: forward, bends };
  for (const [from, to] of forward) {
    const way = [];
    for (let at = layer.get(from) + 1; at < layer.get(to); at++) {
      way.push(sizes.push(BEND) - 1);
      rows[at].push(way[way.length - 1]);
    }
    [...way, to].forEach((box, at) => links.push([at ? way[at - 1] : from, box]));
    if (way.length) bends.push([from, to, way]);
  }
  return { links, bends };
}

function layered(boxSizes, boxLinks, boxes, found) {
  const forward = withoutCycles(boxLinks, boxes), rows = layersOf(boxes, forward), sizes = [...boxSizes], places = [];
  const { links, bends } = bent(rows, forward, sizes), near = neighbours(rows.flat(), links);
  ordered(rows, near);
  const middle = heights(rows, near, sizes), bands = bandsOf(rows, sizes);
  let top = 0, widest = 0;
  for (const [number, band] of bands.entries()) {
    const all = band.flat();
    const least = Math.min(...all.map((box) => middle.get(box) - sizes[box].height / 2));
    let x = 0, bottom = top;
    for (const row of band) {
      const width = Math.max(...row.map((box) => sizes[box].width));
      for (const box of row) {
        places[box] = { x: x + (width - sizes[box].width) / 2, y: top + middle.get(box) - sizes[box].height / 2 - least, left: x, right: x + width, number };
        bottom = Math.max(bottom, places[box].y + sizes[box].height);
      }
      x += width + GAP.across;
    }
    widest = Math.max(widest, x - GAP.across);
    top = bottom + GAP.down * 3;
  }
  for (const box of boxes) found[box] = { x: places[box].x, y: places[box].y };
  const wayOf = (bend) => ({ left: places[bend].left, right: places[bend].right, y: places[bend].y + BEND.height / 2 });
  const isInRow = ([from, to]) => places[from].number === places[to].number; // of layers, none of which goes on below
  return { ways: bends.filter(isInRow).map(([from, to, way]) => [from, to, way.map(wayOf)]), width: widest, height: top - GAP.down * 3 };
}

// Layers that would be too wide in one row go on below, as lines of a text.
function bandsOf(rows, sizes) {
  const bands = [[]];
  let x = 0;
  for (const row of rows) {
    const width = Math.max(...row.map((box) => sizes[box].width)) + GAP.across;
    if (x && x + width > WIDEST) {
      bands.push([]);
      x = 0;
    }
    bands[bands.length - 1].push(row);
    x += width;
  }
  return bands;
}
