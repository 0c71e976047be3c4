"use strict";
// What pages are made of: elements, tables, and numbers in words.

const byId = (id) => document.getElementById(id);

function cell(kind, ...inner) {
  const made = document.createElement(kind);
  made.append(...inner);
  return made;
}

function link(words, to) {
  const made = cell("a", words);
  made.href = to;
  return made;
}

function table(heads, rows) {
  const made = cell("table", cell("thead", cell("tr", ...heads.map((head) => cell("th", head)))), cell("tbody"));
  for (const cells of rows) made.lastChild.append(cell("tr", ...cells.map((inner) => cell("td", ...[inner].flat()))));
  return made;
}

function plural(number, noun) {
  return `${number.toLocaleString("en")} ${noun}${number === 1 ? "" : "s"}`;
}
