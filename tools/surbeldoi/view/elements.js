"use strict";
// Elements of the page, and what they are filled with.

const byId = (id) => document.getElementById(id);
const fill = (id, ...inside) => byId(id).replaceChildren(...inside.filter((one) => one !== null && one !== undefined));

// An element with its class, and with texts and elements in it.
function make(name, className, ...inside) {
  const element = document.createElement(name);
  if (className) element.className = className;
  element.append(...inside.filter((one) => one !== null && one !== undefined));
  return element;
}

// An element with these attributes.
function set(element, attributes) {
  for (const [name, value] of Object.entries(attributes)) element.setAttribute(name, value);
  return element;
}

function drawing(name, attributes, text) {
  const element = set(document.createElementNS("http://www.w3.org/2000/svg", name), attributes);
  if (text !== undefined) element.textContent = text;
  return element;
}

// A button that does something.
function button(className, does, ...inside) {
  const element = set(make("button", className, ...inside), { type: "button" });
  element.onclick = does;
  return element;
}

const faint = (text) => make("span", "faint", text);
const plural = (count, thing) => `${count} ${thing}${count === 1 ? "" : "s"}`;

// A line of the script.
function stepLine(line, words, className, note) {
  return make("span", `step mono ${className || ""}`, make("b", "", String(line || "")), words, note || null);
}

// A table of these rows, each a list of texts and elements; the first row is its head. A row may have a note, which stands below it.
function table(className, head, rows) {
  const line = (kind, cells) => make("tr", "", ...cells.map((cell) => make(kind, "", cell)));
  const noted = (note) => make("tr", "note", set(make("td", "", note), { colspan: head.length }));
  const body = rows.flatMap(({ cells, note }) => (note ? [line("td", cells), noted(note)] : [line("td", cells)]));
  return make("table", className, make("thead", "", line("th", head)), make("tbody", "", ...body));
}

// A square of a colour of four channels, as it adds to what is behind it.
function swatch([red, green, blue, alpha]) {
  const square = set(make("i", "swatch"), { "aria-hidden": "true" });
  const shown = (channel) => Math.min(255, channel * 255 / alpha);
  square.style.background = alpha ? `rgb(${shown(red)} ${shown(green)} ${shown(blue)} / ${alpha / 255})` : "transparent";
  return square;
}

// Puts a text where it can be pasted from; where that is not allowed, it is shown to be copied by hand.
async function copy(text, from) {
  try {
    await navigator.clipboard.writeText(text);
    say("copied");
  } catch {
    byId("to-copy").value = text;
    byId("copying").showModal();
    byId("to-copy").select();
  }
  if (from) from.dataset.copied = text;
}

// Tells something to who listens rather than looks.
function say(text) { byId("said").textContent = text; }

// Moves the focus among elements beside one another by arrows, Home and End; the one that it goes to, or null.
function moveAmong(elements, event) {
  const at = elements.indexOf(document.activeElement), to = { ArrowLeft: at - 1, ArrowRight: at + 1, Home: 0, End: elements.length - 1 }[event.key];
  if (at < 0 || to === undefined || isModified(event)) return null;
  event.preventDefault();
  event.stopPropagation();
  const found = elements[Math.max(0, Math.min(to, elements.length - 1))];
  found.focus();
  return found;
}

const isModified = (event) => event.altKey || event.ctrlKey || event.metaKey || event.shiftKey;
