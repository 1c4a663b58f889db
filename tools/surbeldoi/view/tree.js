// The tree of layers, those in front first: it is searched, folded, and gone through by keys.

// The height of a row; how many rows stand there at most all at once, and else how many around those in sight.
const ROW_HIGH = 24, MOST_ROWS = 150, AROUND = 20;
const folded = new Set(), rows = new Map();
const KINDS_SHORT = { "no parent": "no parent", hidden: "hidden", "other stack": "on another stack", "not below": "not captured", outside: "outside",
  "alpha 0": "alpha 0", clear: "clear", covered: "covered", "no frame": "no frame", "not told": "it is not told why" };

function contentText(layer) {
  if (layer.kind === "container") return "container";
  if (layer.kind === "colour") return `colour ${layer.colour}`;
  if (!layer.content) return "buffer, no frame yet";
  return `${layer.content.name}: queue ${layer.content.queue} frame ${layer.content.frame}, picture ${layer.content.picture}`;
}

// The layers that a vsync's transactions change.
function changedAt(place) {
  const numbers = new Set();
  for (const commit of RUN.moments[place].commits)
    if (!commit.cause && RUN.arrivals[commit.arrival]) for (const [layer] of RUN.arrivals[commit.arrival].operations) numbers.add(layer);
  return numbers;
}

// What is said of a layer behind its content, each with its class.
function tagsOf(layer, look, changed) {
  const kind = layer.kind === "container" ? null : look.kindNotShown(layer.number), isCopied = kind && look.isInSight(layer.number);
  return [
    changed.has(layer.number) && ["good", "changed"], layer.hidden && kind !== "hidden" && ["faint", "hidden"],
    layer.relative !== null && ["faint", `relative to ${layer.relative}`], RUN.mirrors[layer.number] && ["faint", `mirrors ${RUN.mirrors[layer.number]}`],
    layer.parent === ROOT && RUN.stacks[layer.number] && ["faint", `stack ${RUN.stacks[layer.number]}`],
    layer.alpha < 255 && ["faint", `alpha ${layer.alpha}`], isCopied ? ["faint", "shown by a mirror"] : kind && ["wait", `not shown: ${KINDS_SHORT[kind]}`]].filter((tag) => tag);
}

// Whether a layer is one that is searched for: each word is the beginning of its number, `visible`, or part of what is said of it.
function isFound(layer, look, changed, words) {
  const text = () => `layer ${layer.number} ${layer.kind} ${contentText(layer)} ${tagsOf(layer, look, changed).map(([, tag]) => tag).join(" ")}`.toLowerCase();
  return words.every((word) => (/^[0-9]+$/.test(word) ? String(layer.number).startsWith(word) : word === "visible" ? look.isInSight(layer.number) : text().includes(word)));
}

// The lines of the tree that stand there: each a layer, whether it has layers below, and whether it only leads to one that was found.
function linesOfTree() {
  const layers = layersOf(now.place), words = byId("search").value.toLowerCase().split(/\s+/).filter((word) => word);
  const lines = layers.map((layer, at) => ({ layer, hasBelow: at + 1 < layers.length && layers[at + 1].depth > layer.depth, isAround: false }));
  if (!words.length) return { lines: unfoldedOf(lines), found: layers.length, of: layers.length };
  const look = looked(), changed = changedAt(now.place), found = [];
  let needed = 0, count = 0;
  // From the last to the first, so that what leads to a layer that is found is known when its turn comes.
  for (const line of lines.reverse()) {
    const isWanted = isFound(line.layer, look, changed, words);
    count += isWanted;
    if (!isWanted && line.layer.depth >= needed) continue;
    found.push({ ...line, isAround: !isWanted });
    needed = line.layer.depth;
  }
  return { lines: found.reverse(), found: count, of: layers.length };
}

function unfoldedOf(lines) {
  const shown = [];
  let below = Infinity;
  for (const line of lines) {
    if (line.layer.depth > below) continue;
    below = folded.has(line.layer.number) && line.hasBelow ? line.layer.depth : Infinity;
    shown.push(line);
  }
  return shown;
}

function treeRow({ layer, hasBelow, isAround }, tags) {
  const isFolded = folded.has(layer.number);
  const mark = set(make("span", "fold", hasBelow ? (isFolded ? "▸" : "▾") : ""), { "aria-hidden": "true" });
  const row = make("li", isAround ? "around" : "", mark, make("strong", "", `layer ${layer.number}`), layer.kind === "colour" ? swatch(channels(layer.colour)) : null,
    ...tags.map(([className, text]) => make("span", `tag ${className}`, text)), ` ${contentText(layer)}`);
  row.style.borderLeftColor = hue(layer.number);
  row.style.paddingLeft = `${4 + Math.min(layer.depth, 12) * 14}px`;
  row.dataset.layer = layer.number;
  return set(row, { role: "treeitem", "aria-level": layer.depth + 1, tabindex: -1, ...(hasBelow ? { "aria-expanded": String(!isFolded) } : {}) });
}

// The lines of the tree, and which of them have rows: all, or where there are many those in sight and some around them.
const shownTree = { lines: [], from: 0, to: 0 };

function showTree() {
  const tree = byId("tree"), { lines, found, of } = moment().tree === null ? { lines: [], found: 0, of: 0 } : linesOfTree();
  shownTree.lines = lines;
  byId("found").textContent = found === of ? plural(of, "layer") : `${found} of ${plural(of, "layer")}`;
  if (!lines.length) {
    rows.clear();
    const text = moment().tree === null ? "The layers are not known here." : of ? "no layer is found" : "no layers yet";
    return void tree.replaceChildren(set(make("li", "none", text), { role: "treeitem" }));
  }
  bringLineInto(lineOf(now.layer));
  showRows();
}

const lineOf = (number) => shownTree.lines.findIndex(({ layer }) => layer.number === number);

// Scrolls the tree, and nothing around it, so that a line of it is in sight.
function bringLineInto(at) {
  const tree = byId("tree"), high = tree.clientHeight;
  if (at < 0) return;
  if (at * ROW_HIGH < tree.scrollTop) tree.scrollTop = at * ROW_HIGH;
  else if ((at + 1) * ROW_HIGH > tree.scrollTop + high) {
    // Where the rows that lead there are not there yet, there is no room to scroll to.
    if (tree.scrollHeight < shownTree.lines.length * ROW_HIGH) tree.replaceChildren(space(shownTree.lines.length));
    tree.scrollTop = (at + 1) * ROW_HIGH - high;
  }
}

// The room of lines that have no rows.
function space(count) {
  const element = set(make("li", "space"), { role: "none" });
  element.style.height = `${count * ROW_HIGH}px`;
  return element;
}

// Has the rows of the lines that are in sight.
function showRows() {
  const tree = byId("tree"), { lines } = shownTree, look = looked(), changed = changedAt(now.place), known = new Map(rows), isWhole = lines.length <= MOST_ROWS;
  const from = isWhole ? 0 : Math.max(0, Math.min(Math.floor(tree.scrollTop / ROW_HIGH), lines.length) - AROUND);
  const to = isWhole ? lines.length : Math.min(lines.length, Math.ceil((tree.scrollTop + tree.clientHeight) / ROW_HIGH) + AROUND);
  const hasFocus = tree.contains(document.activeElement);
  rows.clear();
  lines.slice(from, to).forEach((line, at) => {
    const { layer, hasBelow, isAround } = line, tags = tagsOf(layer, look, changed), sign = JSON.stringify([layer, tags, hasBelow, isAround, folded.has(layer.number)]);
    const old = known.get(layer.number), row = old && old.sign === sign ? old : { sign, element: treeRow(line, tags) };
    rows.set(layer.number, row);
    set(row.element, { "aria-setsize": lines.length, "aria-posinset": from + at + 1 });
  });
  const elements = [...rows.values()].map(({ element }) => element);
  putInto(tree, [...(from ? [space(from)] : []), ...elements, ...(to < lines.length ? [space(lines.length - to)] : [])]);
  Object.assign(shownTree, { from, to });
  markChosen(hasFocus);
}

// Has these elements in a pane, in this order, and moves as few of those that are there as is easily told.
function putInto(pane, elements) {
  const wanted = new Set(elements);
  let at = pane.firstElementChild;
  const pass = () => { const gone = at; at = at.nextElementSibling; gone.remove(); };
  for (const element of elements) {
    while (at && at !== element && (!wanted.has(at) || at.nextElementSibling === element)) pass();
    if (at === element) at = at.nextElementSibling;
    else pane.insertBefore(element, at);
  }
  while (at) pass();
}

// Marks the chosen layer; the row that keys begin at is its own, or the first.
function markChosen(hasFocus) {
  const tree = byId("tree");
  for (const old of tree.querySelectorAll("[aria-selected=true], [tabindex='0']")) set(old, { "aria-selected": "false", tabindex: -1 });
  const row = rows.get(now.layer), first = row ? row.element : [...rows.values()].map(({ element }) => element)[0];
  if (row) set(row.element, { "aria-selected": "true" });
  if (first) set(first, { tabindex: 0 });
  if (hasFocus && first) first.focus({ preventScroll: true });
}

// Chooses a layer, and unfolds what it stands below.
function chooseLayer(number) {
  now.layer = number;
  const layers = layersBy(now.place);
  for (let at = layers.get(number); at && at.parent; at = layers.get(at.parent)) folded.delete(at.parent);
  showTree();
  showOutlines();
  showLayer();
  writeLink();
}

// Chooses the layer of a line, and has the keys there.
function chooseLine(at) {
  const line = shownTree.lines[Math.max(0, Math.min(at, shownTree.lines.length - 1))];
  if (!line) return;
  chooseLayer(line.layer.number);
  rows.get(now.layer).element.focus({ preventScroll: true });
}

function fold(number, isFolded) {
  if (isFolded) folded.add(number); else folded.delete(number);
  showTree();
}

function foldAll(isFolded) {
  folded.clear();
  if (isFolded) layersOf(now.place).forEach((layer, at, layers) => { if (at + 1 < layers.length && layers[at + 1].depth > layer.depth) folded.add(layer.number); });
  showTree();
}

function treeKey(event) {
  const number = Number(event.target.dataset.layer), at = lineOf(number), { lines } = shownTree;
  if (isModified(event) || at < 0) return;
  const { layer, hasBelow } = lines[at], isOpen = hasBelow && !folded.has(number);
  const above = () => { for (let up = at - 1; up >= 0; up--) if (lines[up].layer.depth < layer.depth) return chooseLine(up); };
  const does = { ArrowUp: () => chooseLine(at - 1), ArrowDown: () => chooseLine(at + 1), Home: () => chooseLine(0), End: () => chooseLine(lines.length - 1),
    PageUp: () => chooseLine(at - 10), PageDown: () => chooseLine(at + 10), Enter: () => chooseLine(at), " ": () => chooseLine(at),
    ArrowLeft: () => (isOpen ? fold(number, true) : above()), ArrowRight: () => (isOpen ? chooseLine(at + 1) : hasBelow ? fold(number, false) : null) }[event.key];
  if (!does) return;
  event.preventDefault();
  event.stopPropagation();
  does();
}

function startTree() {
  const tree = byId("tree");
  tree.onclick = (event) => {
    const row = event.target.closest("[data-layer]");
    if (!row) return;
    const number = Number(row.dataset.layer);
    if (event.target.className === "fold" && row.hasAttribute("aria-expanded")) return fold(number, !folded.has(number));
    chooseLine(lineOf(number));
  };
  tree.onkeydown = treeKey;
  tree.onscroll = () => { if (shownTree.lines.length > MOST_ROWS) showRows(); };
  byId("search").oninput = showTree;
  byId("search").onkeydown = (event) => {
    if (event.key !== "Enter" && event.key !== "ArrowDown") return;
    event.preventDefault();
    chooseLine(shownTree.lines.findIndex(({ isAround }) => !isAround));
  };
  byId("fold-all").onclick = () => foldAll(true);
  byId("unfold-all").onclick = () => foldAll(false);
}
