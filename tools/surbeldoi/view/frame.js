// The frame, and how a pixel of it came about.

// So many layers are outlined at most.
const MOST_OUTLINED = 200;

// What the check of an output's frame at a moment came to, by both.
const checks = new Map();
async function checkOf(place, number) {
  const key = `${place} ${number}`;
  if (!checks.has(key)) {
    const output = outputOf(place, number), { width, height } = RUN.outputs[number];
    if (output.frame === null || output.isMissing || output.painting === null) checks.set(key, null);
    else checks.set(key, difference(paint(drawnBy(output), pictures, width, height), await frameOf(output.frame), width));
  }
  return checks.get(key);
}

function checkText(output, check) {
  if (output.isMissing) return ["wait", "The frame of these layers is not in the records: this is the one before."];
  if (output.frame === null) return ["faint", screen().isCapture ? "Nothing is captured: the layer is not there." : "No frame yet: the display is black."];
  if (check === null) return ["wait", "The tree is not known here, so the frame could not be painted again."];
  if (check.count === 0) return ["good", "✓ Painted again from the layers by this page: the same to the last pixel."];
  return ["bad", `✗ Painted again from the layers by this page, ${check.count} pixels differ, the first at ${check.x} ${check.y}.`];
}

// The pixels of an output's last frame at a moment, black where there was none.
async function pixelsOf(place, number) {
  const output = outputOf(place, number), { width, height } = RUN.outputs[number];
  return output.frame === null ? paint([], pictures, width, height) : frameOf(output.frame);
}

async function showFrame() {
  const place = now.place, number = now.output, output = outputOf(place, number), { width, height } = screen();
  const isHere = () => place === now.place && number === now.output;
  const pixels = await pixelsOf(place, number);
  if (!isHere()) return;
  if (pixels.length === 4 * width * height && pixels.length) byId("frame").getContext("2d").putImageData(new ImageData(pixels, width, height), 0, 0);
  showPixelOfFrame(pixels);
  const check = await checkOf(place, number);
  if (!isHere()) return;
  const [className, text] = checkText(output, check);
  const old = output.isNew || output.isMissing || output.frame === null ? null : faint(" No new frame came here: this is the last one.");
  fill("check", make("span", className, text), old);
  byId("check").dataset.place = place;
  byId("check").dataset.output = number;
}

// All frames that came, each by its moment and its output.
function newFrames() {
  return RUN.moments.flatMap((one, place) => one.outputs.map((output, number) => [place, number, output.isNew])).filter(([, , isNew]) => isNew);
}

// Checks all frames, one after another, while nothing else is to do.
async function checkAll() {
  const frames = newFrames(), differ = new Set();
  let same = 0, checked = 0;
  for (const [place, number] of frames) {
    const check = await checkOf(place, number);
    checked += check !== null;
    if (check && check.count === 0) same++;
    else if (check) differ.add(RUN.moments[place].vsync);
    byId("checked").textContent = `Of all ${frames.length} frames, ${same} are the same as this page paints them`
      + (differ.size ? `; they differ at vsync ${[...differ].slice(0, 8).join(", ")}.` : checked < frames.length ? ".." : ".");
    await new Promise((done) => setTimeout(done, 0));
  }
  byId("checked").dataset.done = "yes";
}

// The layers that are outlined: where there are too many to tell apart, the chosen one alone.
function outlinedNow() {
  if (!byId("outlined").checked) return [];
  const drawn = drawnNow().filter(({ clip }) => clip[2] > 0 && clip[3] > 0);
  return drawn.length > MOST_OUTLINED ? drawn.filter(({ layer }) => layer === now.layer) : drawn;
}

function showOutlines() {
  const shapes = outlinedNow().map(({ layer, clip: [x, y, width, height] }) =>
    drawing("rect", { x, y, width, height, stroke: hue(layer), "data-layer": layer, class: layer === now.layer ? "chosen" : "" }));
  if (now.point) {
    const [x, y] = now.point, { width, height } = screen();
    shapes.push(drawing("line", { x1: x + .5, x2: x + .5, y1: 0, y2: height }), drawing("line", { x1: 0, x2: width, y1: y + .5, y2: y + .5 }));
  }
  byId("outlines").replaceChildren(...shapes);
}

// The size in which the frame is shown: as many times larger as is chosen, or as there is room for.
function sizeStage() {
  const { width, height } = screen(), canvas = byId("frame"), chosen = Number(byId("zoom").value);
  const room = byId("stage-room").clientWidth - 2, high = Math.max(240, window.innerHeight * .55);
  const fit = Math.min(room / width, high / height), scale = chosen || (fit >= 1 ? Math.floor(fit) : fit);
  if (canvas.width !== width || canvas.height !== height) [canvas.width, canvas.height] = [width, height];
  canvas.style.width = `${Math.max(1, Math.floor(width * scale))}px`;
  byId("outlines").setAttribute("viewBox", `0 0 ${width} ${height}`);
}

function zoom(by) {
  const select = byId("zoom"), at = Math.max(0, Math.min(select.selectedIndex + by, select.options.length - 1));
  if (at === select.selectedIndex) return;
  select.selectedIndex = at;
  sizeStage();
}

// A point.

function effectOf(one, hiddenBy) {
  if (hiddenBy !== null) return ["faint", `hidden here by layer ${hiddenBy}`];
  if (one.cover === 255) return ["good", "hides all that is behind it"];
  if (!one.isSeen) return ["faint", "clear here, changes nothing"];
  return ["wait", `covers ${Math.round(one.cover / 2.55)} % (${one.cover} of 255) of ${digits(one.before)} behind it`];
}

// The line that gave a layer the colour or the frame that it shows.
function pixelOrigin(number) {
  const layer = layersBy(now.place).get(number), origin = layer && origins.of(number, layer.kind === "colour" ? "colour" : "content", now.place);
  return origin ? [faint(layer.kind === "colour" ? " Its colour is by " : " Its frame is by "), originLink(origin), faint(".")] : [];
}

// A row of the table: a layer, its own pixel, its alpha, and the pixel after it; what it does, and why it is in front of the next.
function pixelRow(one, below, hiddenBy) {
  const [className, text] = effectOf(one, hiddenBy), choose = button("link", () => chooseLayer(one.layer), titleOf(one.layer));
  choose.dataset.layer = one.layer;
  const order = below ? faint(` In front of ${layerName(keyOf(below))}: ${looked().orderText(keyOf(one), keyOf(below))}.`) : null;
  const copied = one.mirror === null ? "" : `copied by layer ${one.mirror}, `, colour = (name, channels) => make(name, "mono", swatch(channels), ` ${digits(channels)}`);
  return { cells: [choose, colour("span", one.source), String(one.alpha), colour("strong", one.after)],
    note: make("span", "", make("span", className, `${copied}${text}.`), ...pixelOrigin(one.layer), order) };
}

function showPoint() {
  const fields = { x: byId("at-x"), y: byId("at-y") }, { width, height } = screen();
  [fields.x.max, fields.y.max] = [width - 1, height - 1];
  fill("stack");
  fill("pixel-of-frame");
  if (!now.point) return void fill("at", faint("Click on the frame, or give a point: the layers there, and what each makes of the pixel."));
  const [x, y] = now.point, found = layersAt(drawnNow(), pictures, x, y), top = found.find((one) => one.isSeen);
  [fields.x.value, fields.y.value] = now.point;
  const first = make("strong", "", top ? `${titleOf(top.layer)} is on top` : "no layer shows, the display is black");
  fill("at", `At ${x} ${y}: `, first, found.length ? ". From the front to the back:" : ".");
  const rows = [];
  let hiddenBy = null;
  found.forEach((one, at) => {
    rows.push(pixelRow(one, found[at + 1], hiddenBy));
    if (hiddenBy === null && one.cover === 255) hiddenBy = one.layer;
  });
  rows.push({ cells: [faint("before any layer"), "", "", make("strong", "mono", swatch([0, 0, 0, 255]), " 000000ff")] });
  fill("stack", table("pixels", ["layer", "its own", "alpha", "after it"], rows));
}

// Says whether the frame has the pixel that the layers make.
function showPixelOfFrame(pixels) {
  if (!now.point) return;
  const [x, y] = now.point, at = 4 * (y * screen().width + x), told = digits([...pixels.subarray(at, at + 4)]);
  const painted = paintedAt(drawnNow(), pictures, x, y), due = digits(painted.length ? painted[painted.length - 1].after : [0, 0, 0, 255]);
  const text = told === due ? `✓ The frame has ${told} here, as the layers make it.` : `✗ The frame has ${told} here, where the layers make ${due}.`;
  if (told.length === 8) fill("pixel-of-frame", make("span", told === due ? "good" : "bad", text));
}

function choosePoint(x, y) {
  const { width, height } = screen();
  now.point = [Math.max(0, Math.min(x, width - 1)), Math.max(0, Math.min(y, height - 1))];
  const top = layersAt(drawnNow(), pictures, ...now.point).find((one) => one.isSeen);
  if (top) now.layer = top.layer;
  show();
}

function stageKey(event) {
  const far = event.shiftKey ? 10 : 1, by = { ArrowLeft: [-far, 0], ArrowRight: [far, 0], ArrowUp: [0, -far], ArrowDown: [0, far] }[event.key];
  if (!by || event.altKey || event.ctrlKey || event.metaKey) return;
  event.preventDefault();
  event.stopPropagation();
  const { width, height } = screen(), [x, y] = now.point || [Math.floor(width / 2) - by[0], Math.floor(height / 2) - by[1]];
  choosePoint(x + by[0], y + by[1]);
}

function startFrame() {
  byId("outlined").onchange = showOutlines;
  byId("zoom").onchange = sizeStage;
  const stage = byId("stage");
  stage.onkeydown = stageKey;
  stage.onclick = (event) => {
    const box = byId("frame").getBoundingClientRect(), { width, height } = screen();
    const x = Math.floor((event.clientX - box.left) / box.width * width), y = Math.floor((event.clientY - box.top) / box.height * height);
    if (x >= 0 && y >= 0 && x < width && y < height) choosePoint(x, y);
  };
  for (const id of ["at-x", "at-y"]) byId(id).onchange = () => choosePoint(Number(byId("at-x").value) || 0, Number(byId("at-y").value) || 0);
}

// Hits.

// The layer in front at a point of the own display, without what mirrors show; 0 where there is none.
function inFront(one, x, y) {
  const found = layersAt(drawnBy(one.outputs[0]), pictures, x, y).find((layer) => layer.mirror === null);
  return found ? found.layer : 0;
}

function hitItem([number, met]) {
  const one = moment(), [x, y] = RUN.hits[number], text = met ? titleOf(met) : "no layer";
  const differs = one.outputs[0].painting !== null && !one.outputs[0].isMissing && inFront(one, x, y) !== met;
  const choose = button("pick", () => { now.point = [x, y]; if (met) now.layer = met; chooseOutput(0); }, `hit ${number} at ${x} ${y}: `, make("strong", "", text),
    differs ? make("span", "bad", ` ✗ by the layers, ${inFront(one, x, y) || "none"}`) : null);
  choose.style.borderLeftColor = met ? hue(met) : "transparent";
  return make("li", "", choose);
}

function showHits() {
  const { hits } = moment();
  byId("hits-title").hidden = !Object.keys(RUN.hits).length;
  fill("hits", ...(byId("hits-title").hidden ? [] : hits.length ? hits.map(hitItem) : [make("li", "faint", "none yet")]));
}
