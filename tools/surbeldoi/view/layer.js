// What a layer is: what its transactions asked for, what comes of that, and why.

const CHANGES_SHOWN = 12;

function orientText(orient) {
  const turns = ["not turned", "a quarter turn clockwise", "turned upside down", "a quarter turn anticlockwise"][orient % 4];
  return `${orient}: ${orient > 3 ? "mirrored, then " : ""}${turns}`;
}

// The line that set a property, which leads to the vsync that committed it.
function originLink(origin) {
  if (!origin) return "";
  const link = button("link", () => go(origin.place), `line ${origin.line}`);
  link.title = `${origin.words}: vsync ${origin.vsync}`;
  return make("span", "", link, faint(` vsync ${origin.vsync}`));
}

// The rows of what is asked for a layer beside what comes of it.
function askedRows(look, layer) {
  const by = (name) => originLink(origins.of(layer.number, name, now.place));
  const rows = look.computed(layer.number).map(({ name, asked, computed, why, set }) => {
    const isOther = computed === "not shown", text = why();
    return { cells: [name, asked, make("strong", isOther ? "wait" : "", computed), isOther ? originLink(look.originOf(look.notShown(layer.number))) : by(set)],
      note: text ? make("span", isOther ? "wait" : "faint", text) : null };
  });
  const more = [
    ["parent", parentText(layer.parent), "parent", layer.parent === null ? "it was taken from it, so the layer does not show" : ""],
    layer.kind === "colour" && ["colour", layer.colour, "colour", ""],
    layer.content && ["frame", valueText(layer, "content"), "content", `its crop: ${rectangleText(layer.content.crop)}`],
    layer.orient > 0 && ["orient", orientText(layer.orient), "orient", ""],
    layer.opaque && ["opaque", "1", "opaque", "its own pixels count as if they had alpha 255"],
    layer.backpressure && ["backpressure", "1", "backpressure", "a second frame waits for the next vsync"],
    layer.parent === ROOT && layer.number in RUN.stacks && ["stack", String(RUN.stacks[layer.number]), "", "by a line of the script's head"],
    RUN.mirrors[layer.number] && ["mirrors", `layer ${RUN.mirrors[layer.number]}`, "", "with all below it"]];
  return [...rows, ...more.filter((row) => row).map(([name, asked, set, why]) => ({ cells: [name, asked, "", set ? by(set) : ""], note: why ? faint(why) : null }))];
}

// Where the copies of a layer are that mirrors show.
function copyLines(look, number) {
  return look.drawn.filter((one) => one.layer === number && one.mirror !== null)
    .map((one) => make("div", "", `copied by layer ${one.mirror}: at ${one.place.join(" ")}, covers ${rectangleText(one.clip)}, alpha ${one.alpha}`));
}

// Which of two layers is in front, and why.
function orderLine(look, number, other) {
  const place = (one) => look.drawn.findIndex((drawn) => drawn.layer === one && drawn.mirror === null), own = place(number), its = place(other);
  if (own < 0) return `layer ${number} is not painted here: ${(look.notShown(number) || { text: "" }).text}`;
  if (its < 0) return look.there.has(other) ? `layer ${other} is not painted here: ${(look.notShown(other) || { text: "" }).text}` : look.absence(other);
  if (own === its) return "that is the layer itself";
  return own > its ? `in front of it: ${look.orderText(String(number), String(other))}` : `behind it: ${look.orderText(String(other), String(number))}`;
}

function orderField(look, layer) {
  const field = set(make("input", ""), { type: "number", min: 1, "aria-label": "another layer", id: "order-beside" }), text = set(make("span", ""), { id: "order-text" });
  const at = look.own.get(layer.number), neighbour = at > 0 ? look.drawn[at - 1] : look.drawn[at + 1];
  field.value = now.orderBeside || (neighbour ? neighbour.layer : "");
  const tell = () => { text.textContent = field.value ? ` ${orderLine(look, layer.number, Number(field.value))}` : ""; };
  field.onchange = () => { now.orderBeside = Number(field.value) || null; tell(); };
  tell();
  return make("div", "order", make("label", "", "Beside layer ", field), text);
}

function thumbnail(layer) {
  if (!layer.content) return null;
  const { width, height } = RUN.pictures[layer.content.picture], canvas = make("canvas", "");
  [canvas.id, canvas.width, canvas.height] = ["thumb", width, height];
  canvas.style.width = `${Math.round(width * Math.min(4, 160 / width, 160 / height))}px`;
  canvas.getContext("2d").putImageData(new ImageData(new Uint8ClampedArray(pictures.pixels(layer.content.picture)), width, height), 0, 0);
  return set(canvas, { role: "img", "aria-label": `picture ${layer.content.picture}, ${width} x ${height}`, title: `picture ${layer.content.picture}, ${width} x ${height}` });
}

// The operations that changed a layer, the last first.
function changesOf(number) {
  const lines = [];
  for (const one of RUN.moments.slice(0, now.place + 1))
    for (const commit of one.commits)
      for (const [layer, line, words] of commit.cause || !RUN.arrivals[commit.arrival] ? [] : RUN.arrivals[commit.arrival].operations)
        if (layer === number) lines.push([line, words, one.vsync]);
  return lines.reverse();
}

function showLayer() {
  const title = byId("layer-title");
  title.textContent = now.layer === null ? "Layer" : titleOf(now.layer);
  if (now.layer === null) return void fill("layer", faint("Choose a layer, in the tree or on the frame."));
  const look = looked(), layer = look.layers.get(now.layer);
  if (moment().tree === null) return void fill("layer", make("span", "wait", "The layers are not known here."));
  if (!layer) return void fill("layer", make("span", "wait", `Layer ${now.layer} is not there at ${nameOf(moment())}: ${look.missing(now.layer).text}.`));
  const changes = changesOf(layer.number);
  fill("layer", make("div", "faint", `${layer.kind}, on ${screen().name}`), table("asked", ["property", "asked", "comes to", "set by"], askedRows(look, layer)),
    ...copyLines(look, layer.number), orderField(look, layer), thumbnail(layer), make("h3", "", "Changed by, the last first"),
    ...changes.slice(0, CHANGES_SHOWN).map(([line, words, vsync]) => stepLine(line, words, "", faint(`  vsync ${vsync}`))),
    changes.length > CHANGES_SHOWN ? faint(`and ${changes.length - CHANGES_SHOWN} before`) : null);
}
