// What is different after one vsync and after another: which property of which layer, from what to what, by which line; and what
// follows from it for layers that were not changed in it themselves. `records.py why` says the same, and says it by itself.

// The properties that are told, each with the name that the script has for it.
const TOLD = [["parent", "parent"], ["z", "z"], ["position", "position"], ["crop", "crop"], ["alpha", "alpha"], ["hidden", "hidden"], ["opaque", "opaque"],
  ["colour", "colour"], ["orient", "orient"], ["backpressure", "backpressure"], ["content", "frame"]];
const NEW_LAYER = { relative: null, z: 0, position: [0, 0], crop: null, alpha: 255, hidden: false, opaque: false, colour: "000000ff", orient: 0,
  backpressure: false, content: null };
const ROWS_SHOWN = 200;

function valueText(layer, name) {
  const value = layer[name];
  if (name === "parent") return parentText(value);
  if (name === "z") return `${value}` + (layer.relative === null ? "" : `, relative to layer ${layer.relative}`);
  if (name === "crop") return value === null ? "none" : rectangleText(value);
  if (name === "position") return value.join(" ");
  if (name === "content") return value ? `queue ${value.queue} frame ${value.frame}, picture ${value.picture}` : "none";
  return String(typeof value === "boolean" ? Number(value) : value);
}

const isSame = (one, other) => JSON.stringify(one) === JSON.stringify(other);

// What is different at an output after a moment, and after an earlier one or (null) at the beginning.
class Changes {
  constructor(before, after, number) {
    Object.assign(this, { before, after });
    this.were = before === null ? new Map() : layersBy(before);
    this.are = layersBy(after);
    this.looks = before === null ? null : [looked(before, number), looked(after, number)];
  }

  // The properties that operations changed, by rising layers: of each the layer, the property, what it was, what it is, and the operation.
  changes() {
    const numbers = [...new Set([...this.were.keys(), ...this.are.keys()])].sort((a, b) => a - b), found = [];
    if (this.were === this.are) return found;
    for (const number of numbers) {
      const was = this.were.get(number), is = this.are.get(number);
      if (!is) { found.push([number, "layer", was.kind, "gone", origins.destroyed(number, this.after)]); continue; }
      const made = origins.last(origins.created(number), this.after), isNew = !was || (this.before !== null && made !== null && made.place > this.before);
      if (isNew) found.push([number, "layer", "none", is.kind, made]);
      found.push(...this.ofLayer(is, isNew ? { ...NEW_LAYER, kind: is.kind, parent: is.parent } : was));
    }
    return found;
  }

  ofLayer(is, was) {
    if (is === was) return [];
    return TOLD.filter(([name]) => !isSame(is[name], was[name]) || (name === "z" && is.relative !== was.relative))
      .map(([name, shown]) => [is.number, shown, valueText(was, name), valueText(is, name), origins.of(is.number, name, this.after)]);
  }

  // What comes of layers that were not changed in it themselves: of each the layer, the property, what it was, what it is, and why.
  effects() {
    const found = [];
    if (!this.looks) return found;
    for (const number of [...this.were.keys()].filter((one) => this.are.has(one)).sort((a, b) => a - b)) {
      const [was, is] = this.looks.map((look) => look.isShown(number)), [before, after] = this.looks.map((look) => look.areaOf(number));
      if ((was || is) && (was !== is || !isSame(before, after))) found.push(...this.effectsOn(number, is));
    }
    return found;
  }

  // What comes of a layer that shows otherwise than before. Of one that is not shown only that is told: where it would be is of no
  // interest.
  effectsOn(number, isShown) {
    const before = new Map(this.looks[0].computed(number).map((value) => [value.name, value]));
    return this.looks[1].computed(number).filter((value) => {
      const old = before.get(value.name), isTold = value.name === "shown" || (isShown && value.name !== "order");
      return old && isTold && value.computed !== old.computed && value.asked === old.asked;
    }).map((value) => [number, value.name, before.get(value.name).computed, value.computed, value.why()]);
  }
}

const besidePlace = () => (now.beside === null ? (now.place === 0 ? null : now.place - 1) : now.beside);

// The rows of a table, the first of them where there are many.
function shortened(rows) {
  return rows.length > ROWS_SHOWN ? [...rows.slice(0, ROWS_SHOWN), { cells: [faint(`and ${rows.length - ROWS_SHOWN} more`)] }] : rows;
}

const layerLink = (number) => button("link", () => chooseLayer(number), titleOf(number));

function changeTable(changes) {
  const rows = changes.map(([number, name, was, is, origin]) => ({ cells: [layerLink(number), name, was, make("strong", "", is)],
    note: origin ? make("span", "", "by ", originLink(origin), ": ", make("span", "mono", origin.words)) : null }));
  return rows.length ? table("changes", ["layer", "property", "before", "after"], shortened(rows)) : faint("No layer was changed.");
}

function effectTable(effects) {
  const rows = effects.map(([number, name, was, is, why]) => ({ cells: [layerLink(number), name, was, make("strong", "", is)], note: why ? faint(`because ${why}`) : null }));
  return rows.length ? table("effects", ["layer", "comes to", "before", "after"], shortened(rows)) : faint("Nothing more.");
}

// How many pixels of each output differ, and where.
async function showPixels(before, after) {
  const lines = [];
  for (const [number, output] of RUN.outputs.entries()) {
    if (outputOf(after, number).frame === null) continue;
    const was = before === null ? paint([], pictures, output.width, output.height) : await pixelsOf(before, number), is = await pixelsOf(after, number);
    const { count, box } = difference(was, is, output.width);
    const text = count && box ? `${count} of ${output.width * output.height} pixels are others, in ${rectangleText(box)}` : "no pixel is another one";
    lines.push(make("div", "", `${output.name}: ${text}`));
  }
  if (after === now.place && before === besidePlace()) fill("changed-pixels", ...lines);
}

function showChanges() {
  const before = besidePlace(), after = now.place;
  byId("beside").value = now.beside === null ? "" : now.beside;
  byId("changes-title").textContent = `What changed from ${before === null ? "the beginning" : nameOf(RUN.moments[before])} to ${nameOf(moment())}`;
  if (moment().tree === null || (before !== null && RUN.moments[before].tree === null))
    return void fill("changes", make("span", "wait", "The layers are not known here."));
  const told = new Changes(before, after, now.output);
  fill("changes", changeTable(told.changes()), make("h3", "", "What follows for layers that were not changed in it"), effectTable(told.effects()),
    make("h3", "", "Pixels"), set(make("div", "", ".."), { id: "changed-pixels" }));
  return showPixels(before, after);
}

function startChanges() {
  const select = byId("beside");
  select.append(new Option("the vsync before", ""), ...RUN.moments.map((one, place) => new Option(nameOf(one), place)));
  select.onchange = () => { now.beside = select.value === "" ? null : Number(select.value); showChanges(); writeLink(); };
}
