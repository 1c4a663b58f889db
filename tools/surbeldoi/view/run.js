// The run, and what of it is looked at. A moment is a vsync, or the end.

const RUN = JSON.parse(byId("run").textContent);
const pictures = new Pictures(RUN.pictures);
// The moment, the display or capture, the chosen layer, point and transaction, the moment that it is compared with (null: the one
// before), and the tab.
const now = { place: 0, output: 0, layer: null, point: null, arrival: null, beside: null, tab: "transactions" };

const moment = () => RUN.moments[now.place];
const screen = () => RUN.outputs[now.output];
const outputOf = (place, number) => RUN.moments[place].outputs[number];
const drawnBy = (output) => (output.painting === null ? [] : RUN.paintings[output.painting].map((place) => RUN.drawn[place]));
const drawnNow = () => drawnBy(outputOf(now.place, now.output));
const hue = (layer) => `hsl(${(layer * 47 + 10) % 360} 85% 58%)`;
const milliseconds = (time) => `${(time / 1e6).toFixed(1)} ms`;
const nameOf = (one) => (one.vsync === null ? "the end of the run" : `vsync ${one.vsync}`);
const digits = (channels) => channels.map((channel) => channel.toString(16).padStart(2, "0")).join("");

// The layers of a moment, each with how deep it stands; and those of the moment by number.
const lists = new Map(), tables = new Map();
function kept(known, key, make) {
  if (!known.has(key)) {
    if (known.size >= 64) known.delete(known.keys().next().value);
    known.set(key, make());
  }
  return known.get(key);
}
function layersOf(place) {
  const { tree } = RUN.moments[place];
  return tree === null ? [] : kept(lists, tree, () => RUN.trees[tree].map(([layer, depth]) => ({ ...RUN.layers[layer], depth })));
}
function layersBy(place) {
  const { tree } = RUN.moments[place];
  return tree === null ? new Map() : kept(tables, tree, () => new Map(layersOf(place).map((layer) => [layer.number, layer])));
}

// A layer's number, and the name that its frame had, if it shows one.
function titleOf(number, place = now.place) {
  const layer = layersBy(place).get(number);
  return `layer ${number}` + (layer && layer.content ? ` (${layer.content.name})` : "");
}

// Where each transaction was taken: the place of the moment, and the commit.
const taken = new Map();
RUN.moments.forEach((one, place) => one.commits.forEach((commit) => taken.set(commit.arrival, { place, commit })));

// What is in sight of the layers of an output at a moment.
const sights = new Map();
function sightOf(place, number) {
  const output = outputOf(place, number), { width, height } = RUN.outputs[number];
  return kept(sights, `${number} ${output.painting}`, () => coverage(drawnBy(output), pictures, width, height));
}

// Frames.

const unpackedFrames = new Map();
const frameOf = (place) => kept(unpackedFrames, place, () => unpacked(RUN.frames[place]));
