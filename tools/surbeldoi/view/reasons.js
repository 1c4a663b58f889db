// Why a display or a capture shows of a layer what it shows: what is asked for the layer beside what comes of it, by which line, and
// why it does not show where it does not. `records.py why` says the same, and says it by itself.

const ROOT = 0, MOST_NAMED = 3;
const NOT_TOLD = { kind: "not told", layers: [], text: "the records do not tell why" };

// Who set what.

// The property that a change sets, where it does not have the change's own name.
const SETS = { reparent: "parent", relative: "z", buffer: "content" };

// By which operation each property of each layer is what it is, over the whole run.
class Origins {
  constructor() {
    this.sets = new Map();
    this.parents = new Map();
    this.count = 0;
    RUN.moments.forEach((one, place) => {
      for (const commit of one.commits)
        if (!commit.cause && RUN.arrivals[commit.arrival])
          for (const [layer, line, words] of RUN.arrivals[commit.arrival].operations) this.take(layer, words.split(" "), { place, line, words, vsync: one.vsync });
    });
  }

  note(layer, name, origin) {
    const key = `${layer} ${name}`;
    if (!this.sets.has(key)) this.sets.set(key, []);
    this.sets.get(key).push(origin);
  }

  take(layer, words, told) {
    const word = words[0] === "set" ? words[3] : words[0], name = SETS[word] || word, origin = { ...told, order: ++this.count };
    this.note(layer, name, origin);
    if (word === "create") this.parents.set(layer, { parent: words[5], z: null });
    else if (word === "destroy") this.lose(layer, origin);
    else if (["reparent", "relative", "z"].includes(word) && this.parents.has(layer)) this.parents.get(layer)[name] = word === "z" ? null : words[4];
  }

  // Notes what a layer that is destroyed takes from others.
  lose(layer, origin) {
    this.parents.delete(layer);
    for (const [other, named] of this.parents)
      for (const name of ["parent", "z"])
        if (named[name] === String(layer)) { named[name] = null; this.note(other, name, origin); }
  }

  last(origins, place) {
    return origins.filter((origin) => origin.place <= place).reduce((one, other) => (one && one.order > other.order ? one : other), null);
  }

  // What made a property what it is at a moment, the layer's `create` where nothing did since; null where it was never there.
  of(layer, name, place) { return this.last([...(this.sets.get(`${layer} ${name}`) || []), ...this.created(layer)], place); }

  destroyed(layer, place) { return this.last(this.sets.get(`${layer} destroy`) || [], place); }

  created(layer) { return this.sets.get(`${layer} create`) || []; }
}

const origins = new Origins();
const originText = (origin) => `vsync ${origin.vsync} (line ${origin.line}: ${origin.words})`;

// Words.

function namedLayers(numbers) {
  const more = numbers.length - MOST_NAMED, texts = (more > 1 ? numbers.slice(0, MOST_NAMED) : numbers).map(String).concat(more > 1 ? [`${more} more`] : []);
  return (numbers.length === 1 ? "layer " : "layers ") + (texts.length > 1 ? `${texts.slice(0, -1).join(", ")} and ${texts[texts.length - 1]}` : texts[0]);
}

const rectangleText = ([x, y, width, height]) => `${width} x ${height} at ${x} ${y}`;
const parentText = (number) => (number === null ? "none" : number === ROOT ? "the root" : `layer ${number}`);

// What an output shows of the layers at a moment.
class Looked {
  constructor(place, number) {
    this.place = place;
    this.number = number;
    this.screen = RUN.outputs[number];
    this.there = layersBy(place);
    this.layers = this.screen.isCapture ? this.alone() : this.there;
    this.drawn = drawnBy(outputOf(place, number));
    this.own = new Map(this.drawn.map((one, at) => [one.layer, at]).filter(([, at]) => this.drawn[at].mirror === null));
  }

  get name() { return this.screen.name.split(" of ")[0]; }
  get sight() { return sightOf(this.place, this.number); }

  children() {
    const below = new Map();
    for (const layer of this.there.values()) below.set(layer.parent, [...(below.get(layer.parent) || []), layer.number]);
    return below;
  }

  // A layer with all below it.
  below(number) {
    const children = this.children(), found = new Set(), left = [number];
    while (left.length) {
      const one = left.pop();
      if (found.has(one)) continue;
      found.add(one);
      left.push(...(children.get(one) || []));
    }
    return found;
  }

  // The layers as a capture has them: its own at the root, with all below it.
  alone() {
    if (!this.there.has(this.screen.shows)) return new Map();
    const among = this.below(this.screen.shows), layers = new Map();
    for (const number of among) {
      const layer = this.there.get(number);
      layers.set(number, { ...layer, relative: among.has(layer.relative) ? layer.relative : null });
    }
    layers.set(this.screen.shows, { ...layers.get(this.screen.shows), parent: ROOT, relative: null, position: [0, 0] });
    return layers;
  }

  // A layer and those above it, up to the root.
  wayUp(number) {
    const way = [];
    for (let at = number; this.layers.has(at) && !way.includes(at); at = this.layers.get(at).parent) way.push(at);
    return way.map((at) => this.layers.get(at));
  }

  // Why it does not show.

  // Why the output shows nothing of a layer: a kind, the layers that it comes from, and a text; null where it shows something.
  notShown(number) {
    const reason = this.notPainted(number) || this.outOfSight(number);
    if (reason) return reason.kind === "covered" ? this.covered(number) : reason;
    return this.own.has(number) ? null : NOT_TOLD;
  }

  notPainted(number) {
    for (const test of [this.missing, this.withoutContent, this.hidden, this.ofOtherStack, this.outOfPlace, this.faded]) {
      const reason = test.call(this, number);
      if (reason) return reason;
    }
    return null;
  }

  // The kind of that reason, for the tree.
  kindNotShown(number) {
    const at = this.own.get(number);
    if (at !== undefined && this.sight[at].seen) return null;
    const reason = this.notPainted(number) || this.outOfSight(number) || (at === undefined ? NOT_TOLD : null);
    return reason && reason.kind;
  }

  // Whether something of a layer itself is in sight.
  isShown(number) { return this.own.has(number) && this.sight[this.own.get(number)].seen > 0; }

  // Where a layer that is painted is, what it covers, and its alpha; null where it is not painted.
  areaOf(number) {
    const drawn = this.drawn[this.own.get(number)];
    return drawn ? [drawn.place, drawn.clip, drawn.alpha] : null;
  }

  // Whether something of a layer is in sight, of itself or of a copy.
  isInSight(number) {
    this.seen = this.seen || new Set(this.drawn.filter((one, at) => this.sight[at].seen).map((one) => one.layer));
    return this.seen.has(number);
  }

  missing(number) {
    if (!this.there.has(number)) return { kind: "missing", layers: [number], text: this.absence(number) };
    if (this.layers.has(number)) return null;
    return { kind: "not below", layers: [this.screen.shows], text: `it is not below layer ${this.screen.shows}, which ${this.name} shows` };
  }

  absence(number) {
    const gone = origins.destroyed(number, this.place), later = origins.created(number).find((origin) => origin.place > this.place);
    if (gone) return `it was destroyed at ${originText(gone)}`;
    return later ? `it is created only at ${originText(later)}` : "no committed transaction creates it";
  }

  withoutContent(number) {
    const layer = this.layers.get(number);
    if (layer.kind === "container") return { kind: "container", layers: [number], text: "a container shows nothing itself" };
    return layer.kind === "buffer" && !layer.content ? { kind: "no frame", layers: [number], text: "no frame was committed for it yet" } : null;
  }

  // The nearest layer without which it can not show.
  hidden(number) {
    const visit = [[number, ""]], seen = new Set([number]);
    while (visit.length) {
      const [at, way] = visit.shift(), layer = this.layers.get(at);
      if (layer.hidden) return { kind: "hidden", layers: [at], text: way ? `hidden by layer ${at}${way}` : "hidden itself" };
      if (layer.parent === null) return { kind: "no parent", layers: [at], text: way ? `layer ${at}${way}, has no parent` : "it has no parent" };
      for (const [other, how] of [[layer.parent, "below"], [layer.relative, "relative to"]])
        if (other && this.layers.has(other) && !seen.has(other)) {
          seen.add(other);
          visit.push([other, `, which ${at === number ? "it" : `layer ${at}`} is ${how}`]);
        }
    }
    return null;
  }

  ofOtherStack(number) {
    const way = this.wayUp(number), uppermost = way[way.length - 1].number, stack = RUN.stacks[uppermost] || 0;
    if (this.screen.isCapture || stack === this.screen.shows) return null;
    const whose = uppermost === number ? "it" : `layer ${uppermost}, which it is below,`;
    return { kind: "other stack", layers: [uppermost], text: `${whose} is on stack ${stack}, and ${this.name} shows stack ${this.screen.shows}` };
  }

  outOfPlace(number) {
    for (const { area, by } of this.cuts(number)) {
      if (area[2] && area[3]) continue;
      const text = by === null ? this.name : by === number ? "its own crop" : `the crop of layer ${by}`;
      return { kind: "outside", layers: by === null ? [] : [by], text: `outside of ${text}` };
    }
    return null;
  }

  faded(number) {
    const way = this.wayUp(number), zero = way.find((layer) => !layer.alpha);
    if (zero) return { kind: "alpha 0", layers: [zero.number], text: zero.number === number ? "its alpha is 0" : `layer ${zero.number}, which it is below, has alpha 0` };
    return this.alphaOf(number) ? null : { kind: "alpha 0", layers: [number], text: `its alpha comes to 0: ${this.alphasText(number)}` };
  }

  // The alphas of a layer and those above it, which are multiplied from the root on.
  alphasText(number) {
    return this.wayUp(number).reverse().map((one) => `${one.alpha} of ${one.number === number ? "its own" : `layer ${one.number}`}`).join(" x ");
  }

  outOfSight(number) {
    const at = this.own.get(number);
    if (at === undefined || this.sight[at].seen) return null;
    return this.sight[at].changing ? { kind: "covered" } : { kind: "clear", layers: [number], text: "all its pixels are clear" };
  }

  covered(number) {
    const by = this.coveredBy(this.own.get(number));
    return { kind: "covered", layers: by, text: `covered by ${namedLayers(by)}` };
  }

  // The layers that cover what of a layer is not in sight, those that cover most first.
  coveredBy(at) {
    return coverers(this.drawn, at, pictures, this.screen.width, this.screen.height).map((place) => this.drawn[place].layer);
  }

  // What comes of what is asked.

  // What is left of a layer's area as one crop after another cuts it, its own first, and then the output.
  cuts(number) {
    const way = this.wayUp(number), [layer] = way, place = this.placeOf(number), steps = [];
    let area = layer.kind === "buffer" && layer.content ? [...place, ...this.sizeOf(layer)] : null, corner = place;
    const cut = (rectangle, by) => {
      const left = area ? intersection(area, rectangle) : rectangle;
      steps.push({ area: left, by, doesCut: area === null || left.some((number, at) => number !== area[at]) });
      area = left;
    };
    for (const one of way) {
      if (one.crop) cut([one.crop[0] + corner[0], one.crop[1] + corner[1], one.crop[2], one.crop[3]], one.number);
      corner = [corner[0] - one.position[0], corner[1] - one.position[1]];
    }
    cut([0, 0, this.screen.width, this.screen.height], null);
    return steps;
  }

  sizeOf(layer) {
    const [, , width, height] = layer.content.crop;
    return layer.orient % 2 ? [height, width] : [width, height];
  }

  placeOf(number) {
    return this.wayUp(number).reduce(([x, y], layer) => [x + layer.position[0], y + layer.position[1]], [0, 0]);
  }

  alphaOf(number) { return this.wayUp(number).reverse().reduce((alpha, layer) => product(alpha, layer.alpha), 255); }

  // What is asked for a layer beside what comes of it: of each property its name, what is asked, what comes of it, the property that
  // it is set by, and a function that says why.
  computed(number) {
    const layer = this.layers.get(number);
    if (!layer) return [];
    const down = this.wayUp(number).reverse(), whose = (one) => (one.number === number ? "its own" : `layer ${one.number}`);
    return [this.shownValue(layer), this.orderValue(layer), this.placeValue(layer, down, whose), this.areaValue(layer), this.alphaValue(layer)];
  }

  shownValue(layer) {
    const kind = this.kindNotShown(layer.number);
    return { name: "shown", asked: layer.hidden ? "hidden" : "shown", computed: kind ? "not shown" : "shown", set: "hidden", why: () => this.whyShown(layer.number) };
  }

  whyShown(number) {
    const reason = this.notShown(number), at = this.own.get(number);
    if (reason) return reason.text;
    const { changing, seen } = this.sight[at];
    return seen === changing ? "" : `${seen} of its ${changing} pixels are in sight, the others are covered by ${namedLayers(this.coveredBy(at))}`;
  }

  // The operation that a layer does not show by, or null.
  originOf({ kind, layers }) {
    const name = { hidden: "hidden", "no parent": "parent", container: "create", "no frame": "create", outside: "crop", "alpha 0": "alpha", clear: "content" }[kind];
    return name && layers.length ? origins.of(layers[0], name, this.place) : null;
  }

  orderValue(layer) {
    const asked = `z ${layer.z}` + (layer.relative === null ? "" : `, relative to layer ${layer.relative}`), at = this.own.get(layer.number), behind = this.drawn[at - 1];
    const why = () => (at === undefined ? "" : behind ? this.orderText(String(layer.number), keyOf(behind)) : "nothing is behind it but the black display");
    return { name: "order", asked, computed: at === undefined ? "" : `${at + 1} of ${this.drawn.length} from the back`, set: "z", why };
  }

  placeValue(layer, down, whose) {
    const place = this.placeOf(layer.number).join(" "), asked = layer.position.join(" ");
    const why = () => (place === asked ? "" : down.map((one) => `${one.position.join(" ")} of ${whose(one)}`).join(" + "));
    return { name: "position", asked, computed: place, set: "position", why };
  }

  areaValue(layer) {
    const steps = this.cuts(layer.number), by = steps.filter((step) => step.doesCut).map((step) => step.by);
    const names = by.map((number) => (number === null ? this.name : number === layer.number ? "its own crop" : `layer ${number}`));
    return { name: "area", asked: layer.crop ? rectangleText(layer.crop) : "none", computed: rectangleText(steps[steps.length - 1].area), set: "crop",
      why: () => (names.length ? `clipped by ${names.join(", ")}` : "") };
  }

  alphaValue(layer) {
    const alpha = this.alphaOf(layer.number);
    return { name: "alpha", asked: String(layer.alpha), computed: String(alpha), set: "alpha", why: () => (alpha === layer.alpha ? "" : this.alphasText(layer.number)) };
  }

  // Which layer is in front of which. A layer has a key: its number, or of a copy "MIRROR NUMBER".

  // The layer of a key: its z, and the key that it is drawn below.
  node(key) {
    const [mirror, original] = key.includes(" ") ? key.split(" ").map(Number) : [null, Number(key)], layer = this.layers.get(original);
    if (!layer) return null;
    if (mirror === null) return { z: layer.z, below: String(layer.relative === null ? layer.parent : layer.relative) };
    const root = RUN.mirrors[mirror];
    if (original === root) return { z: 0, below: String(mirror) };
    this.copied = this.copied || new Map();
    if (!this.copied.has(root)) this.copied.set(root, this.below(root));
    const relative = layer.relative !== null && this.copied.get(root).has(layer.relative) ? layer.relative : null;
    return { z: layer.z, below: `${mirror} ${relative === null ? layer.parent : relative}` };
  }

  // A layer with those that it is drawn with, from the root.
  drawPath(key) {
    const path = [];
    for (let at = key, node = this.node(at); node && !path.includes(at); at = node.below, node = this.node(at)) path.push(at);
    return path.reverse();
  }

  // Why a layer that shows is painted after another one.
  orderText(front, back) {
    const ofFront = this.drawPath(front), ofBack = this.drawPath(back);
    let shared = 0;
    while (shared < Math.min(ofFront.length, ofBack.length) && ofFront[shared] === ofBack[shared]) shared++;
    const branch = (key, child) => (child === key ? layerName(key) : `${layerName(child)}, which ${layerName(key)} is drawn with,`);
    if (shared === ofBack.length) return `${branch(front, ofFront[shared])} is drawn with ${layerName(back)} and has z ${this.node(ofFront[shared]).z}, not below 0`;
    if (shared === ofFront.length) return `${branch(back, ofBack[shared])} is drawn with ${layerName(front)} and has z ${this.node(ofBack[shared]).z}, below 0`;
    const one = ofFront[shared], other = ofBack[shared], z = this.node(one).z, otherZ = this.node(other).z;
    const where = shared ? `of ${layerName(ofFront[shared - 1])}` : "at the root";
    if (z !== otherZ) return `${branch(front, one)} has z ${z} ${where}, and ${branch(back, other)} has z ${otherZ}`;
    return `${branch(front, one)} and ${branch(back, other)} both have z ${z} ${where}, and ${layerName(one)} was created later`;
  }
}

const keyOf = (drawn) => (drawn.mirror === null ? String(drawn.layer) : `${drawn.mirror} ${drawn.layer}`);

function layerName(key) {
  const [mirror, original] = key.split(" ");
  return original === undefined ? `layer ${key}` : `the copy of layer ${original} in mirror ${mirror}`;
}

const looks = new Map();
const looked = (place = now.place, number = now.output) => kept(looks, `${place} ${number}`, () => new Looked(place, number));
