// Paints what a display or a capture shows, pixel by pixel, and compares it with the image that the run wrote. Channels are 0 to
// 255, colours are premultiplied: docs/SCRIPT.md, The frame.

const PRODUCTS = new Uint8Array(256 * 256);
for (let a = 0; a < 256; a++)
  for (let b = 0; b < 256; b++) PRODUCTS[a << 8 | b] = Math.floor((a * b + 127) / 255);

// The product of two channels, rounded.
function product(a, b) { return PRODUCTS[a << 8 | b]; }

// The four channels of a colour's eight digits.
function channels(digits) {
  const value = parseInt(digits, 16);
  return [value >>> 24, value >>> 16 & 255, value >>> 8 & 255, value & 255];
}

// A colour as a picture of this format shows it.
function seenAs(format, [red, green, blue, alpha]) {
  if (format === "rgba") return [red, green, blue, alpha];
  if (format === "rgbx") return [red, green, blue, 255];
  return [red & 0xf8 | red >> 5, green & 0xfc | green >> 6, blue & 0xf8 | blue >> 5, 255];
}

// The pixels of a picture: what its format makes of transparent black where no fill covers it, else of the last one's colour.
function picturePixels(picture) {
  const pixels = new Uint8Array(4 * picture.width * picture.height), ground = seenAs(picture.format, [0, 0, 0, 0]);
  for (let at = 0; at < pixels.length; at += 4) pixels.set(ground, at);
  for (const [x, y, width, height, digits] of picture.fills) {
    const colour = seenAs(picture.format, channels(digits));
    for (let row = y; row < Math.min(y + height, picture.height); row++)
      for (let column = x; column < Math.min(x + width, picture.width); column++)
        pixels.set(colour, 4 * (row * picture.width + column));
  }
  return pixels;
}

// The column and the row of a crop of this size that show with an orientation, so far from the left and from the top.
function turned(orient, width, height, u, v) {
  const right = width - 1, low = height - 1;
  return [[u, v], [v, low - u], [right - u, low - v], [right - v, u], [right - u, v], [right - v, low - u], [u, low - v], [v, u]][orient];
}

// Pictures that were painted lately.
class Pictures {
  constructor(pictures) { this.pictures = pictures; this.kept = new Map(); this.known = new Map(); }

  pixels(number) {
    if (!this.kept.has(number)) {
      if (this.kept.size >= 64) this.kept.delete(this.kept.keys().next().value);
      this.kept.set(number, picturePixels(this.pictures[number]));
    }
    return this.kept.get(number);
  }

  // What the pixels of the picture that a layer shows do.
  marks({ content: { picture }, alpha, opaque }) {
    const key = `${picture} ${alpha} ${opaque}`;
    if (!this.known.has(key)) {
      if (this.known.size >= 64) this.known.delete(this.known.keys().next().value);
      this.known.set(key, marksOf(this.pixels(picture), alpha, opaque));
    }
    return this.known.get(key);
  }

  // The place, among the bytes of its picture, of the pixel that a drawn layer shows at a point of the display.
  at(drawn, x, y) {
    const { picture, crop } = drawn.content;
    const [column, row] = turned(drawn.orient, crop[2], crop[3], x - drawn.place[0], y - drawn.place[1]);
    return 4 * ((crop[1] + row) * this.pictures[picture].width + crop[0] + column);
  }

  // What a drawn layer shows at a point of the display that it covers, before its alpha counts.
  source(drawn, x, y) {
    let colour;
    if (drawn.content === null) colour = channels(drawn.colour);
    else {
      const at = this.at(drawn, x, y);
      colour = Array.from(this.pixels(drawn.content.picture).subarray(at, at + 4));
    }
    if (drawn.opaque) colour[3] = 255;
    return colour;
  }
}

// Paints a row of a layer over what is there: `source` has its pixels from `from` on, `step` apart, and 0 apart for one colour.
function paintRow(target, to, count, source, from, step, alpha, opaque) {
  for (let n = 0; n < count; n++, to += 4, from += step) {
    const own = opaque ? 255 : source[from + 3], cover = product(own, alpha);
    if (cover === 255 && alpha === 255) {
      target[to] = source[from]; target[to + 1] = source[from + 1]; target[to + 2] = source[from + 2]; target[to + 3] = 255;
      continue;
    }
    for (let channel = 0; channel < 4; channel++) {
      const added = channel === 3 ? own : source[from + channel];
      target[to + channel] = Math.min(255, product(added, alpha) + product(target[to + channel], 255 - cover));
    }
  }
}

// The pixels of an image of opaque black, over which the layers are painted from the back to the front.
function paint(drawn, pictures, width, height) {
  const target = new Uint8ClampedArray(4 * width * height);
  for (let at = 3; at < target.length; at += 4) target[at] = 255;
  for (const layer of drawn) {
    const [left, top, wide, high] = layer.clip;
    for (let y = top; y < top + high; y++) {
      const to = 4 * (y * width + left);
      if (layer.content === null) {
        paintRow(target, to, wide, channels(layer.colour), 0, 0, layer.alpha, layer.opaque);
        continue;
      }
      const from = pictures.at(layer, left, y), step = pictures.at(layer, left + 1, y) - from;
      paintRow(target, to, wide, pictures.pixels(layer.content.picture), from, step, layer.alpha, layer.opaque);
    }
  }
  return target;
}

// What two rectangles have in common.
function intersection(a, b) {
  const left = Math.max(a[0], b[0]), top = Math.max(a[1], b[1]), right = Math.min(a[0] + a[2], b[0] + b[2]), low = Math.min(a[1] + a[3], b[1] + b[3]);
  return [left, top, Math.max(0, right - left), Math.max(0, low - top)];
}

// Whether a rectangle has a point.
function hasPoint([left, top, wide, high], x, y) { return x >= left && y >= top && x < left + wide && y < top + high; }

// A pixel of a layer over what is below it: `cover` is how much of that it covers, its own alpha times the layer's.
function pixelOver(own, layer, below) {
  const cover = product(own[3], layer.alpha);
  return own.map((channel, place) => (cover === 255 && layer.alpha === 255 ? channel : Math.min(255, product(channel, layer.alpha) + product(below[place], 255 - cover))));
}

// The layers at a point from the back to the front: of each its own pixel, how much of what is below it covers, whether anything
// of it is seen, and the pixel before it and after it.
function paintedAt(drawn, pictures, x, y) {
  let after = [0, 0, 0, 255];
  const found = [];
  for (const layer of drawn) {
    if (!hasPoint(layer.clip, x, y)) continue;
    const source = pictures.source(layer, x, y), before = after;
    after = pixelOver(source, layer, before);
    found.push({ layer: layer.layer, mirror: layer.mirror, alpha: layer.alpha, source, cover: product(source[3], layer.alpha), before, after,
      isSeen: source.some((channel) => product(channel, layer.alpha) > 0) });
  }
  return found;
}

// The layers at a point from the top.
function layersAt(drawn, pictures, x, y) { return paintedAt(drawn, pictures, x, y).reverse(); }

// Of each pixel that a layer shows: whether it hides all behind it, and whether it changes anything.
const HIDES = 1, CHANGES = 2;

// Of each pixel of a picture, or of a colour: what it does with an alpha.
function marksOf(pixels, alpha, opaque) {
  const marks = new Uint8Array(pixels.length / 4);
  for (let at = 0; at < marks.length; at++) {
    const cover = product(opaque ? 255 : pixels[4 * at + 3], alpha), most = Math.max(pixels[4 * at], pixels[4 * at + 1], pixels[4 * at + 2]);
    marks[at] = (cover === 255 ? HIDES : 0) | (cover > 0 || product(most, alpha) > 0 ? CHANGES : 0);
  }
  return marks;
}

// What the pixels of a layer do, with the place of the first one in a row of a rectangle, and how far the next one is from it.
class Marks {
  constructor(drawn, pictures) {
    const marks = drawn.content ? pictures.marks(drawn) : marksOf(channels(drawn.colour), drawn.alpha, drawn.opaque);
    Object.assign(this, { drawn, pictures, marks });
  }

  from(x, y) { return this.drawn.content ? this.pictures.at(this.drawn, x, y) / 4 : 0; }

  step(x, y) { return this.drawn.content ? this.from(x + 1, y) - this.from(x, y) : 0; }
}

// Of each layer that is drawn: how many pixels it changes, and how many of these are in sight, behind what hides all behind it.
function coverage(drawn, pictures, width, height) {
  const isCovered = new Uint8Array(width * height), found = [];
  for (let place = drawn.length - 1; place >= 0; place--) {
    const [left, top, wide, high] = drawn[place].clip, of = new Marks(drawn[place], pictures), { marks } = of;
    let changing = 0, seen = 0;
    for (let y = top; y < top + high && wide > 0; y++) {
      const step = of.step(left, y), end = y * width + left + wide;
      for (let at = y * width + left, from = of.from(left, y); at < end; at++, from += step) {
        const mark = marks[from];
        if (mark & CHANGES) { changing++; seen += 1 - isCovered[at]; }
        if (mark & HIDES) isCovered[at] = 1;
      }
    }
    found[place] = { changing, seen };
  }
  return found;
}

// The pixels, by their places on an image, at which a layer has a mark within a rectangle.
function markedIn(drawn, pictures, width, [left, top, wide, high], mark) {
  const of = new Marks(drawn, pictures), found = [];
  for (let y = top; y < top + high && wide > 0; y++) {
    const step = of.step(left, y);
    for (let x = 0, from = of.from(left, y); x < wide; x++, from += step) if (of.marks[from] & mark) found.push(y * width + left + x);
  }
  return found;
}

// The places of layers in front of a layer that together hide what it would change: one, where one does; else none that could be
// left out, tried from the front to the back.
function coverers(drawn, place, pictures, width, height) {
  const { clip } = drawn[place], left = new Uint8Array(width * height), first = new Int32Array(width * height).fill(-1), hiding = [];
  for (const at of markedIn(drawn[place], pictures, width, clip, CHANGES)) left[at] = 1;
  for (let front = place + 1; front < drawn.length; front++) {
    const pixels = markedIn(drawn[front], pictures, width, intersection(clip, drawn[front].clip), HIDES).filter((at) => left[at]);
    for (const at of pixels) if (first[at] < 0) first[at] = front;
    if (pixels.length) hiding.push({ front, pixels });
  }
  const hidden = first.reduce((count, front) => count + (front >= 0), 0), whole = hiding.find(({ pixels }) => pixels.length === hidden);
  if (whole) return [whole.front];
  const needed = [];
  for (const { front, pixels } of hiding.reverse())
    if (pixels.some((at) => left[at] && first[at] === front)) {
      needed.push(front);
      for (const at of pixels) left[at] = 0;
    }
  return needed.reverse();
}

// Where two pictures of the same width differ: how many pixels do, which is the first, and the rectangle that has them all.
function difference(one, other, width) {
  if (one.length !== other.length) return { count: Math.max(one.length, other.length) / 4, x: 0, y: 0, box: null };
  const a = new Uint32Array(one.buffer, one.byteOffset, one.length / 4), b = new Uint32Array(other.buffer, other.byteOffset, other.length / 4);
  let count = 0, first = -1, last = -1, left = width, right = -1;
  for (let at = 0; at < a.length; at++) {
    if (a[at] === b[at]) continue;
    if (count++ === 0) first = at;
    last = at;
    left = Math.min(left, at % width);
    right = Math.max(right, at % width);
  }
  if (count === 0) return { count, x: 0, y: 0, box: null };
  const top = Math.floor(first / width);
  return { count, x: first % width, y: top, box: [left, top, right - left + 1, Math.floor(last / width) - top + 1] };
}

// The pixels of a packed frame.
async function unpacked(text) {
  const packed = Uint8Array.from(atob(text), (letter) => letter.charCodeAt(0));
  const stream = new Blob([packed]).stream().pipeThrough(new DecompressionStream("deflate"));
  return new Uint8ClampedArray(await new Response(stream).arrayBuffer());
}
