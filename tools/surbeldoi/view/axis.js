// The axis of time: a mark for each vsync at its time. Above the line stands what it showed, below it that something was left waiting.

const AXIS_HIGH = 34, LINE = 20, AXIS_WIDE = 1000, EDGE = 24;

// What became of a vsync, in words.
function stateOf(one) {
  if (one.vsync === null) return "the end of the run";
  const states = [one.outputs[0].isNew ? "a new frame" : one.commits.length ? "no new frame" : "nothing was taken, the frame before stands"];
  const rejected = one.commits.filter((commit) => commit.cause).length;
  if (rejected) states.push(`${rejected} rejected`);
  if (one.held.length) states.push(`${one.held.length} waiting`);
  return states.join(", ");
}

// The time of a moment, in nanoseconds: the end stands one period behind the last vsync.
const lastTime = Math.max(0, ...RUN.moments.map((one) => one.time || 0));
const timeOf = (one) => (one.time === null ? lastTime + RUN.period : one.time);
const firstTime = timeOf(RUN.moments[0]), wholeTime = Math.max(1, lastTime + RUN.period - firstTime);
const acrossOf = (one) => EDGE + (AXIS_WIDE - 2 * EDGE) * (timeOf(one) - firstTime) / wholeTime;

// A step of the scale that leaves it room for its numbers: 1, 2 or 5 times a power of ten, in nanoseconds.
function scaleStep(marks) {
  const rough = wholeTime / marks, power = 10 ** Math.floor(Math.log10(rough));
  return power * [1, 2, 5, 10].find((factor) => factor * power >= rough);
}

function drawAxis() {
  const svg = byId("axis-marks"), room = byId("axis").clientWidth || 800, one = AXIS_WIDE / room;
  svg.setAttribute("viewBox", `0 0 ${AXIS_WIDE} ${AXIS_HIGH}`);
  const paths = { new: "", same: "", silent: "", rejected: "", held: "", end: "" };
  // A mark is as wide as there is room for beside its neighbours.
  const wide = Math.max(one, Math.min(9 * one, (AXIS_WIDE - 2 * EDGE) * RUN.period / wholeTime - 2 * one));
  const bar = (x, from, to) => `M${(x - wide / 2).toFixed(2)} ${from}h${wide.toFixed(2)}v${to - from}h${(-wide).toFixed(2)}z`;
  for (const moment of RUN.moments) {
    const x = acrossOf(moment);
    if (moment.vsync === null) { paths.end += `M${x} ${LINE - 12}v16`; continue; }
    if (moment.outputs[0].isNew) paths.new += bar(x, LINE - 12, LINE);
    else if (moment.isSilent) paths.silent += `M${x.toFixed(2)} ${LINE - 4}v4`;
    else paths.same += bar(x, LINE - 5, LINE);
    if (moment.commits.some((commit) => commit.cause)) paths.rejected += `M${x - 3 * one} ${LINE - 19}l${6 * one} 5m${-6 * one} 0l${6 * one} -5`;
    if (moment.held.length) paths.held += bar(x, LINE + 2, LINE + 7);
  }
  svg.replaceChildren(drawing("path", { class: "base", d: `M0 ${LINE + .5}H${AXIS_WIDE}` }),
    ...Object.entries(paths).map(([name, d]) => drawing("path", { class: name, d })), drawing("rect", { class: "here", y: 0, height: LINE + 9, rx: 2 * one }));
  drawScale(room);
  showAxis();
}

function drawScale(room) {
  const step = scaleStep(Math.max(2, room / 90)), texts = [];
  for (let time = Math.ceil(firstTime / step) * step; time <= firstTime + wholeTime; time += step) {
    const text = make("span", "", `${+(time / 1e6).toFixed(3)} ms`), across = (EDGE + (AXIS_WIDE - 2 * EDGE) * (time - firstTime) / wholeTime) / AXIS_WIDE;
    text.style.left = `${100 * across}%`;
    if (across * room > 24 && (1 - across) * room > 24) texts.push(text);
  }
  fill("axis-scale", ...texts);
}

function showAxis() {
  const axis = byId("axis"), one = moment(), here = byId("axis-marks").querySelector(".here"), wide = 14 * AXIS_WIDE / (axis.clientWidth || 800);
  if (here) set(here, { x: acrossOf(one) - wide / 2, width: wide });
  const time = one.time === null ? "" : `, ${milliseconds(one.time)}`;
  const text = `${nameOf(one)}${time} (${now.place + 1} of ${RUN.moments.length})`;
  set(axis, { "aria-valuenow": now.place + 1, "aria-valuetext": `${text}: ${stateOf(one)}` });
  axis.dataset.place = now.place;
  fill("where", make("strong", "", text), faint(` ${stateOf(one)}`));
}

// The place of the moment that is nearest to a point of the axis.
function placeAt(x) {
  const box = byId("axis-marks").getBoundingClientRect(), across = (x - box.left) / box.width * AXIS_WIDE;
  let best = 0;
  RUN.moments.forEach((one, place) => { if (Math.abs(acrossOf(one) - across) < Math.abs(acrossOf(RUN.moments[best]) - across)) best = place; });
  return best;
}

function axisKey(event) {
  const last = RUN.moments.length - 1, far = Math.max(1, Math.round(last / 10));
  const to = { ArrowLeft: now.place - 1, ArrowDown: now.place - 1, ArrowRight: now.place + 1, ArrowUp: now.place + 1, PageDown: now.place - far, PageUp: now.place + far,
    Home: 0, End: last }[event.key];
  if (to === undefined || isModified(event)) return;
  event.preventDefault();
  event.stopPropagation();
  go(to);
}

function startAxis() {
  const axis = set(byId("axis"), { "aria-valuemin": 1, "aria-valuemax": RUN.moments.length });
  axis.onkeydown = axisKey;
  axis.onpointerdown = (event) => { axis.focus({ preventScroll: true }); axis.setPointerCapture(event.pointerId); stop(); go(placeAt(event.clientX)); };
  axis.onpointermove = (event) => { if (axis.hasPointerCapture(event.pointerId)) go(placeAt(event.clientX)); };
  drawAxis();
}
