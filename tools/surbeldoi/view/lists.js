// What the page lists of a moment beside its frame and its layers: transactions, actors and queues.

const STATE_COLOURS = { dequeued: "#d9a441", queued: "#5b8def", acquired: "#4aa96c" };
// How many calls of a queue, steps of an actor and transactions of a token are shown around those of a moment, and operations of one.
const CALLS_SHOWN = 70, CALL_LINES = 12, STEPS_SHOWN = 6, CHIPS_SHOWN = 40, LINES_SHOWN = 200;

// Transactions.

function headOf(number) {
  const arrival = RUN.arrivals[number];
  if (!arrival) return `arrival ${number}`;
  return make("span", "", make("strong", "", `arrival ${number}`), ` of token ${arrival.token}, actor ${arrival.actor} `,
    make("span", "mono faint", `line ${arrival.step[0]}: ${arrival.step[1]}`));
}

function linesOf(number, rejectedAt) {
  const arrival = RUN.arrivals[number];
  if (!arrival) return [faint("The records do not tell its operations.")];
  const lines = [], left = arrival.operations.length - LINES_SHOWN;
  arrival.operations.forEach(([, line, words], place) => {
    const isRejected = place + 1 === rejectedAt;
    if (place < LINES_SHOWN || isRejected) lines.push(stepLine(line, words, isRejected ? "bad" : "", isRejected ? " ← this cannot be done" : ""));
  });
  if (left > 0) lines.push(faint(`and ${left} more`));
  for (const [line, words] of arrival.barriers) lines.push(stepLine(line, words, "faint"));
  if (arrival.desired !== null) lines.push(stepLine("", `desired for ${milliseconds(arrival.desired)}`, "faint"));
  return lines.length ? lines : [make("span", "faint", "It has no operations.")];
}

// A transaction as steps of a script, as its sender would have written it.
function scriptOf(number) {
  const arrival = RUN.arrivals[number], [, name] = arrival.step[1].split(" ");
  const renamed = ([, words]) => words.split(" ").map((word, at) => (at === 1 ? name : word)).join(" ");
  const lines = [...arrival.operations.map(([, line, words]) => [line, words]), ...arrival.barriers].map(renamed);
  const desired = arrival.desired === null ? [] : [`desire ${name} ${arrival.desired}`];
  return [`# arrival ${number} of ${RUN.name}: actor ${arrival.actor}, line ${arrival.step[0]}`, `tx ${name}`, ...lines, ...desired, arrival.step[1]].join("\n") + "\n";
}

function card(className, number, texts, rejectedAt, isOpen) {
  const copies = RUN.arrivals[number] ? button("small", () => copy(scriptOf(number), copies), "copy as script") : null;
  if (copies) set(copies, { "aria-label": `copy arrival ${number} as script` });
  const details = make("details", `card ${className}`, make("summary", "", headOf(number)), ...linesOf(number, rejectedAt), copies);
  details.open = isOpen;
  details.dataset.arrival = number;
  details.firstChild.append(...texts);
  return details;
}

function takenCard(commit) {
  const text = commit.cause ? make("div", "bad", `✗ rejected as a whole: at operation ${commit.operation}, ${commit.cause}`) : make("div", "good", "committed");
  return card(commit.cause ? "bad-card" : "good-card", commit.arrival, [text], commit.cause ? commit.operation : 0, true);
}

function fateOf(number) {
  const then = taken.get(number);
  if (!then) return "It waits to the end of the run.";
  return then.place > now.place ? `It is ${then.commit.cause ? "rejected" : "committed"} at ${nameOf(RUN.moments[then.place])}.` : "";
}

function heldCard(hold) {
  const text = make("div", "wait", make("span", "tag", hold.name || "waits"), ` ${hold.text}. `, faint(fateOf(hold.arrival)));
  return card("wait-card", hold.arrival, [text], 0, false);
}

// The actors that wait, each with the step that it can not do and why.
function waitingActor([actor, step, reason]) {
  const steps = RUN.actors.find((one) => one.number === actor).steps, [line, words] = steps[step - 1] || [0, ""];
  return make("div", "", make("strong", "", `actor ${actor}`), " waits at ", make("span", "mono", `line ${line}: ${words}`), reason ? `: ${reason}` : "");
}

function showTransactions() {
  const one = moment(), nothing = "This vsync took nothing: no transaction was ready, so it has no record, and the frame before stands.";
  fill("taken", ...(one.commits.length ? one.commits.map(takenCard) : [faint(one.vsync === null ? "The run has ended." : nothing)]));
  byId("waiting-title").textContent = one.vsync === null ? "Waiting at the end, and why" : "Waiting after this vsync, and why";
  const untold = RUN.isLive && one.vsync !== null;
  fill("waiting", ...(one.held.length ? one.held.map(heldCard) : [faint(untold ? "A live run tells only at its end what waits." : "no transaction")]));
  fill("waiting-actors", ...one.waiting.map(waitingActor));
  fill("timelines", one.timelines.length ? one.timelines.map(([timeline, value]) => `timeline ${timeline} at ${value}`).join(", ") : "none");
  showTokens();
  showTransaction();
}

function chipClass(number, held) {
  const then = taken.get(number);
  if (then && then.place === now.place) return then.commit.cause ? "bad" : "good";
  if (then && then.place < now.place) return then.commit.cause ? "bad done" : "done";
  return held.has(number) ? "wait" : "to-come";
}

const TOKENS = new Map();
for (const arrival of Object.values(RUN.arrivals)) TOKENS.set(arrival.token, [...(TOKENS.get(arrival.token) || []), arrival.number]);
// What the class of a transaction says, and the mark that says it without a colour.
const CHIPS = { good: ["committed here", "✓"], bad: ["rejected", "✗"], wait: ["waits", "…"], "to-come": ["to come", ""], done: ["committed before", ""] };

function chip(number, token, held) {
  const className = chipClass(number, held), [text, mark] = CHIPS[className.split(" ")[0]];
  const element = button(`chip ${className}`, () => { now.arrival = number; showTransaction(); writeLink(); }, `${number}${mark ? ` ${mark}` : ""}`);
  element.title = text;
  return set(element, { "aria-label": `arrival ${number} of token ${token}: ${text}` });
}

function showTokens() {
  const held = new Set(moment().held.map((hold) => hold.arrival)), lines = [];
  for (const [token, numbers] of [...TOKENS].sort((a, b) => a[0] - b[0])) {
    const reached = numbers.findIndex((number) => !taken.has(number) || taken.get(number).place >= now.place);
    const from = Math.max(0, Math.min((reached < 0 ? numbers.length : reached) - CHIPS_SHOWN / 2, numbers.length - CHIPS_SHOWN));
    const chips = numbers.slice(from, from + CHIPS_SHOWN).map((number) => chip(number, token, held));
    lines.push(make("div", "chips", faint(`token ${token}`), from > 0 ? ".." : null, ...chips, from + CHIPS_SHOWN < numbers.length ? ".." : null));
  }
  fill("tokens", ...(lines.length ? lines : [faint("none")]));
}

function showTransaction() {
  if (now.arrival === null) return void fill("transaction");
  const then = taken.get(now.arrival);
  const text = then ? `${then.commit.cause ? `rejected, ${then.commit.cause}` : "committed"}, at ${nameOf(RUN.moments[then.place])}` : "never committed";
  fill("transaction", card("", now.arrival, [make("div", "faint", text)], then && then.commit.cause ? then.commit.operation : 0, true));
}

// Actors.

function stepNote(reply) {
  if (reply[1]) return make("span", "bad", `  refused: ${reply[1]}`);
  return reply[2] ? make("span", "faint", `  → ${reply[2]}`) : null;
}

function actorCard(actor) {
  const before = actor.replies.filter((reply) => reply[0] < now.place).length;
  const done = actor.replies.filter((reply) => reply[0] <= now.place).length;
  const waits = moment().waiting.find(([number]) => number === actor.number);
  const from = Math.max(0, Math.max(before, done - 40) - STEPS_SHOWN / 2), to = Math.min(actor.steps.length, done + STEPS_SHOWN / 2);
  const lines = [];
  for (let place = from; place < to; place++) {
    const [line, words] = actor.steps[place];
    if (place < done) lines.push(stepLine(line, words, place >= before ? "now" : "", stepNote(actor.replies[place])));
    else if (place === done && waits) lines.push(stepLine(line, words, "wait", make("span", "", "  ← waits" + (waits[2] ? `: ${waits[2]}` : ""))));
    else lines.push(stepLine(line, words, "to-come"));
  }
  const left = done === actor.steps.length ? "all done" : waits ? "waits" : `${actor.steps.length - done} to come`;
  const untold = RUN.isLive && moment().vsync !== null, how = untold ? plural(actor.steps.length, "step") : `${done} of ${actor.steps.length} steps, ${left}`;
  return make("div", "", make("h3", "", `actor ${actor.number} `, make("span", waits ? "tag wait" : "tag faint", how)),
    from > 0 ? faint(`.. ${from} before`) : null, ...lines, to < actor.steps.length ? faint(`.. ${actor.steps.length - to} more`) : null);
}

function showActors() {
  const note = RUN.isLive && moment().vsync !== null ? make("div", "wait", "A live run tells its replies behind the last vsync: look at the end.") : null;
  fill("actors", note, ...RUN.actors.map(actorCard));
}

// Queues.

// Where each slot is from call to call: pieces of a slot, each with its first call, the call behind its last, its state and its frame.
function piecesOf(queue) {
  const open = new Map(), pieces = [];
  for (const [call, slot, state, frame] of queue.changes) {
    const before = open.get(slot);
    if (before) pieces.push({ ...before, to: call });
    open.delete(slot);
    if (state !== "free") open.set(slot, { slot, from: call, state, frame });
  }
  for (const piece of open.values()) pieces.push({ ...piece, to: queue.calls.length });
  return pieces;
}

// The calls of a queue that are shown, from one to another, with how many were before this moment and with it.
function windowOf(queue) {
  const before = queue.calls.filter((call) => call[0] < now.place).length, done = queue.calls.filter((call) => call[0] <= now.place).length;
  const from = Math.max(0, Math.min(done - Math.floor(CALLS_SHOWN * .7), queue.calls.length - CALLS_SHOWN));
  return { before, done, from, to: Math.min(queue.calls.length, from + CALLS_SHOWN) };
}

const CALL_WIDE = 15, SLOT_HIGH = 18, STRIP_LEFT = 46;

function pieceShapes(piece, { done, from, to }) {
  const start = Math.max(piece.from, from), x = STRIP_LEFT + (start - from) * CALL_WIDE, width = (Math.min(piece.to, to) - start) * CALL_WIDE - 1;
  const y = piece.slot * SLOT_HIGH, colour = STATE_COLOURS[piece.state], isToCome = start >= done;
  const drawn = isToCome ? { fill: "none", "stroke-dasharray": "3 2" } : { fill: colour };
  const shape = drawing("rect", { x: x + .5, y: y + 2.5, width: width - 1, height: SLOT_HIGH - 5, rx: 3, stroke: colour, ...drawn });
  shape.append(drawing("title", {}, `slot ${piece.slot} ${piece.state}${piece.frame ? `, frame ${piece.frame}` : ""}`));
  const text = `${piece.state[0]}${piece.frame || ""}`;
  if (width < 7 * text.length) return [shape];
  return [shape, drawing("text", { x: x + 3, y: y + 13, fill: isToCome ? "currentColor" : "#101418", "pointer-events": "none" }, text)];
}

// What lies over the column of a call: a click on it goes to the call's moment.
function callShapes(queue, call, { from }, tall) {
  const [place, who, went] = queue.calls[call], x = STRIP_LEFT + (call - from) * CALL_WIDE;
  const shape = drawing("rect", { x, y: 0, width: CALL_WIDE, height: tall, fill: "transparent", "data-call": call });
  shape.append(drawing("title", {}, who + (went ? `\nrefused: ${went}` : "")));
  shape.onclick = () => go(Math.min(place, RUN.moments.length - 1));
  return went ? [shape, drawing("text", { x: x + 4, y: tall - 2, fill: "var(--bad)", "pointer-events": "none" }, "✗")] : [shape];
}

// A call in words.
function callText(queue, at) {
  const [place, who, went, slot] = queue.calls[at], when = RUN.moments[Math.min(place, RUN.moments.length - 1)];
  const more = (slot === null ? "" : `, slot ${slot}`) + (went ? `, refused: ${went}` : "");
  return `call ${at + 1} of ${queue.calls.length}: ${who}${more}; ${when.vsync === null ? "after the last vsync" : `by ${nameOf(when)}`}`;
}

// Goes from call to call by keys: Enter goes to the call's moment.
function callKeys(queue, svg, event) {
  const last = queue.calls.length - 1, at = queue.at === undefined ? last : queue.at;
  const to = { ArrowLeft: at - 1, ArrowRight: at + 1, Home: 0, End: last }[event.key];
  if (isModified(event) || (to === undefined && event.key !== "Enter")) return;
  event.preventDefault();
  event.stopPropagation();
  if (event.key === "Enter") {
    go(Math.min(queue.calls[at][0], RUN.moments.length - 1));
    return void byId(`queue-${queue.number}`).focus();
  }
  queue.at = Math.max(0, Math.min(to, last));
  set(svg, { "aria-valuenow": queue.at + 1, "aria-valuetext": callText(queue, queue.at) });
  byId(`call-${queue.number}`).textContent = callText(queue, queue.at);
}

function strip(queue) {
  queue.pieces = queue.pieces || piecesOf(queue);
  const shown = windowOf(queue), { before, done, from, to } = shown;
  const slots = Math.max(1, ...queue.pieces.map((piece) => piece.slot + 1)), tall = slots * SLOT_HIGH + 12, start = Math.max(before, from);
  const at = queue.at === undefined ? queue.calls.length - 1 : queue.at;
  const svg = drawing("svg", { id: `queue-${queue.number}`, width: STRIP_LEFT + (to - from) * CALL_WIDE + 2, height: tall + 2 });
  set(svg, { role: "slider", tabindex: 0, "aria-label": `calls of queue ${queue.number}`, "aria-valuemin": 1, "aria-valuemax": Math.max(1, queue.calls.length),
    "aria-valuenow": at + 1, "aria-valuetext": queue.calls.length ? callText(queue, at) : "no calls" });
  svg.append(drawing("rect", { x: STRIP_LEFT + (start - from) * CALL_WIDE, y: 0, width: Math.max(0, done - start) * CALL_WIDE, height: tall, fill: "var(--mark)" }));
  for (let slot = 0; slot < slots; slot++) svg.append(drawing("text", { x: 0, y: slot * SLOT_HIGH + 14, fill: "currentColor" }, `slot ${slot}`));
  for (const piece of queue.pieces)
    if (piece.to > from && piece.from < to) svg.append(...pieceShapes(piece, shown));
  for (let call = from; call < to; call++) svg.append(...callShapes(queue, call, shown, tall));
  svg.onkeydown = (event) => { if (queue.calls.length) callKeys(queue, svg, event); };
  return make("div", "strip", svg);
}

function callLine([, who, went, slot]) {
  return make("span", `step mono ${went ? "bad" : ""}`, who, faint(slot === null ? "" : `  slot ${slot}`), went ? `  refused: ${went}` : "");
}

function queueCard(queue) {
  const calls = queue.calls.filter((call) => call[0] === now.place), last = calls.slice(-CALL_LINES);
  const head = make("h3", "", `queue ${queue.number} `, make("span", "tag faint", `${queue.width} x ${queue.height}, ${plural(queue.calls.length, "call")}`));
  const before = calls.length > last.length ? faint(`.. ${calls.length - last.length} before`) : null;
  return make("div", "", head, strip(queue), set(make("div", "faint"), { id: `call-${queue.number}` }), before, ...last.map(callLine));
}

function showQueues() {
  fill("queues", ...(RUN.queues.length ? RUN.queues.map(queueCard) : [faint("none")]));
}
