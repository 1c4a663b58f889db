// The whole page: what is shown, from vsync to vsync; the keys; and its address.

const SHOWS = { transactions: showTransactions, changes: showChanges, actors: showActors, queues: showQueues };

function showTab() {
  for (const tab of byId("tabs").children) {
    const isChosen = tab.dataset.tab === now.tab;
    set(tab, { "aria-selected": String(isChosen), tabindex: isChosen ? 0 : -1 });
    byId(`panel-${tab.dataset.tab}`).hidden = !isChosen;
  }
  return SHOWS[now.tab]();
}

function showChoices() { byId("output").value = now.output; }

function show() {
  showAxis(); showOutlines(); showPoint(); showHits(); showTree(); showLayer(); showTab();
  const size = `${screen().width} x ${screen().height} pixels`, point = now.point ? `. ${byId("at").textContent}` : "";
  set(byId("stage"), { "aria-label": `${screen().name} at ${nameOf(moment())}, ${size}${point}` });
  writeLink();
  return showFrame();
}

function go(place) {
  now.place = Math.max(0, Math.min(place, RUN.moments.length - 1));
  return show();
}

// Shows another display or capture.
function chooseOutput(number) {
  now.output = number;
  showChoices();
  sizeStage();
  return show();
}

function chooseTab(name) {
  now.tab = name;
  showTab();
  writeLink();
}

// Playing.

let playing = null;
function stop() {
  clearTimeout(playing);
  playing = null;
  byId("play").textContent = "play";
  set(byId("where"), { "aria-live": "polite" });
}

function advance() {
  const here = moment(), next = RUN.moments[now.place + 1];
  if (!next) return stop();
  const wait = next.time === null || here.time === null ? 0 : (next.time - here.time) / 1e6 * Number(byId("speed").value);
  playing = setTimeout(() => { go(now.place + 1); advance(); }, Math.max(16, Math.min(wait, 3000)));
}

function play() {
  if (playing !== null) return stop();
  if (now.place === RUN.moments.length - 1) go(0);
  byId("play").textContent = "stop";
  set(byId("where"), { "aria-live": "off" });
  advance();
}

// The address: what is looked at, behind the #.

function linkText() {
  const parts = [`vsync=${moment().vsync === null ? "end" : moment().vsync}`];
  if (now.output) parts.push(screen().link);
  if (now.layer !== null) parts.push(`layer=${now.layer}`);
  if (now.point) parts.push(`at=${now.point.join(",")}`);
  if (now.beside !== null) parts.push(`beside=${RUN.moments[now.beside].vsync === null ? "end" : RUN.moments[now.beside].vsync}`);
  if (now.arrival !== null) parts.push(`arrival=${now.arrival}`);
  if (now.tab !== "transactions") parts.push(`show=${now.tab}`);
  return `#${parts.join("&")}`;
}

// Writes the address a little later, so that it is not written in each frame while the run plays.
let writing = null, written = "";
function writeLink() {
  clearTimeout(writing);
  writing = setTimeout(() => { written = linkText(); history.replaceState(null, "", written); }, 150);
}

// The moment of a vsync, of the next one where it is not told; the last one where there is none.
function placeOf(text) {
  const last = RUN.moments.length - 1, number = Number(text);
  const place = RUN.moments.findIndex((one) => one.vsync !== null && one.vsync >= number);
  return text === "end" || place < 0 ? last : place;
}

function readLink() {
  const asked = new URLSearchParams(location.hash.slice(1)), number = (name) => (/^[0-9]+$/.test(asked.get(name) || "") ? Number(asked.get(name)) : null);
  const at = /^([0-9]+),([0-9]+)$/.exec(asked.get("at") || ""), output = RUN.outputs.findIndex(({ link }) => asked.get(link.split("=")[0]) === link.split("=")[1]);
  now.output = Math.max(0, output);
  now.place = asked.has("vsync") ? placeOf(asked.get("vsync")) : 0;
  now.layer = number("layer");
  now.point = at && Number(at[1]) < screen().width && Number(at[2]) < screen().height ? [Number(at[1]), Number(at[2])] : null;
  if (now.point && now.layer === null) {
    const top = layersAt(drawnNow(), pictures, ...now.point).find((one) => one.isSeen);
    if (top) now.layer = top.layer;
  }
  now.beside = asked.has("beside") ? placeOf(asked.get("beside")) : null;
  now.arrival = number("arrival") in RUN.arrivals ? number("arrival") : null;
  now.tab = asked.get("show") in SHOWS ? asked.get("show") : "transactions";
}

// Keys.

const isText = (element) => ["INPUT", "SELECT", "TEXTAREA"].includes(element.tagName) && element.type !== "checkbox";

function key(event) {
  if (event.defaultPrevented || event.altKey || event.ctrlKey || event.metaKey || isText(event.target) || byId("copying").open) return;
  const isFree = event.target === document.body || event.target === document.documentElement;
  const step = (place) => () => { stop(); go(place); };
  const back = step(now.place - 1), on = step(now.place + 1);
  const does = { ArrowLeft: back, ",": back, ArrowRight: on, ".": on, Home: step(0), End: step(RUN.moments.length - 1),
    "+": () => zoom(1), "-": () => zoom(-1), "/": () => byId("search").focus(), " ": isFree ? play : null }[event.key];
  if (!does || (event.shiftKey && event.key !== "+" && event.key !== "/")) return;
  event.preventDefault();
  does();
}

function tabKey(event) {
  const found = moveAmong([...byId("tabs").children], event);
  if (found) chooseTab(found.dataset.tab);
}

function startControls() {
  byId("previous").onclick = () => { stop(); go(now.place - 1); };
  byId("next").onclick = () => { stop(); go(now.place + 1); };
  byId("play").onclick = play;
  byId("link").onclick = () => copy(location.href.split("#")[0] + linkText(), byId("link"));
  byId("copied").onclick = () => byId("copying").close();
  for (const tab of byId("tabs").children) tab.onclick = () => chooseTab(tab.dataset.tab);
  byId("tabs").onkeydown = tabKey;
  RUN.outputs.forEach((output, number) => byId("output").append(new Option(output.name, number)));
  byId("output").onchange = () => { now.point = null; chooseOutput(Number(byId("output").value)); };
  byId("output-choice").hidden = RUN.outputs.length === 1;
  document.onkeydown = key;
  window.onresize = () => { sizeStage(); drawAxis(); showTree(); };
  window.onhashchange = () => { if (location.hash !== written) { readLink(); chooseOutput(now.output); } };
}

function start() {
  byId("name").textContent = RUN.name;
  const notes = [RUN.fault && `The layers could not be followed to the end: ${RUN.fault}.`, !RUN.isWhole && "The run was cut off before its end.",
    RUN.isLive && "A live run: its actors ran in threads of their own, and when they did their steps is not told.",
    RUN.leftOut && `${RUN.leftOut} vsyncs that took nothing are left out.`].filter((note) => note);
  byId("notes").textContent = notes.join(" ");
  startControls(); startFrame(); startTree(); startChanges();
  readLink();
  startAxis();
  chooseOutput(now.output).then(checkAll);
}

start();
