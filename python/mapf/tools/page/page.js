"use strict";

// Playing.

// Shows this time. The slider and the words follow from tick to tick.
function setTime(time, isStep = true) {
  const before = Math.floor(shows.time);
  shows.time = Math.min(Math.max(time, 0), lastTick);
  if (isStep || Math.floor(shows.time) !== before) {
    tellTick();
  }
  placeTip();
  redraw();
}

function step(ticks) {
  play(false);
  setTime(ticks > 0 ? Math.floor(shows.time) + ticks : Math.ceil(shows.time) + ticks);
}

function tellTick() {
  const tick = Math.floor(shows.time);
  element("tick").value = tick;
  element("tick").setAttribute("aria-valuetext", `tick ${tick} of ${lastTick}`);
  element("now").textContent = `tick ${tick} of ${lastTick}`;
  for (const id of ["first", "back"]) {
    setUseful(element(id), tick > 0);
  }
  for (const id of ["forth", "last"]) {
    setUseful(element(id), tick < lastTick);
  }
  markFaults(tick);
  if (shows.labels) {
    tellLabels();
  }
  if (shows.picked) {
    markLeg(shows.picked, tick);
    tellFacts(shows.picked);
  }
}

// Tells whether a button does anything. One that doesn't keeps the focus, since keys come from where that is.
function setUseful(button, isUseful) {
  button.setAttribute("aria-disabled", String(!isUseful));
}

// Marks the faults of the tick, and brings one of them into sight: the one that was asked for, else the first.
function markFaults(tick) {
  const current = faultsAt(tick);
  const items = element("fault-list").children;
  mark(element("fault-list"), current.map((fault) => items[fault.number]));
  const asked = current.includes(shows.fault) ? shows.fault : null;
  for (const item of element("fault-list").querySelectorAll(".asked")) {
    item.classList.remove("asked");
  }
  if (current.length > 0) {
    reveal(element("fault-list"), items[(asked ?? current[0]).number]);
    items[asked?.number]?.classList.add("asked");
  }
}

function markLeg(agent, tick) {
  const at = legAt(agent.legs, tick);
  if (at >= 0 && (at < shows.firstLeg || at >= shows.firstLeg + mostLegs)) {
    listLegs(agent, at);
  }
  const item = element("legs").querySelector(`[data-leg="${at}"]`);
  mark(element("legs"), item ? [item] : []);
  if (item) {
    reveal(element("legs"), item);
  }
}

// Marks these items of a list, and no others.
function mark(list, items) {
  for (const button of list.querySelectorAll("[aria-current]")) {
    button.removeAttribute("aria-current");
  }
  for (const item of items) {
    item.firstElementChild.setAttribute("aria-current", "true");
  }
}

// Brings an item of a list into sight. Only the list moves, the page stays.
function reveal(list, item) {
  const [box, its] = [list.getBoundingClientRect(), item.getBoundingClientRect()];
  list.scrollTop += Math.min(its.top - box.top, 0) + Math.max(its.bottom - box.bottom, 0);
}

// Brings the map into sight, where the page is longer than its window.
function revealMap() {
  element("view").scrollIntoView({ block: "nearest" });
}

function play(plays) {
  plays &&= lastTick > 0;
  if (plays && shows.time >= lastTick) {
    setTime(0);
  }
  shows.plays = plays;
  drawnAt = performance.now();
  element("play").setAttribute("aria-label", plays ? "Pause" : "Play");
  element("sign").setAttribute("d", plays ? "M4 3h3v10H4zM9 3h3v10H9z" : "M4 2.5v11l9-5.5z");
  redraw();
}

function setSpeed(speed) {
  shows.speed = speed;
  element("speed").value = String(speed);
}

function show(what, isShown) {
  shows[what] = isShown;
  element(what).checked = isShown;
  redraw("behind");
}

// Picking.

function pick(agent) {
  if (agent !== shows.picked) {
    goBack();
  }
  shows.picked = agent;
  element("agent").value = agent ? String(agent.number) : "";
  element("hint").hidden = agent !== null;
  element("details").hidden = agent === null;
  element("swatch").style.background = agent ? agent.colour : "none";
  if (agent) {
    listLegs(agent, legAt(legsOf(agent), Math.floor(shows.time)));
    const at = shown(cellAt(agent, Math.floor(shows.time)));
    element("said").textContent = `agent ${agent.number}, cost ${agent.cost}, in ${at}`;
  }
  tellTick();
  redraw("behind");
}

function tellFacts(agent) {
  const at = shown(cellAt(agent, Math.floor(shows.time)));
  const facts = [
    ["Number", agent.number], ["Cost", agent.cost], ["Start", shown(agent.start)], ["Goal", shown(agent.goal)],
    ["Now in", at],
  ];
  element("facts").replaceChildren(...facts.flatMap(([name, value]) => [made("dt", name), made("dd", value)]));
}

// So many legs of a path are listed at most, those around one of them.
const mostLegs = 400;

function listLegs(agent, around) {
  const count = agent.legs.length;
  const first = Math.max(0, Math.min((around < 0 ? count : around) - mostLegs / 2, count - mostLegs));
  const last = Math.min(first + mostLegs, count);
  const items = agent.legs.slice(first, last).map((leg, at) => listedLeg(leg, first + at));
  shows.firstLeg = first;
  element("legs").replaceChildren(...more(first, "before"), ...items, ...more(count - last, "after"));
}

function listedLeg(leg, number) {
  const ticks = leg.until === leg.from + 1 ? `tick ${leg.from}` : `ticks ${leg.from} to ${leg.until - 1}`;
  const item = listed(`${ticks}: ${legText(leg)}`, () => {
    play(false);
    setTime(leg.from);
    revealMap();
  });
  item.dataset.leg = number;
  return item;
}

function more(count, where) {
  return count > 0 ? [made("li", `… ${count.toLocaleString("en")} ${where} these`)] : [];
}

function made(tag, text) {
  const item = document.createElement(tag);
  item.textContent = text;
  return item;
}

function listed(text, act) {
  const button = made("button", text);
  button.type = "button";
  button.addEventListener("click", act);
  const item = document.createElement("li");
  item.append(button);
  return item;
}

function showFault(fault) {
  play(false);
  goBack();
  shows.fault = fault;
  setTime(fault.tick);
  pick(agents[fault.agents[0]]);
  showPlace(middleOf(fault));
  revealMap();
  element("said").textContent = fault.words;
}

// The fault behind the one that is shown; if none of this tick is, the first from this tick on.
function nextFault() {
  const tick = Math.floor(shows.time);
  const isShown = shows.fault?.tick === tick;
  const next = isShown ? shows.fault.number + 1 : faults.findIndex((fault) => fault.tick >= tick);
  if (faults.length > 0) {
    showFault(faults[next] ?? faults[0]);
  }
}

// The agent near a point, or the one whose goal is there.
function agentNear(x, y, reach) {
  const time = drawnTime();
  const half = view.scale / 2;
  const nearest = nearestOf((agent) => placeAt(agent, time), x, y, Math.max(reach, half));
  return nearest ?? (shows.goals ? nearestOf((agent) => agent.goal, x, y, Math.max(reach / 2, half)) : null);
}

function nearestOf(place, x, y, reach) {
  let found = null;
  let least = reach;
  for (const agent of agents) {
    const [atX, atY] = place(agent);
    const far = Math.hypot(view.left + (atX + 0.5) * view.scale - x, view.top + (atY + 0.5) * view.scale - y);
    if (far <= least) {
      [found, least] = [agent, far];
    }
  }
  return found;
}

function point(agent) {
  canvas.classList.toggle("over", agent !== null);
  if (agent !== shows.over) {
    shows.over = agent;
    redraw("behind");
  }
  placeTip();
}

// Puts the words beside the agent that is pointed at.
function placeTip() {
  const tip = element("tip");
  const agent = shows.over;
  tip.hidden = agent === null;
  if (!agent) {
    return;
  }
  const tick = Math.floor(shows.time);
  const way = made("p", (agent.text ??= pathText(agent)));
  way.className = "way";
  const name = made("p", "");
  name.append(made("strong", `agent ${agent.number}`), `, cost ${agent.cost}`);
  tip.replaceChildren(name, made("p", `in ${shown(cellAt(agent, tick))} at tick ${tick}`), way);
  const [x, y] = placeAt(agent, drawnTime());
  const atX = view.left + (x + 1) * view.scale + 8;
  const below = view.top + (y + 1) * view.scale + 8;
  const above = view.top + y * view.scale - tip.offsetHeight - 12;
  tip.style.left = `${Math.max(4, Math.min(atX, view.width - tip.offsetWidth - 6))}px`;
  tip.style.top = `${Math.max(4, below + tip.offsetHeight > view.height - 6 ? above : below)}px`;
}

// Fingers and the mouse.

// Fingers and mouse buttons that are down, each with its place.
const down = new Map();
let wasMoved = false;

function placeOf(event) {
  const box = canvas.getBoundingClientRect();
  return [event.clientX - box.left, event.clientY - box.top];
}

function reachOf(event) {
  return event.pointerType === "mouse" ? 10 : 22;
}

function press(event) {
  canvas.setPointerCapture(event.pointerId);
  down.set(event.pointerId, placeOf(event));
  wasMoved = down.size > 1;
}

function move(event) {
  const [x, y] = placeOf(event);
  const before = down.get(event.pointerId);
  if (!before) {
    point(agentNear(x, y, reachOf(event)));
    return;
  }
  if (!wasMoved && Math.hypot(x - before[0], y - before[1]) < 5) {
    return;
  }
  wasMoved = true;
  canvas.classList.add("dragged");
  const other = [...down].find(([id]) => id !== event.pointerId)?.[1];
  down.set(event.pointerId, [x, y]);
  if (other) {
    const far = Math.hypot(before[0] - other[0], before[1] - other[1]);
    zoom(Math.hypot(x - other[0], y - other[1]) / Math.max(far, 1), (x + other[0]) / 2, (y + other[1]) / 2);
    moveBy((x - before[0]) / 2, (y - before[1]) / 2);
  } else {
    moveBy(x - before[0], y - before[1]);
  }
}

function release(event) {
  if (down.delete(event.pointerId) && !wasMoved && event.type === "pointerup") {
    const agent = agentNear(...placeOf(event), reachOf(event));
    pick(agent);
    point(agent);
  }
  canvas.classList.toggle("dragged", down.size > 0 && wasMoved);
}

// A finger leaves the page after each tap; what it points at stays.
function left(event) {
  if (event.pointerType === "mouse") {
    point(null);
  }
}

// Keys.

const keys = {
  " ": () => play(!shows.plays),
  ArrowRight: (event) => step(event.shiftKey ? 10 : 1),
  ArrowLeft: (event) => step(event.shiftKey ? -10 : -1),
  Home: () => step(-lastTick),
  End: () => step(lastTick),
  "[": () => setSpeed(speeds[Math.max(speeds.indexOf(shows.speed) - 1, 0)]),
  "]": () => setSpeed(speeds[Math.min(speeds.indexOf(shows.speed) + 1, speeds.length - 1)]),
  n: () => pick(agents[shows.picked ? (shows.picked.number + 1) % agents.length : 0]),
  b: () => pick(agents[((shows.picked?.number ?? 0) + agents.length - 1) % agents.length]),
  f: nextFault,
  l: () => showLabels(!shows.labels),
  "/": seekByKey,
  p: () => show("paths", !shows.paths),
  g: () => show("goals", !shows.goals),
  "+": () => zoom(1.4),
  "=": () => zoom(1.4),
  "-": () => zoom(1 / 1.4),
  0: fit,
  w: () => moveBy(0, 60),
  a: () => moveBy(60, 0),
  s: () => moveBy(0, -60),
  d: () => moveBy(-60, 0),
  Escape: () => {
    pick(null);
    point(null);
    clearSought();
    choose(null);
  },
};

function seekByKey() {
  if (certificate) {
    element("sought").focus();
  }
}

// What a control does with a key by itself stays its own.
function isOwnKey(target, key) {
  const type = target.tagName === "INPUT" ? target.type : target.tagName;
  if (type === "SELECT" || type === "text") {
    return key !== "Escape";
  }
  if (type === "range") {
    return /^(Arrow|Home|End|Page)/.test(key);
  }
  return key === " " && ["BUTTON", "SUMMARY", "checkbox"].includes(type);
}

function typed(event) {
  const act = keys[event.key.length === 1 ? event.key.toLowerCase() : event.key];
  if (!act || event.ctrlKey || event.metaKey || event.altKey || isOwnKey(event.target, event.key)) {
    return;
  }
  event.preventDefault();
  act(event);
}

// The beginning.

function tellPlan() {
  const count = agents.length === 1 ? "1 agent" : `${agents.length} agents`;
  element("name").textContent = data.plan;
  element("problem").textContent = `${data.map}, ${data.width} × ${data.height}; ${data.scenario}, ${count}`;
  const verdict = document.createElement("li");
  const how = data.noFault ? " (not proved)" : "";
  verdict.textContent = faults.length > 0 ? `✗ not valid, ${counted()}${how}` : data.noFault ?? "✓ valid";
  verdict.className = faults.length > 0 ? "bad" : data.noFault ? "" : "good";
  element("sums").append(numbered("sum of costs", data.cost), numbered("last tick", lastTick), verdict);
  const size = `${data.width} columns and ${data.height} rows`;
  canvas.setAttribute("aria-label", `${count} on a map of ${size}, at the tick that is shown`);
}

function counted() {
  return data.more ? `more than ${faults.length} faults` : faults.length === 1 ? "1 fault" : `${faults.length} faults`;
}

function numbered(name, value) {
  const item = document.createElement("li");
  item.append(`${name} `, made("strong", value));
  return item;
}

function fillLists() {
  element("agent").append(new Option("none picked", ""));
  for (const agent of agents) {
    element("agent").append(new Option(`agent ${agent.number}, cost ${agent.cost}`, agent.number));
  }
  for (const speed of speeds) {
    element("speed").append(new Option(speed === 1 ? "1 tick/s" : `${speed} ticks/s`, speed));
  }
  element("faults").hidden = faults.length === 0;
  element("faults-name").textContent = `Not valid: ${counted()}`;
  element("more").hidden = !data.more;
  element("fault-list").append(...faults.map((fault) => listed(fault.words, () => showFault(fault))));
  const ticks = new Set(faults.map((fault) => Math.round((200 * fault.tick) / Math.max(lastTick, 1)) / 2));
  for (const percent of ticks) {
    const sign = document.createElement("i");
    sign.style.left = `${Math.min(percent, 100)}%`;
    element("marks").append(sign);
  }
  element("tick").max = lastTick;
  element("play").disabled = lastTick === 0;
}

// The address may name a tick and an agent: #tick=12&agent=3
function followAddress() {
  const asked = new URLSearchParams(location.hash.slice(1));
  if (asked.has("tick")) {
    setTime(Math.floor(Number(asked.get("tick"))) || 0);
  }
  if (asked.has("agent")) {
    pick(agents[Number(asked.get("agent"))] ?? null);
  }
}

function listen() {
  const onClick = {
    first: () => step(-lastTick), back: () => step(-1), forth: () => step(1), last: () => step(lastTick),
    play: () => play(!shows.plays), nearer: () => zoom(1.4), further: () => zoom(1 / 1.4), fit,
    "found-before": () => stepFound(-1), "found-next": () => stepFound(1),
  };
  for (const [id, act] of Object.entries(onClick)) {
    element(id).addEventListener("click", act);
  }
  element("tick").addEventListener("input", (event) => {
    play(false);
    setTime(Number(event.target.value));
  });
  element("speed").addEventListener("change", (event) => setSpeed(Number(event.target.value)));
  element("agent").addEventListener("change", (event) => pick(agents[event.target.value] ?? null));
  element("labels").addEventListener("change", (event) => showLabels(event.target.checked));
  element("source").addEventListener("change", (event) => {
    heat.chosenSource = Number(event.target.value);
    tellLabels();
  });
  element("sought").addEventListener("input", takeSought);
  element("sought").addEventListener("keydown", (event) => {
    if (event.key === "Enter") {
      stepFound(event.shiftKey ? -1 : 1);
    }
  });
  for (const what of ["paths", "goals"]) {
    element(what).addEventListener("change", (event) => show(what, event.target.checked));
  }
  canvas.addEventListener("pointerdown", press);
  canvas.addEventListener("pointermove", move);
  canvas.addEventListener("pointerup", release);
  canvas.addEventListener("pointercancel", release);
  canvas.addEventListener("pointerleave", left);
  canvas.addEventListener("dblclick", (event) => zoom(1.8, ...placeOf(event)));
  canvas.addEventListener("wheel", (event) => {
    event.preventDefault();
    zoom(Math.exp(-event.deltaY * 0.0015), ...placeOf(event));
  }, { passive: false });
  document.addEventListener("keydown", typed);
  dark.addEventListener("change", () => {
    tellLegend();
    redraw("ground");
  });
  addEventListener("hashchange", followAddress);
  new ResizeObserver(resize).observe(canvas);
}

tellPlan();
fillLists();
fillCertificate();
setSpeed(shows.speed);
listen();
resize();
setTime(0);
pick(null);
openTree();
followAddress();
