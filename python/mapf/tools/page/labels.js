"use strict";

// The labels of the agent that is picked, at the node or lemma that is chosen and the tick that is shown, as shades of
// the cells. Labels come from a source: its words, a part for the agent, and, for two agents together, another part for
// the other one and the joint labels. A part has its agent, what that costs at least, and what is listed of it: the
// line of the first label, how many there are, and their text, if the page holds it.

// The shades of numbers from small to great, of distances and of listed labels, and those of infinite ones.
const shades = {
  light: {
    plain: ["#e8f1fc", "#c8dcf6", "#a3c4ef", "#7ba9e6", "#568edb", "#3572c6", "#e3d3f4"],
    listed: ["#fff0d6", "#fdd79b", "#f9bb5c", "#ef9c2c", "#d97d12", "#b66008", "#b58ad8"],
  },
  dark: {
    plain: ["#1d2c45", "#23406b", "#2b5590", "#356bb3", "#5086cf", "#7ba6e6", "#46365e"],
    listed: ["#3f2a0c", "#643f0b", "#8a5708", "#b1700a", "#d68b1c", "#f3ad4e", "#9a6fd0"],
  },
};
const ranges = 6;

// So many labels of a tick are listed at most.
const mostListed = 100;

// What is shown: the source and the labels of its cells, null where none are; and the picture of them.
const heat = { source: null, at: null, chosenSource: 0, picture: document.createElement("canvas"), isDark: null };

// Where labels come from.

function sourcesOf(item, agent) {
  if (item.lemma !== undefined) {
    return lemmaSources(item.lemma, agent);
  }
  if (!item.node) {
    return [];
  }
  if (certificate.version < 3) {
    const [, , ...told] = blocksOf(item.standing).get(agent) ?? [agent, 0, 0, 0, ""];
    return [blockSource(agent, told)];
  }
  const found = lemmasOf(item.node).flatMap((number) => lemmaSources(number, agent));
  return found.length > 0 ? found : [blockSource(agent, [0, 0, ""])];
}

function blockSource(agent, told) {
  return { words: "", unit: 1, parts: [{ agent, least: 0, told }], joint: null };
}

// The numbers of the lemmas that a node names.
function lemmasOf({ kind, is, uses = [], groups = [] }) {
  return kind === "costs" ? [is[4]] : [...uses, ...groups.flatMap((group) => group.uses.map(([number]) => number))];
}

function lemmaSources(number, agent) {
  const lemma = certificate.lemmas[number];
  const place = lemma?.agents.indexOf(agent) ?? -1;
  if (place < 0 || lemma.labels.length === 0) {
    return [];
  }
  const unit = certificate.lists[lemma.list]?.unit ?? 1;
  const parts = lemma.agents.map((of, at) => ({ agent: of, least: lemma.least[at], told: lemma.labels[at] ?? [] }));
  const isPriced = lemma.list !== null;
  const alone = { words: `lemma ${number}`, unit, isPriced, parts: [parts[place]], joint: null };
  if (lemma.kind === "one") {
    return [alone];
  }
  const both = place === 0 ? parts : [parts[1], parts[0]];
  return [
    { ...alone, words: `lemma ${number}, ${agentsText(lemma.agents)} together`, parts: both, isSecond: place === 1,
      joint: { told: lemma.labels[2] ?? [] } },
    { ...alone, words: `lemma ${number}, agent ${agent} alone` },
  ];
}

// All that a source lists.
function toldOf({ parts, joint }) {
  return [...parts, ...(joint ? [joint] : [])].map(({ told }) => told);
}

// What is listed by its ticks: for each label the number of its cell, of two agents those of both, the label, and the
// line. "*" is an agent that has arrived for good. `words_of` in certificate_labels.py tells the form.
function listedOf(part) {
  if (part.ticks) {
    return part.ticks;
  }
  const ticks = (part.ticks = new Map());
  let [line, , text] = part.told;
  let [tick, label, first, cell] = [0, 0, null, 0];
  for (const [, name, word] of text.matchAll(/([tlu]?)(\*|inf|\d+)/g)) {
    const number = word === "inf" ? Infinity : word === "*" ? "*" : Number(word);
    if (name === "t") {
      [tick, first, cell] = [number, null, 0];
      ticks.set(tick, []);
    } else if (name === "l") {
      label = number;
    } else if (name === "u") {
      [first, cell] = [number, 0];
    } else {
      cell = number === "*" ? number : cell + number;
      ticks.get(tick).push({ cell, first, label, line: line++ });
    }
  }
  return ticks;
}

// Labels of cells.

const distancesByGoal = new Map();

function numberOf([x, y]) {
  return y * data.width + x;
}

function cellOf(number) {
  return [number % data.width, Math.floor(number / data.width)];
}

// The distance from each cell to a goal, -1 where there is no way. Those of the last goals are kept.
function distancesTo(goal) {
  const key = numberOf(goal);
  if (!distancesByGoal.has(key)) {
    if (distancesByGoal.size >= 4) {
      distancesByGoal.clear();
    }
    distancesByGoal.set(key, foundDistances(key));
  }
  return distancesByGoal.get(key);
}

function foundDistances(goal) {
  const { width } = data;
  const far = new Int32Array(freeCells.length).fill(-1);
  const queue = new Int32Array(freeCells.length);
  let count = 0;
  const reach = (cell, distance) => {
    if (freeCells[cell] === 1 && far[cell] < 0) {
      far[cell] = distance;
      queue[count++] = cell;
    }
  };
  reach(goal, 0);
  for (let at = 0; at < count; at++) {
    const cell = queue[at];
    const column = cell % width;
    const next = far[cell] + 1;
    reach(cell - width, next);
    reach(cell + width, next);
    if (column > 0) {
      reach(cell - 1, next);
    }
    if (column < width - 1) {
      reach(cell + 1, next);
    }
  }
  return far;
}

// A label that isn't listed.
function plainLabel({ agent, least }, unit, cell, tick) {
  const far = distancesTo(agents[agent].goal)[cell];
  return far < 0 ? Infinity : unit * Math.max(far, least - tick);
}

function labelAlone(part, unit, cell, tick) {
  const entry = (listedOf(part).get(tick) ?? []).find((one) => one.cell === cell);
  return entry ? entry.label : plainLabel(part, unit, cell, tick);
}

// The labels of a tick: those of the cells, NaN where they are blocked, and what is listed, by the number of the cell.
// Of two agents together the other one is where the plan has it; `arrived` is listed of the agent that is picked, where
// it has arrived for good.
function labelsAt(source, tick) {
  const { unit, parts: [part, other], joint } = source;
  const labels = new Float64Array(freeCells.length);
  const far = distancesTo(agents[part.agent].goal);
  const least = part.least - tick;
  for (let cell = 0; cell < labels.length; cell++) {
    labels[cell] = freeCells[cell] === 0 ? NaN : far[cell] < 0 ? Infinity : unit * Math.max(far[cell], least);
  }
  const alone = setListed(labels, listedOf(part).get(tick) ?? []);
  if (!joint) {
    return { labels, listed: alone, arrived: null };
  }
  const place = placeOfOther(other.agent, tick);
  const added = place === "*" ? 0 : labelAlone(other, unit, place, tick);
  labels.forEach((label, cell) => (labels[cell] = label + added));
  const turned = (listedOf(joint).get(tick) ?? []).map(({ first, cell, ...rest }) => (source.isSecond
    ? { ...rest, cell, other: first } : { ...rest, cell: first, other: cell }));
  const entries = turned.filter((entry) => entry.other === place);
  const listed = setListed(labels, entries.filter(({ cell }) => cell !== "*"));
  return { labels, listed, arrived: entries.find(({ cell }) => cell === "*") ?? null };
}

// Puts what is listed among the labels, and answers it by its cells, each with the label that was there before.
function setListed(labels, entries) {
  const listed = new Map(entries.map((entry) => [entry.cell, { ...entry, before: labels[entry.cell] }]));
  listed.forEach(({ label }, cell) => (labels[cell] = label));
  return listed;
}

function placeOfOther(number, tick) {
  const agent = agents[number];
  return tick >= agent.cost ? "*" : numberOf(cellAt(agent, tick));
}

// How many numbers a shade stands for, so that it stands for the same ones at each tick.
function widthOfRange(source) {
  let most = 0;
  for (const { agent, least } of source.parts) {
    most += source.unit * distancesTo(agents[agent].goal).reduce((one, next) => Math.max(one, next), least);
  }
  for (const part of [...source.parts, ...(source.joint ? [source.joint] : [])]) {
    for (const { label } of [...listedOf(part).values()].flat()) {
      most = label === Infinity ? most : Math.max(most, label);
    }
  }
  let width = 1;
  for (let at = 0; ranges * width <= most; at++) {
    width *= at % 3 === 1 ? 2.5 : 2;
  }
  return width;
}

function rangeOf(label) {
  return label === Infinity ? ranges : Math.min(Math.floor(label / heat.width), ranges - 1);
}

// Telling.

// Follows what is chosen and picked, and the tick.
function tellLabels() {
  if (!certificate || (!shows.labels && element("heat").hidden)) {
    return;
  }
  const agent = shows.picked;
  const sources = shows.labels && chosen && agent ? sourcesOf(chosen, agent.number) : [];
  listSources(sources);
  const source = sources[heat.chosenSource] ?? null;
  const isHeld = source !== null && toldOf(source).every((told) => told.length === 3);
  heat.source = isHeld ? source : null;
  heat.at = isHeld ? labelsAt(source, Math.floor(shows.time)) : null;
  if (isHeld) {
    heat.width = (source.width ??= widthOfRange(source));
    shadeCells();
  }
  tellLegend();
  element("heat").hidden = !shows.labels;
  element("heat-words").replaceChildren(...(isHeld ? labelWords(source) : [missingWords(source)])
    .map((words) => made("p", words)));
  element("heat-list").replaceChildren(...(isHeld ? listedLabels() : []));
  redraw("behind");
}

// Fills the choice of sources, if others than before can be chosen.
function listSources(sources) {
  const list = element("source");
  const words = sources.map((source) => source.words);
  if (words.join("\n") !== [...list.options].map((option) => option.text).join("\n")) {
    list.replaceChildren(...words.map((told, number) => new Option(told, number)));
    heat.chosenSource = 0;
  }
  list.value = String(heat.chosenSource);
  element("source-line").hidden = sources.length < 2;
}

// Why no labels are shown.
function missingWords(source) {
  if (!chosen) {
    return "Choose a node of the tree, or a lemma, to see labels.";
  }
  if (!shows.picked) {
    return "Pick an agent to see its labels.";
  }
  if (!source) {
    return `What is chosen has no labels of agent ${shows.picked.number}.`;
  }
  const cut = toldOf(source).find((told) => told.length < 3);
  return cut.length < 2 ? "These labels weren't read whole."
    : `This page leaves out the ${counts(cut[1], "label")} from line ${cut[0].toLocaleString("en")} on.`;
}

function labelWords(source) {
  return [meaningWords(source), countWords(source), placeWords(source)];
}

// What the labels are.
function meaningWords({ words, unit, isPriced, parts: [{ agent }, other] }) {
  const tick = Math.floor(shows.time);
  const most = isPriced ? `cost${other ? "" : "s"} and pay${other ? "" : "s"}` : `need${other ? "" : "s"}`;
  const what = other
    ? `agents ${agent} and ${other.agent} together still ${most} at least, from tick ${tick} on, with agent ${agent}`
      + ` in a cell and agent ${other.agent} ${otherText(other.agent, tick)}.`
    : `agent ${agent} still ${most} at least, from a cell at tick ${tick} on, until it has arrived for good.`;
  return `${words ? `By ${words}: what ` : "What "}${what}${unit > 1 ? ` Each tick counts ${unit}.` : ""}`;
}

function otherText(number, tick) {
  const place = placeOfOther(number, tick);
  return place === "*" ? "at rest at its goal" : `in ${shown(cellOf(place))}, where the plan has it`;
}

// How many labels there are of each kind.
function countWords({ unit, joint, parts: [{ least, told }] }) {
  const [line, count] = (joint ?? { told }).told;
  const wait = unit * (least - Math.floor(shows.time));
  const plain = joint ? "the sum of what each of the two needs alone"
    : `the distance to the goal${wait > 0 ? `, but at least ${wait}` : ""}`;
  const endless = heat.at.labels.reduce((sum, label) => sum + (label === Infinity ? 1 : 0), 0);
  const none = endless > 0 ? ` In ${counts(endless, "cell")} it is ∞: from there no arrival is possible.` : "";
  if (count === 0) {
    return `None is listed, so each label is ${plain}.${none}`;
  }
  return `Listed from line ${line.toLocaleString("en")} on: ${counts(count, "label")}, `
    + `${heat.at.listed.size.toLocaleString("en")} of them here at this tick. Elsewhere the label is ${plain}.${none}`;
}

function placeWords({ parts: [{ agent }] }) {
  const cell = cellAt(agents[agent], Math.floor(shows.time));
  const entry = heat.at.listed.get(numberOf(cell));
  const label = entry ? entryText(entry) : `${numberText(heat.at.labels[numberOf(cell)])}, which isn't listed`;
  return `In ${shown(cell)}, where the plan has agent ${agent}, the label is ${label}.`;
}

// A listed label beside what it would be otherwise.
function entryText({ label, before }) {
  return `${numberText(label)} instead of ${numberText(before)}`;
}

function numberText(label) {
  return label === Infinity ? "∞" : String(label);
}

// The listed labels of the tick, in words.
function listedLabels() {
  const { listed, arrived } = heat.at;
  const entries = [...listed.values()];
  const rest = arrived ? [made("li", `at rest at its goal: ${numberText(arrived.label)}`)] : [];
  const items = entries.slice(0, mostListed).map((entry) => {
    const isRefused = isRefusedLine(entry.line);
    const end = isRefused ? `, refused in line ${entry.line}` : "";
    const item = made("li", `${shown(cellOf(entry.cell))}: ${entryText(entry)}${end}`);
    item.className = isRefused ? "bad" : "";
    return item;
  });
  return [...items, ...rest, ...more(Math.max(0, entries.length - mostListed), "after")];
}

function isRefusedLine(line) {
  return line === certificate.refused && certificate.shows.startsWith("refused C7");
}

// The shades with their numbers: for each range of labels that of others beside that of listed ones.
function tellLegend() {
  element("legend").hidden = heat.at === null;
  if (!heat.at) {
    return;
  }
  const { plain, listed } = shadesNow();
  const { joint, unit, parts: [{ least }] } = heat.source;
  const isDistance = !joint && unit === 1 && least === 0;
  const texts = [...plain.keys()].map(rangeText);
  element("legend").replaceChildren(
    made("b", `left: ${isDistance ? "distance" : "not listed"}, right: listed`),
    ...texts.map((text, at) => legendPart(text, swatch(plain[at], ""), swatch(listed[at], "listed"))),
    legendPart("blocked", swatch(colour.blocked, "")));
}

function legendPart(text, ...swatches) {
  const part = made("span", "");
  part.append(...swatches, text);
  return part;
}

function swatch(shade, kind) {
  const item = made("i", "");
  item.style.background = shade;
  item.className = kind;
  return item;
}

function rangeText(at) {
  const from = at * heat.width;
  return at === ranges ? "∞" : heat.width === 1 ? String(from) : `${from}–${from + heat.width - 1}`;
}

function shadesNow() {
  return shades[dark.matches ? "dark" : "light"];
}

// Shows labels or hides them. Where nothing is chosen or picked yet, the tree's root and one of its agents are.
function showLabels(isShown) {
  if (!certificate) {
    return;
  }
  show("labels", isShown);
  if (isShown && !chosen) {
    element("tree").querySelector("button")?.click();
  }
  if (isShown && chosen && !shows.picked) {
    pick(agents[chosen.node?.blocks?.[0]?.[0] ?? certificate.lemmas[chosen.lemma]?.agents[0]
      ?? marksOf(chosen)[0]?.agents[0] ?? 0]);
  }
  tellLabels();
  element("said").textContent = isShown ? element("heat-words").textContent : "no labels are shown";
}

// Drawing.

// Makes the picture, a pixel for each cell.
function shadeCells() {
  const { picture, at: { labels, listed } } = heat;
  const [plain, strong] = [shadesNow().plain, shadesNow().listed].map((colours) => colours.map(pixelOf));
  heat.isDark = dark.matches;
  Object.assign(picture, { width: data.width, height: data.height });
  const pen = picture.getContext("2d");
  const image = pen.createImageData(data.width, data.height);
  const pixels = new DataView(image.data.buffer);
  for (let cell = 0; cell < labels.length; cell++) {
    if (freeCells[cell] === 1) {
      pixels.setUint32(4 * cell, (listed.has(cell) ? strong : plain)[rangeOf(labels[cell])]);
    }
  }
  pen.putImageData(image, 0, 0);
}

// A shade as red, green, blue and opaque.
function pixelOf(shade) {
  return parseInt(`${shade.slice(1)}ff`, 16);
}

function drawLabels(pen) {
  if (!heat.at) {
    return;
  }
  if (heat.isDark !== dark.matches) {
    shadeCells();
  }
  pen.drawImage(heat.picture, 0, 0);
}

// What is drawn into cells that are large enough: the numbers, and a corner of those that are listed.
function drawLabelNumbers(pen) {
  if (!heat.at || view.scale < 6) {
    return;
  }
  const { labels, listed } = heat.at;
  const shadesOf = shadesNow();
  pen.fillStyle = colour.ink;
  for (const { cell, line } of listed.values()) {
    drawCorner(pen, cellOf(cell), isRefusedLine(line));
  }
  const ratio = canvas.width / view.width;
  const size = Math.min(0.36 * view.scale, 18);
  if (size < 6.5) {
    return;
  }
  pen.save();
  pen.setTransform(ratio, 0, 0, ratio, 0, 0);
  Object.assign(pen, { font: `${size}px system-ui, sans-serif`, textAlign: "center", textBaseline: "middle" });
  for (const [x, y] of cellsInSight()) {
    const cell = numberOf([x, y]);
    const label = labels[cell];
    if (freeCells[cell] === 1) {
      pen.fillStyle = inkOn((listed.has(cell) ? shadesOf.listed : shadesOf.plain)[rangeOf(label)]);
      const [atX, atY] = [view.left + (x + 0.5) * view.scale, view.top + (y + 0.5) * view.scale];
      pen.fillText(numberText(label), atX, atY, 0.9 * view.scale);
    }
  }
  pen.restore();
}

function drawCorner(pen, [x, y], isRefused) {
  pen.beginPath();
  pen.moveTo(x + 0.7, y);
  pen.lineTo(x + 1, y);
  pen.lineTo(x + 1, y + 0.3);
  pen.fill();
  if (isRefused) {
    pen.strokeStyle = colour.bad;
    pen.lineWidth = Math.max(0.08, 3 / view.scale);
    pen.strokeRect(x + 0.06, y + 0.06, 0.88, 0.88);
  }
}

function cellsInSight() {
  const { fromX, toX, fromY, toY } = sight();
  const columns = Array.from({ length: Math.max(0, toX - fromX) }, (_, at) => fromX + at);
  const rows = Array.from({ length: Math.max(0, toY - fromY) }, (_, at) => fromY + at);
  return rows.flatMap((y) => columns.map((x) => [x, y]));
}
