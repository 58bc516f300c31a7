"use strict";

// The list of a certificate's items, and what the item that is chosen marks on the map.

let chosen = null;
let chosenMarks = [];

// Deeper items aren't moved further to the right, since a phone has no room for that. Those that are deeper still stand
// behind the item above them and not in it, since a browser takes long for deep lists.
const mostIndents = 8;
const mostNested = 60;

// So many levels the search opens at most.
const mostOpened = 200;

function fillCertificate() {
  element("certificate").hidden = element("labels-line").hidden = certificate === null;
  if (!certificate) {
    return;
  }
  tellSearch();
  element("certificate-name").textContent = `Certificate ${certificate.name}`;
  element("claim").hidden = certificate.verdict.startsWith("refused C5");
  element("claim").textContent = claimText();
  element("verdict").textContent = `tools/recheck says ${verdictText()}.${showsText()}`;
  element("verdict").className = certificate.verdict.startsWith("refused") ? "bad" : "good";
  const items = certificateItems();
  element("seek").hidden = element("tree-name").hidden = items.length === 0;
  element("tree-name").textContent = treeName();
  element("tree").append(...items.map((item) => listedItem(item, 0)));
}

// Opens the root, or chooses it if it is a leaf. Where something is refused, that is chosen, and what is above it is
// opened.
function openTree() {
  const refused = certificate && refusedPart();
  const root = element("tree").firstElementChild;
  if (refused) {
    showItem(wayTo(refused));
  } else if (root?.item.below) {
    setOpen(root, 0, true);
  } else if (root) {
    showItem([0]);
  }
}

// The node or lemma that is refused, as the search has its hits; null where none is.
function refusedPart() {
  const { tree, lemmas, refused } = certificate;
  for (const part of [{ tree, lemma: null }, ...lemmas.map((one, lemma) => ({ tree: one.tree, lemma }))]) {
    const number = part.tree ? part.tree.nodes.findIndex((node) => node.refused) : -1;
    if (number >= 0) {
      return { ...part, number };
    }
  }
  const lemma = refused === null ? -1 : lemmas.findIndex(({ bound }) => bound === null);
  return lemma < 0 ? null : { lemma };
}

function listedItem(item, depth) {
  const entry = listed(item.words, () => pressItem(item, entry, depth));
  const button = entry.firstElementChild;
  if (item.note) {
    const note = made("small", item.note);
    note.className = item.bad ? "bad" : "";
    button.append(" ", note);
  }
  if (item.below) {
    button.setAttribute("aria-expanded", "false");
  }
  Object.assign(entry, { item, below: [] });
  markFound(entry);
  return entry;
}

// Chooses an item and opens it. If it was chosen before, it is opened or closed.
function pressItem(item, entry, depth) {
  const wasChosen = chosen === item;
  choose(item);
  mark(element("tree"), [entry]);
  if (item.below && (wasChosen || !isOpen(entry))) {
    setOpen(entry, depth, !isOpen(entry));
    if (entry.below.length > 0) {
      reveal(element("tree"), entry.below[entry.below.length - 1]);
    }
    reveal(element("tree"), entry.firstElementChild);
  }
}

function isOpen(entry) {
  return entry.firstElementChild.getAttribute("aria-expanded") === "true";
}

// The items below are made when they are shown, and forgotten when they are hidden.
function setOpen(entry, depth, opens) {
  entry.firstElementChild.setAttribute("aria-expanded", String(opens));
  if (!opens) {
    removeBelow(entry, depth);
    return;
  }
  entry.below = entry.item.below().map((below) => listedItem(below, depth + 1));
  if (depth >= mostNested) {
    entry.after(...entry.below);
    return;
  }
  const list = document.createElement("ul");
  list.className = depth < mostIndents ? "indented" : "";
  list.append(...entry.below);
  entry.append(list);
}

function removeBelow(entry, depth) {
  const gone = entry.below;
  entry.below = [];
  if (depth < mostNested) {
    entry.lastElementChild.remove();
    return;
  }
  while (gone.length > 0) {
    const below = gone.pop();
    gone.push(...below.below);
    below.remove();
  }
}

// Chooses the item to which this way leads, and opens those above it, so many levels at most. The way has its number at
// each level.
function showItem(way) {
  let entries = element("tree").children;
  let entry = null;
  way.slice(0, mostOpened).forEach((place, depth) => {
    entry = entries[place];
    if (depth < Math.min(way.length, mostOpened) - 1 && !isOpen(entry)) {
      setOpen(entry, depth, true);
    }
    entries = entry.below;
  });
  choose(way.slice(mostOpened).reduce((item, place) => item.below()[place], entry.item));
  mark(element("tree"), [entry]);
  reveal(element("tree"), entry.firstElementChild);
}

function choose(item) {
  chosen = item;
  chosenMarks = item ? marksOf(item) : [];
  element("chosen").hidden = !item?.line;
  if (!item) {
    mark(element("tree"), []);
  } else {
    tellChosen(item);
  }
  tellLabels();
  redraw();
}

function tellChosen(item) {
  const marks = chosenMarks;
  const told = item.lines?.() ?? [];
  const below = marks.filter((mark) => mark !== item.split);
  element("chosen-name").textContent = `Line ${item.line}: ${item.words}`;
  element("chosen-lines").replaceChildren(...told.map((line) => made("li", line)),
    ...(item.split ? [listedMark(item.split)] : []));
  element("marks-name").hidden = below.length === 0;
  element("marks-name").textContent = item.marksName ?? "Constraints";
  element("chosen-marks").replaceChildren(...below.slice(0, mostLegs).map(listedMark),
    ...more(Math.max(0, below.length - mostLegs), "after"));
  const first = marks.find((mark) => mark.tick !== null);
  if (first) {
    play(false);
    setTime(first.tick);
    showPlace(first.cells[0]);
  }
  element("said").textContent = [item.words, item.split?.words, ...told].filter(Boolean).join("; ");
}

function listedMark(mark) {
  if (mark.tick === null) {
    return made("li", mark.words);
  }
  return listed(mark.words, () => {
    play(false);
    setTime(mark.tick);
    showPlace(mark.cells[0]);
    revealMap();
  });
}

// Whether a mark is of this tick. At the last tick of the plan those of later ticks are shown too.
function isMarkOf(mark, tick) {
  return mark.tick !== null && (mark.tick <= tick || tick === lastTick) && tick < mark.until;
}

function marksAt(tick) {
  return chosenMarks.filter((mark) => isMarkOf(mark, tick));
}

// In broken lines the cells of the marks as squares, a line between two of them, and a ring around each agent.
function drawMarks() {
  pen.strokeStyle = colour.ink;
  pen.lineWidth = Math.max(0.06, 2.5 / view.scale);
  pen.setLineDash([0.2, 0.1]);
  const time = drawnTime();
  for (const { cells, agents: named } of marksAt(Math.floor(shows.time))) {
    pen.beginPath();
    for (const [x, y] of cells) {
      pen.rect(x + 0.04, y + 0.04, 0.92, 0.92);
    }
    if (cells.length === 2) {
      pen.moveTo(cells[0][0] + 0.5, cells[0][1] + 0.5);
      pen.lineTo(cells[1][0] + 0.5, cells[1][1] + 0.5);
    }
    pen.stroke();
    named.forEach((number) => drawRing(placeAt(agents[number], time)));
  }
  pen.setLineDash([]);
}

function drawRing([x, y]) {
  pen.beginPath();
  pen.arc(x + 0.5, y + 0.5, radiusOfAgents() * 1.3, 0, 2 * Math.PI);
  pen.stroke();
}
