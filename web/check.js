"use strict";

// The form, the run of the worker, and what it tells.

const element = (id) => document.getElementById(id);
const parts = JSON.parse(element("parts").textContent);
const workerAddress = URL.createObjectURL(new Blob([element("worker").textContent], { type: "text/javascript" }));

// The run at work: its worker, what it was asked, when it began, and what tells its seconds. Null where none is.
let run = null;

// What the last run was asked.
let judged = {};

// What the first lines of the texts that are chosen tell of a mistake in each.
let doubts = {};

// The files that the list of each text offers, and whether one of them was chosen there.
const offered = {};

// How often what is chosen was changed.
let changes = 0;

// Choosing.

// Takes files that came together. Where several may be one text, somebody has to choose one.
async function take(files) {
  const found = await sorted(files.slice(0, mostFiles));
  const there = texts.filter((text) => found[text].length > 0);
  const none = there.length > 0 ? "" : `None of these files is one of the four texts. ${otherSolvers} `;
  const most = `Only the first ${mostFiles.toLocaleString("en")} files were looked at.`;
  complain("");
  tellTaken(none + (files.length > mostFiles ? most : ""));
  for (const text of there) {
    put(element(text), found[text].length === 1 ? found[text][0] : null);
    offer(text, found[text]);
  }
  if (there.length > 0) {
    await change();
  }
}

function offer(text, files) {
  const list = element(`${text}-found`);
  list.hidden = files.length === 1;
  offered[text] = { files, isChosen: false };
  const options = files.map((file, number) => new Option(pathOf(file), number));
  list.replaceChildren(new Option(`choose one of ${files.length}`, ""), ...options);
  list.onchange = () => {
    const file = files[list.value] ?? null;
    put(element(text), file);
    offered[text].isChosen = file !== null;
    chooseMates(file);
    change();
  };
}

// Has each list from which nobody has chosen a file hold the one that goes with this file.
function chooseMates(file) {
  const open = texts.filter((text) => !element(`${text}-found`).hidden && !offered[text].isChosen);
  for (const text of file ? open : []) {
    const mate = mateOf(file, offered[text].files);
    element(`${text}-found`).value = mate ? offered[text].files.indexOf(mate) : "";
    put(element(text), mate);
  }
}

// A file that is chosen for a text, or dropped on its field, is that text.
function takeAs(text, file) {
  put(element(text), file);
  return chosen(text);
}

function chosen(text) {
  element(`${text}-found`).hidden = true;
  complain("");
  tellTaken("");
  return change();
}

// After a change of a text: what was judged or told before isn't of what is chosen now.
async function change() {
  outdate();
  const number = ++changes;
  doubts = {};
  tellDoubts();
  element("k-note").textContent = "";
  const read = await Promise.all(texts.map((text) => headOf(element(text).files[0])));
  if (number !== changes) {
    return;
  }
  const heads = Object.fromEntries(texts.map((text, at) => [text, read[at]]));
  doubts = Object.fromEntries(texts.map((text) => [text, doubtOf(text, heads)]));
  tellDoubts();
  noteAgents(heads.plan?.match(/^mapf-plan [12]\r?\nagents ([0-9]+)\r?\n/)?.[1] ?? "");
}

// Tells what is doubted, but for what the verdict tells.
function tellDoubts(told = null) {
  const found = Object.values(doubts).filter((doubt) => doubt && doubt.words !== told?.words);
  const sentences = found.map(({ words, advice }) => `${sentenceOf(words)} ${advice}`);
  element("doubts").replaceChildren(...[...new Set(sentences)].map((sentence) => made("p", sentence)));
}

// What the plan text says is taken for K, until somebody gives another number.
function noteAgents(told) {
  const k = element("k");
  if (k.value === "" || k.value === k.dataset.told) {
    k.value = told;
  }
  k.dataset.told = told;
  markAgents();
}

// Marks another number than the plan text's.
function markAgents() {
  const [given, told] = [element("k").value.trim(), element("k").dataset.told];
  const isOther = Boolean(told && given) && Number(given) !== Number(told);
  element("k-note").textContent = told ? `The plan text says ${told}${isOther ? `, not ${given}` : ""}.` : "";
  element("k-note").classList.toggle("bad", isOther);
}

async function takeExample() {
  element("k").value = "";
  await take(Object.entries(parts.example).map(([name, text]) => new File([text], name)));
  start();
}

// Several files, and those of a folder, are told apart by what is in them, wherever they are dropped.
function drop(event) {
  event.preventDefault();
  document.body.classList.remove("over");
  const isFolder = hasFolder(event.dataTransfer);
  const text = texts.find((text) => text === event.target.id);
  tellTaken(isFolder ? "Reading the folder" : "", !isFolder);
  droppedFiles(event.dataTransfer)
    .then((files) => (text && files.length === 1 && !isFolder ? takeAs(text, files[0]) : take(files)))
    .catch(({ message }) => tellTaken(`What was dropped can't be read: ${message}`));
}

// What became of files that came together is told above the fields, and what hinders a run below them.
function tellTaken(words, isBad = true) {
  element("taken").textContent = words;
  element("taken").className = isBad ? "bad" : "";
}

function complain(words) {
  element("complaint").textContent = words;
}

function hover(event) {
  event.preventDefault();
  document.body.classList.toggle("over", event.type === "dragover");
}

// Running.

function start() {
  const missing = [...texts, "k"].map(element).filter((field) => field.value.trim() === "");
  const labels = missing.map((field) => field.labels[0].textContent.toLowerCase());
  complain(missing.length > 0 ? `Still missing: ${labels.join(", ")}.` : "");
  if (missing.length > 0) {
    missing[0].focus();
    return;
  }
  if (!/^0*([1-9][0-9]?|1[0-9][0-9]|200)$/.test(element("k").value.trim())) {
    complain("Give a whole number from 1 to 200.");
    element("k").focus();
    return;
  }
  end();
  draw(null);
  // The place of an earlier verdict is kept, so that nothing moves below the pointer.
  element("verdict").style.minHeight = `${element("verdict").offsetHeight}px`;
  element("verdict").replaceChildren();
  const files = Object.fromEntries(texts.map((text) => [text, element(text).files[0]]));
  const asked = { ...files, k: element("k").value.trim() };
  judged = asked;
  run = { asked, began: performance.now(), worker: new Worker(workerAddress) };
  run.worker.onmessage = ({ data }) => tell[data.kind](data);
  run.worker.onerror = ({ message }) => tell.fault({ words: message || "The checker ended without an answer." });
  run.clock = setInterval(tellAmount, 1000);
  run.worker.postMessage(run.asked);
  showWork("Reading the texts");
}

// Ends the run, if one is at work, and answers it.
function end() {
  const ended = run;
  ended?.worker.terminate();
  clearInterval(ended?.clock);
  run = null;
  element("work").hidden = true;
  if (document.activeElement === element("stop")) {
    element("check").focus();
  }
  element("stop").disabled = true;
  return ended;
}

function stop() {
  if (end()) {
    showVerdict("stopped", "–", "Stopped", ["Nothing is proved."], []);
  }
}

// Ends a run of what isn't chosen any more, or marks its verdict.
function outdate() {
  const verdict = element("verdict");
  draw(null);
  if (end()) {
    showVerdict("stopped", "–", "Stopped", ["The texts were changed. Press Check.", "Nothing is proved."], []);
  } else if (verdict.hasChildNodes() && !verdict.classList.contains("old")) {
    verdict.classList.add("old");
    verdict.querySelector("h2 span").textContent = "–";
    verdict.prepend(made("p", "This verdict is of the texts chosen before. Press Check."));
  }
}

// What the worker tells.

const tell = {
  prepares: () => showWork("Judging the plan, and finding the distances of each agent"),
  reads: ({ done, size }) => {
    showWork("Judging the certificate");
    Object.assign(run, { done, size });
    element("bar").value = done / Math.max(size, 1);
    tellAmount();
  },
  fault: ({ words }) => {
    end();
    showVerdict("stopped", "–", "No verdict", [words, "This says nothing of the texts."], []);
  },
  verdict: ({ line, answer, seen }) => showAnswer(line, answer, seen, end()),
};

function showAnswer(line, answer, seen, { asked, began }) {
  const seconds = ((performance.now() - began) / 1000).toFixed(1);
  if (line === null) {
    showVerdict("stopped", "–", "No verdict", ["The number of agents isn't a number from 1 to 200."], []);
    return;
  }
  const agents = Number(asked.k);
  const meaning = meaningOf(line, agents);
  const code = line.split(" ")[1];
  const doubt = doubts[{ F1: "map", F2: "scen", C1: "plan", C2: "cert" }[code]];
  const hints = doubt ? [{ ...doubt, isWhole: true }] : seen.hints;
  const sentences = meaning
    ? [meaning, "What this checker accepts is true: this is proved in Coq."]
    : refusalOf(code, seen.version, hints, answer, agents);
  const facts = [
    ["The checker's line", line], ["Map", named(asked.map)], ["Scenario", named(asked.scen)],
    ["Agents", agents], ["Plan text", named(asked.plan)], ["Certificate", named(asked.cert)],
    ["Time", `${seconds} seconds`],
  ];
  draw(seen.drawing, undrawnOf(code, answer));
  const title = meaning ? acceptedOf(line) : headlineOf(code, hints);
  showVerdict(meaning ? "good" : "bad", meaning ? "✓" : "✗", title, sentences, facts);
  tellDoubts(doubt);
}

function named(file) {
  return `${file.name}, ${file.size.toLocaleString("en")} bytes`;
}

// Showing.

function sentenceOf(words) {
  return words && `${words[0].toUpperCase()}${words.slice(1)}.`;
}

function made(tag, text, kind = "") {
  const item = document.createElement(tag);
  item.className = kind;
  item.textContent = text;
  return item;
}

function showVerdict(kind, sign, words, sentences, facts) {
  const title = made("h2", "", kind);
  const mark = made("span", sign);
  mark.setAttribute("aria-hidden", "true");
  title.append(mark, made("span", words));
  const list = made("dl", "");
  list.append(...facts.flatMap(([name, value]) => [made("dt", name), made("dd", value)]));
  const link = made("a", "See the plan ↓");
  link.href = "#side";
  const links = element("side").querySelector("iframe") ? [link] : [];
  const verdict = element("verdict");
  verdict.className = verdict.style.minHeight = "";
  verdict.replaceChildren(title, ...links, ...sentences.map((sentence) => made("p", sentence)), list);
  verdict.scrollIntoView({ block: "nearest" });
}

// A step's name is told once, and how far it is, without being read aloud.
function showWork(step) {
  element("work").hidden = false;
  element("stop").disabled = false;
  if (element("step").textContent !== step) {
    element("step").textContent = step;
    element("bar").removeAttribute("value");
    tellAmount();
  }
}

function tellAmount() {
  const seconds = `${Math.round((performance.now() - run.began) / 1000)} s`;
  const megabytes = (bytes) => (bytes / 1e6).toFixed(1);
  element("amount").textContent = run.size
    ? `${megabytes(run.done)} of ${megabytes(run.size)} MB, ${seconds}`
    : seconds;
}

// The page of tools/draw, in a frame, or words in its place.
function draw(data, words = "Once a plan is judged, it is drawn here.") {
  if (data === null) {
    element("side").replaceChildren(made("p", words));
    return;
  }
  const agents = data.agents.map((agent, number) => ({ colour: parts.colours[number], ...agent }));
  const values = { TITLE: "", DATA: JSON.stringify({ ...data, agents }).replaceAll("<", "\\u003c") };
  const frame = document.createElement("iframe");
  frame.title = "The plan, drawn";
  frame.srcdoc = parts.drawing.replace(/\[(TITLE|DATA)\]/g, (_, name) => values[name]);
  frame.addEventListener("load", () => listenToDrops(frame.contentWindow));
  element("side").replaceChildren(frame);
}

function listen() {
  element("form").addEventListener("submit", (event) => {
    event.preventDefault();
    start();
  });
  element("stop").addEventListener("click", stop);
  element("example").addEventListener("click", takeExample);
  for (const id of ["files", "folder"]) {
    element(id).addEventListener("change", ({ target }) => {
      tellTaken(id === "folder" ? "Reading the folder" : "", false);
      take([...target.files]);
      target.value = "";
    });
  }
  for (const text of texts) {
    element(text).addEventListener("change", () => chosen(text));
    // A browser tells so too of a file that is chosen again, which may have been changed.
    element(text).addEventListener("cancel", ({ target }) => target.files[0] === judged[text] || change());
  }
  element("k").addEventListener("input", () => {
    outdate();
    markAgents();
  });
  draw(null);
  listenToDrops(window);
}

function listenToDrops(place) {
  place.addEventListener("dragover", hover);
  place.addEventListener("dragleave", hover);
  place.addEventListener("drop", drop);
}

listen();
