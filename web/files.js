"use strict";

// Which file is which text. A file that is chosen for a text is that text, whatever is in it. Of files that are dropped
// or chosen together the first line decides, and the name where the first line is of none.

const texts = ["map", "scen", "plan", "cert"];
const firstLines = { map: /^type[ \t]/, scen: /^\s*version[ \t]/, plan: /^mapf-plan /, cert: /^mapf-cert / };
const names = { map: /(\.map|^map)$/i, scen: /(\.scen|^scen)$/i, plan: /plan/i, cert: /cert/i };

// So many files of a folder are looked at.
const mostFiles = 2000;

// The paths of files that came in folders which were dropped.
const paths = new WeakMap();
const pathOf = (file) => paths.get(file) ?? (file.webkitRelativePath || file.name);
const inOrder = new Intl.Collator("en", { numeric: true });

// The first bytes of a file, null where none is chosen or where it can't be read any more.
async function headOf(file) {
  try {
    return file ? new TextDecoder("latin1").decode(await file.slice(0, 64).arrayBuffer()) : null;
  } catch {
    return null;
  }
}

const called = { map: "map", scen: "scenario", plan: "plan text", cert: "certificate" };
const versions = { plan: ["1", "2"], cert: ["1", "2", "3"] };
const byteOrderMark = /^(\xef\xbb\xbf|\xff\xfe|\xfe\xff)/;

// The text of which a first line is.
function kindOf(head) {
  return texts.find((text) => firstLines[text].test(head.replace(byteOrderMark, "")));
}

// What the first lines of all texts tell of a mistake in one of them, as a part of a sentence, and what to do about it.
// Null where they tell of none.
function doubtOf(text, heads) {
  const [head, name] = [heads[text], called[text]];
  if (head === null) {
    return null;
  }
  if (head === "") {
    return { words: `the file chosen as ${name} is empty`, advice: `Get the ${name} again.` };
  }
  const kind = kindOf(head);
  if (kind && kind !== text) {
    return doubtOfPlace(text, kind, heads);
  }
  const found = faultsOfWriting.find(([, isSo]) => isSo(head, text));
  if (found) {
    const [words, , advice] = found.map((part) => String(part).replace("NAME", name));
    return { words, advice };
  }
  return doubtOfKind(text, head);
}

// A file that is chosen for another text than its own.
function doubtOfPlace(text, kind, heads) {
  if (heads[kind] !== null && kindOf(heads[kind]) === text) {
    const [one, other] = texts.filter((each) => each === text || each === kind).map((each) => called[each]);
    return { words: `${one} and ${other} are exchanged`, advice: "Exchange the two files." };
  }
  return { words: `what is chosen as ${called[text]} is a ${called[kind]}`, advice: `Choose the ${called[text]}.` };
}

// How a file is written that is no text of any format, each with words, what tells it, and what to do.
const faultsOfWriting = [
  ["the NAME begins with a byte order mark", (head) => byteOrderMark.test(head), "Save it as UTF-8 without BOM."],
  ["what is chosen as NAME is a web page", (head) => /^\s*<(!doctype|html)/i.test(head), "Get the NAME itself."],
  ["what is chosen as NAME isn't a text", (head) => /[\0-\x08\x0e-\x1f]/.test(head),
    "If it is an archive, unpack it. Else get the NAME again."],
  ["the NAME has old Mac line ends (CR)", (head) => /\r[^\n]/.test(head) && !head.includes("\n"),
    "Save it with LF alone."],
  ["the NAME has Windows line ends (CR LF)", (head, text) => text in versions && /^.*\r\n/.test(head),
    "Save it with LF alone."],
];

// A plan text or a certificate of a version that the checker doesn't know, or none at all.
function doubtOfKind(text, head) {
  if (!(text in versions)) {
    return null;
  }
  const version = head.match(/^mapf-(?:plan|cert) ([0-9]+)(?:\s|$)/)?.[1];
  if (version && !versions[text].includes(version)) {
    return {
      words: `the ${called[text]} is of version ${version}, and this page reads versions ${rangeOf(versions[text])}`,
      advice: `Choose a ${called[text]} of one of these versions.`,
    };
  }
  return version ? null : unknown[text];
}

function rangeOf(list) {
  return list.length > 2 ? `${list[0]} to ${list.at(-1)}` : list.join(" and ");
}

const otherSolvers = "For plans of other solvers use tools/verify.";
const unknown = {
  plan: { words: "what is chosen as plan text isn't one of mapf", advice: otherSolvers },
  cert: { words: "what is chosen as certificate doesn't begin as one", advice: "Get the certificate again." },
};

// The files of each text. A picture of a plan is none.
async function sorted(given) {
  const files = given.filter((file) => !/\.(gif|ico|jpe?g|pdf|png|svg|webp)$/i.test(file.name));
  const heads = await Promise.all(files.map(headOf));
  const kinds = heads.map((head) => kindOf(head ?? ""));
  const found = Object.fromEntries(texts.map((text) => [text, files.filter((_, i) => kinds[i] === text)]));
  for (const text of texts) {
    if (found[text].length === 0) {
      found[text] = files.filter((file, i) => !kinds[i] && names[text].test(file.name));
    }
    found[text].sort((one, other) => inOrder.compare(pathOf(one), pathOf(other)));
  }
  return found;
}

function folderOf(file) {
  return pathOf(file).replace(/[^/]*$/, "");
}

function commonBeginning(one, other) {
  let length = 0;
  while (length < one.length && one[length] === other[length]) {
    length++;
  }
  return length;
}

// Of these files the one that goes with another: if its folder has some, one of them, and the one whose name begins
// like its name for longest. Null where that isn't one alone.
function mateOf(file, files) {
  const near = files.filter((each) => folderOf(each) === folderOf(file));
  const some = near.length > 0 ? near : files;
  const lengths = some.map((each) => commonBeginning(each.name, file.name));
  const most = Math.max(...lengths);
  const found = some.filter((_, at) => lengths[at] === most);
  return found.length === 1 && (most > 0 || some === near) ? found[0] : null;
}

function itemsOf(transfer) {
  return [...transfer.items].filter((item) => item.kind === "file");
}

function hasFolder(transfer) {
  return itemsOf(transfer).some((item) => item.webkitGetAsEntry()?.isDirectory);
}

// A file of this page, whatever page it was dropped on. One that was dropped on the drawing belongs to its frame, and
// when the frame goes, nothing of such a file can be read any more.
function owned(file) {
  return new File([file], file.name, { lastModified: file.lastModified });
}

// The files that are dropped, with those of folders, of which one more than is looked at.
async function droppedFiles(transfer) {
  const files = [...transfer.files].map(owned);
  const places = itemsOf(transfer).map((item) => item.getAsFileSystemHandle?.() ?? item.webkitGetAsEntry());
  if (!hasFolder(transfer)) {
    return files;
  }
  const found = [];
  for await (const file of filesIn(await Promise.all(places), "")) {
    found.push(file);
    if (found.length > mostFiles) {
      break;
    }
  }
  return found;
}

// The files of these places and of the folders among them. A place is a handle, or an entry in a browser without
// handles. (In Chromium a page that is itself a file can read no entry.)
async function* filesIn(places, folder) {
  for await (const place of places) {
    const path = folder + place.name;
    if (place.kind === "directory") {
      yield* filesIn(place.values(), `${path}/`);
    } else if (place.isDirectory) {
      yield* filesIn(await entriesOf(place), `${path}/`);
    } else {
      const file = owned(await (place.getFile ? place.getFile() : new Promise((end, fail) => place.file(end, fail))));
      paths.set(file, path);
      yield file;
    }
  }
}

// A reader gives the entries of a folder in parts, and none after the last.
async function entriesOf(folder) {
  const reader = folder.createReader();
  const all = [];
  for (;;) {
    const part = await new Promise((end, fail) => reader.readEntries(end, fail));
    if (part.length === 0) {
      return all;
    }
    all.push(...part);
  }
}

// Has a field hold this file, as if it had been chosen there.
function put(field, file) {
  const transfer = new DataTransfer();
  if (file) {
    transfer.items.add(file);
  }
  field.files = transfer.files;
}
