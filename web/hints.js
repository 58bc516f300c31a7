"use strict";

// What another reading of the texts sees beside the verdict: the plan's drawing, and hints at what may be wrong.
// Nothing here is proved, and the verdict doesn't depend on it.

// The drawing, null where there is none, the version of the certificate, and hints, as words.js has them. Nothing is
// drawn before the checker has judged the plan.
function seenOf(line, answer, asked, texts) {
  const code = line?.split(" ")[1];
  const seen = { drawing: null, hints: [], version: Number(wordAt(texts.cert, 0, 1)) };
  try {
    const drawing = drawingOf(asked, texts.map, texts.scen, texts.plan);
    const fault = ["C1", "C5"].includes(code) ? drawing?.faults[0]?.words : null;
    seen.hints = [hintsAt[code]?.(texts, Number(asked.k)), fault].filter((hint) => hint)
      .map((hint) => (hint.words ? hint : { words: hint }));
    seen.drawing = answer !== null || code === "C5" ? drawing : null;
  } catch {
    // What can't be read needs no hint beside the verdict.
  }
  return seen;
}

const hintsAt = {
  F1: ({ map }) => hintOfMap(linesOf(map)),
  F2: ({ map, scen }, k) => hintOfScenario(readGrid(map), linesOf(scen), k),
  C1: ({ plan }) => hintOfPlan(linesOf(plan)) || hintOfEnd("plan text", plan),
  C2: ({ cert }) => hintOfEnd("certificate", cert),
  C3: ({ plan, cert }, k) =>
    `the plan text says ${agentsOf(wordAt(plan, 1, 1))}, the certificate ${wordAt(cert, 1, 1)}, you ${k}`,
  C4: ({ plan, cert }) => hintOfClaim(headLines(plan)[2], headLines(cert)[2]),
};

function headLines(text) {
  return linesOf(text.subarray(0, 128));
}

function wordAt(text, line, word) {
  return wordsIn(headLines(text)[line] ?? "")[word] ?? "none";
}

function agentsOf(count) {
  return Number(count) === 1 ? "1 agent" : `${count} agents`;
}

function hintOfMap(lines) {
  const wanted = ["type octile", "height H", "width W", "map"];
  const isWanted = (words, at) => RegExp(`^${wanted[at].replace(/[HW]$/, "0*[1-9][0-9]{0,3}")}$`).test(words.join(" "));
  const wrong = wanted.findIndex((_, at) => !isWanted(wordsIn(lines[at] ?? ""), at));
  if (wrong >= 0) {
    return `line ${wrong + 1} of the map isn't "${wanted[wrong]}" (H and W are 1 to 2,048)`;
  }
  const [height, width] = [1, 2].map((at) => Number(wordsIn(lines[at])[1]));
  const rows = (lines.at(-1) === "" ? lines.slice(0, -1) : lines).slice(4);
  const uneven = rows.slice(0, height).findIndex((row) => row.length !== width || /[^.GS@OTW]/.test(row));
  if (uneven >= 0) {
    const count = rows[uneven].length;
    const other = rows[uneven].match(/[^.GS@OTW]/)?.[0];
    return `row ${uneven} of the map (line ${uneven + 5}) has `
      + (count === width ? `the character "${other}"` : `${count} characters, and its width is ${width}`);
  }
  return rows.length === height ? "" : `the map has ${rows.length} rows, and its height is ${height}`;
}

function hintOfScenario(grid, lines, k) {
  const [first, ...rows] = lines.map(wordsIn).filter((words) => words.length > 0);
  if (!/^version 1(\.0)?$/.test(first?.join(" "))) {
    return 'the first line of the scenario isn\'t "version 1"';
  }
  const hints = rows.slice(0, k).map((row, agent) => hintOfRow(grid, row, agent));
  const few = {
    words: `the scenario has ${agentsOf(rows.length)}, and you ask for ${k}`,
    advice: "Give a smaller number of agents, or choose another scenario.",
    isWhole: true,
  };
  return hints.find((hint) => hint) ?? (rows.length < k ? few : "");
}

function hintOfRow(grid, row, agent) {
  const [width, height, ...cells] = row.slice(2, 8);
  if (row.length !== 9) {
    return `the row of agent ${agent} has ${row.length} words, and should have nine`;
  }
  if (Number(width) !== grid.width || Number(height) !== grid.height) {
    return `agent ${agent} is of a map of ${width} by ${height} cells, this map has ${grid.width} by ${grid.height}`;
  }
  const [start, goal] = [cells.slice(0, 2), cells.slice(2)];
  const wrong = [start, goal].find((cell) => !isFree(grid, cell.map(Number)));
  const does = wrong === start ? "starts in" : "has its goal in";
  return wrong ? `agent ${agent} ${does} (${wrong}), which is blocked or outside the map` : "";
}

// What may hinder a plan text from being read. A text that is cut off is most likely.
function hintOfPlan(lines) {
  const paths = lines.filter((line) => line.startsWith("path ")).map((line) => line.split(" "));
  const uneven = paths.find(([, , steps, ...pairs]) => Number(steps) !== pairs.length - 1);
  if (uneven) {
    const [, agent, steps, ...pairs] = uneven;
    return `the path of agent ${agent} says ${steps} steps, and has ${pairs.length - 1}`;
  }
  const waits = paths.find((words) => words.length > 4 && words.at(-1) === words.at(-2));
  if (waits) {
    return `the path of agent ${waits[1]} waits at its end`;
  }
  const [said, sum] = [lines[2]?.match(/^cost (.*)$/)?.[1], paths.reduce((sum, words) => sum + Number(words[2]), 0)];
  if (said && Number(said) !== sum) {
    return `the plan text says the cost ${said}, and its paths add up to ${sum}`;
  }
  return "";
}

function hintOfEnd(name, text) {
  const behind = placeBehindEnd(text);
  if (behind < 0) {
    const isOpen = linesOf(text.subarray(-4)).join(" ") === " end";
    return isOpen ? `the last line of the ${name} has no line end (LF)` : `the ${name} doesn't end with the line "end"`;
  }
  return behind < text.length ? `there is text after the line "end" of the ${name}` : "";
}

// The place behind the first line "end", Less than 0 where there is none.
function placeBehindEnd(text) {
  const [lineFeed, letters] = [10, [101, 110, 100, 10]];
  let at = text.indexOf(lineFeed);
  while (at >= 0 && !letters.every((letter, i) => text[at + 1 + i] === letter)) {
    at = text.indexOf(lineFeed, at + 1);
  }
  return at < 0 ? at : at + 1 + letters.length;
}

// What a claim and an answer say, where both are of a cost; else the lines themselves.
function hintOfClaim(answer, claim) {
  const [cost, claimed] = [answer.match(/^cost (\d+)$/)?.[1], claim.match(/^claim (?:cost|bound) (\d+)$/)?.[1]];
  if (!cost || !claimed || cost === claimed) {
    return `the certificate says "${claim}", the plan text "${answer}"`;
  }
  const words = `the certificate claims ${claimed}, the plan costs ${cost}`;
  const advice = "Choose the certificate that belongs to this plan text. If the plan is dearer than the cheapest, the"
    + ` verdict "within" needs a certificate with "claim bound ${claimed}".`;
  return Number(cost) > Number(claimed) ? { words, advice } : words;
}
