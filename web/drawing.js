"use strict";

// What the drawing of a plan needs, as tools/draw has it: the problem and the paths, read from the texts, and what is
// wrong with the plan. Nothing here is proved, and the verdict doesn't depend on it.

const mostFaults = 1000;

// Null where a text can't be read, or where the plan text has no plan.
function drawingOf(asked, mapText, scenText, planText) {
  const grid = readGrid(mapText);
  const agents = grid && readAgents(scenText, Number(asked.k));
  const paths = agents && readPaths(planText, agents.length);
  if (!paths) {
    return null;
  }
  const faults = listedFaults(grid, agents, paths);
  return {
    map: asked.map.name,
    scenario: asked.scen.name,
    plan: asked.plan.name,
    width: grid.width,
    height: grid.height,
    blocked: blockedBits(grid),
    cost: paths.reduce((sum, path) => sum + path.length - 1, 0),
    agents: agents.map(({ start, goal }, i) => (
      { start, goal, cost: paths[i].length - 1, path: movesOf(paths[i]) })),
    faults: faults.slice(0, mostFaults).sort((one, other) => one.tick - other.tick),
    more: faults.length > mostFaults,
    noFault: "no fault seen by the drawing (not proved)",
  };
}

// The texts.

function linesOf(text) {
  return new TextDecoder("latin1").decode(text).split("\n").map((line) => line.replace(/\r$/, ""));
}

function wordsIn(line) {
  return line.split(/[ \t]+/).filter((word) => word);
}

function readGrid(text) {
  const [type, height, width, map, ...rows] = linesOf(text);
  const side = (line, name) => Number((line ?? "").match(`^[ \\t]*${name}[ \\t]+([0-9]+)[ \\t]*$`)?.[1]);
  const grid = { width: side(width, "width"), height: side(height, "height"), rows };
  const isWhole = grid.width > 0 && grid.height > 0 && rows.length >= grid.height
    && rows.slice(0, grid.height).every((row) => row.length === grid.width);
  return isWhole ? grid : null;
}

function isFree(grid, [x, y]) {
  return x >= 0 && y >= 0 && x < grid.width && y < grid.height && ".GS".includes(grid.rows[y][x]);
}

function readAgents(text, count) {
  const rows = linesOf(text).map(wordsIn).filter((words) => words.length > 0).slice(1, count + 1);
  const agents = rows.map((words) => words.slice(4, 8).map(Number))
    .map(([x, y, toX, toY]) => ({ start: [x, y], goal: [toX, toY] }));
  const isWhole = agents.length === count && count > 0
    && agents.every(({ start, goal }) => [...start, ...goal].every(Number.isSafeInteger));
  return isWhole ? agents : null;
}

function readPaths(text, count) {
  const lines = linesOf(text);
  if (!/^cost /.test(lines[2] ?? "")) {
    return null;
  }
  const paths = lines.slice(3, 3 + count).map(readPath);
  return paths.length === count && paths.every((path) => path !== null) ? paths : null;
}

// A path without the waits at its end.
function readPath(line) {
  const [word, , , ...pairs] = line.split(" ");
  if (word !== "path" || pairs.length === 0 || !pairs.every((pair) => /^[0-9]{1,7},[0-9]{1,7}$/.test(pair))) {
    return null;
  }
  let end = pairs.length;
  while (end > 1 && pairs[end - 1] === pairs[end - 2]) {
    end--;
  }
  return pairs.slice(0, end).map((pair) => pair.split(",").map(Number));
}

// The page's forms of the map and of a path: `blocked_bits` and `moves_of` of python/mapf/tools/draw.py.

function blockedBits(grid) {
  const bytes = new Uint8Array(Math.ceil((grid.width * grid.height) / 8));
  for (let y = 0, cell = 0; y < grid.height; y++) {
    for (let x = 0; x < grid.width; x++, cell++) {
      bytes[cell >> 3] |= isFree(grid, [x, y]) ? 0 : 128 >> (cell & 7);
    }
  }
  return btoa(Array.from(bytes, (byte) => String.fromCharCode(byte)).join(""));
}

function movesOf(path) {
  const letters = { "1,0": "r", "-1,0": "l", "0,1": "d", "0,-1": "u", "0,0": "w" };
  const parts = [path[0].join(",")];
  let [step, count] = ["", 0];
  const end = () => parts.push(count > 1 ? step + count : step);
  for (let tick = 1; tick < path.length; tick++) {
    const [[x, y], [toX, toY]] = [path[tick - 1], path[tick]];
    const next = letters[`${toX - x},${toY - y}`] ?? `@${toX},${toY}`;
    if (next !== step || next[0] === "@") {
      end();
      [step, count] = [next, 0];
    }
    count++;
  }
  end();
  return parts.join("");
}

// What is wrong with a plan: `faults_of` of python/mapf/tools/plans.py.

function listedFaults(grid, agents, paths) {
  const found = [];
  for (let i = 0; i < agents.length && found.length <= mostFaults; i++) {
    addFaultsOfPath(found, grid, i, agents[i], paths[i]);
  }
  const ticks = paths.reduce((most, path) => Math.max(most, path.length), 0);
  for (let tick = 0; tick < ticks && found.length <= mostFaults; tick++) {
    addConflicts(found, tick, paths);
  }
  return found;
}

function shown([x, y]) {
  return `(${x},${y})`;
}

function isSame([x, y], [toX, toY]) {
  return x === toX && y === toY;
}

function addFaultsOfPath(found, grid, agent, { start, goal }, path) {
  const add = (kind, tick, cells, words) => found.push({ kind, agents: [agent], tick, cells, words });
  const last = path.length - 1;
  if (!isSame(path[0], start)) {
    add("start", 0, [path[0], start], `agent ${agent} begins in ${shown(path[0])}, and its start is ${shown(start)}`);
  }
  for (let tick = 0; tick < last && found.length <= mostFaults; tick++) {
    const [here, there] = [path[tick], path[tick + 1]];
    const words = faultOfStep(grid, here, there);
    if (words) {
      const way = `from ${shown(here)} to ${shown(there)}`;
      add("step", tick, [here, there], `agent ${agent} goes ${way} after tick ${tick}, ${words}`);
    }
  }
  if (!isSame(path[last], goal)) {
    add("end", last, [path[last], goal], `agent ${agent} ends in ${shown(path[last])}, and its goal is ${shown(goal)}`);
  }
}

function faultOfStep(grid, [x, y], there) {
  if (there[0] >= grid.width || there[1] >= grid.height) {
    return `and ${shown(there)} is outside the map`;
  }
  if (!isFree(grid, there)) {
    return `and ${shown(there)} is blocked`;
  }
  return Math.abs(x - there[0]) + Math.abs(y - there[1]) > 1 ? "which is further than one cell" : "";
}

// The conflicts of a tick: two agents in one cell, then two that exchange their cells after it.
function addConflicts(found, tick, paths) {
  const here = paths.map((path) => path[Math.min(tick, path.length - 1)]);
  const there = paths.map((path) => path[Math.min(tick + 1, path.length - 1)]);
  const [from, to] = [here.map(keyOf), there.map(keyOf)];
  const add = (kind, agents, cells, words) => found.push({ kind, agents, tick, cells, words });
  for (const [one, other] of pairsOf(from, from)) {
    const words = `agents ${one} and ${other} are both in ${shown(here[one])} at tick ${tick}`;
    add("vertex", [one, other], [here[one]], words);
  }
  for (const [one, other] of pairsOf(from, to)) {
    if (from[one] !== to[one] && to[one] === from[other]) {
      const cells = [here[one], there[one]];
      const words = `agents ${one} and ${other} exchange ${cells.map(shown).join(" and ")} after tick ${tick}`;
      add("swap", [one, other], cells, words);
    }
  }
}

// The number of a cell, whose parts have seven digits at most.
function keyOf([x, y]) {
  return x * 1e7 + y;
}

// The pairs of agents, the lesser first, of which the first has the value that is sought of the second.
function pairsOf(values, sought) {
  const having = new Map();
  values.forEach((value, agent) => having.get(value)?.push(agent) ?? having.set(value, [agent]));
  const pairs = sought.flatMap((value, other) =>
    (having.get(value) ?? []).filter((one) => one < other).map((one) => [one, other]));
  return pairs.sort((one, other) => one[0] - other[0] || one[1] - other[1]);
}
