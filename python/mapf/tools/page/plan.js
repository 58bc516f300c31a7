"use strict";

// The plan.

const data = JSON.parse(document.getElementById("data").textContent);
const agents = data.agents.map((told, number) => ({ ...told, number, cells: cellsOf(told.path) }));
const lastTick = Math.max(0, ...agents.map((agent) => agent.cost));

// By the numbers of the cells, row after row, 1 where it is free.
const freeCells = freeOf(atob(data.blocked));

function freeOf(bits) {
  const isFree = (_, cell) => (bits.charCodeAt(cell >> 3) & (128 >> (cell & 7)) ? 0 : 1);
  return Uint8Array.from({ length: data.width * data.height }, isFree);
}

// The faults are in the order of their ticks.
const faults = data.faults.map((told, number) => ({ ...told, number }));
const faultsByTick = new Map();
for (const fault of faults) {
  faultsByTick.set(fault.tick, [...(faultsByTick.get(fault.tick) ?? []), fault]);
}

function faultsAt(tick) {
  return faultsByTick.get(tick) ?? [];
}

// The cells of a path, x and y in turn. "0,1wr2" waits in (0,1), and goes twice to the right; behind "@" stands a cell.
function cellsOf(path) {
  const steps = { r: [1, 0], l: [-1, 0], d: [0, 1], u: [0, -1], w: [0, 0] };
  const [start, x, y] = path.match(/^(-?\d+),(-?\d+)/);
  const cells = [Number(x), Number(y)];
  for (const [, letter, count, toX, toY] of path.slice(start.length).matchAll(/([rlduw])(\d*)|@(-?\d+),(-?\d+)/g)) {
    if (!letter) {
      cells.push(Number(toX), Number(toY));
      continue;
    }
    const [dx, dy] = steps[letter];
    for (let left = Number(count || 1); left > 0; left--) {
      cells.push(cells[cells.length - 2] + dx, cells[cells.length - 1] + dy);
    }
  }
  return Float64Array.from(cells);
}

// Where an agent is at a tick. It stays where its path ends.
function cellAt(agent, tick) {
  const at = 2 * Math.min(tick, agent.cost);
  return [agent.cells[at], agent.cells[at + 1]];
}

// Where it is between two ticks.
function placeAt(agent, time) {
  const tick = Math.floor(time);
  const [x, y] = cellAt(agent, tick);
  const [toX, toY] = cellAt(agent, tick + 1);
  return [x + (toX - x) * (time - tick), y + (toY - y) * (time - tick)];
}

// The parts of a path in which the agent goes on in one direction, or waits. A path may have a million of them.
function legsOf(agent) {
  if (agent.legs) {
    return agent.legs;
  }
  const legs = (agent.legs = []);
  for (let tick = 0; tick < agent.cost; tick++) {
    const [x, y] = cellAt(agent, tick);
    const [toX, toY] = cellAt(agent, tick + 1);
    const way = wayOf(toX - x, toY - y);
    const last = legs[legs.length - 1];
    if (last && last.way === way && way !== "jump") {
      last.until = tick + 1;
      last.cell = [toX, toY];
    } else {
      legs.push({ way, from: tick, until: tick + 1, cell: [toX, toY] });
    }
  }
  return legs;
}

function wayOf(dx, dy) {
  const ways = { "0,0": "wait", "1,0": "right", "-1,0": "left", "0,1": "down", "0,-1": "up" };
  return ways[`${dx},${dy}`] ?? "jump";
}

function shown([x, y]) {
  return `(${x},${y})`;
}

function legText(leg) {
  return leg.way === "wait" ? `wait in ${shown(leg.cell)}` : `${leg.way} to ${shown(leg.cell)}`;
}

// The leg of a tick, by its number; none where the agent has arrived.
function legAt(legs, tick) {
  let [from, until] = [0, legs.length];
  while (from < until) {
    const middle = (from + until) >> 1;
    [from, until] = legs[middle].until <= tick ? [middle + 1, until] : [from, middle];
  }
  return from < legs.length ? from : -1;
}

// How many legs a path's words have at most.
const mostWords = 40;

// A path in a few words: where it turns, and where it waits.
function pathText(agent) {
  const legs = legsOf(agent);
  const parts = [shown(cellAt(agent, 0))];
  for (const leg of legs.slice(0, mostWords)) {
    parts.push(leg.way === "wait" ? `wait ${leg.until - leg.from}` : shown(leg.cell));
  }
  if (legs.length > mostWords) {
    parts.push("…", shown(cellAt(agent, agent.cost)));
  }
  return parts.join(" → ");
}
