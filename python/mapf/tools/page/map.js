"use strict";

// What is shown now.

const element = (id) => document.getElementById(id);
const canvas = element("canvas");
const pen = canvas.getContext("2d");
const behind = document.createElement("canvas");
const ground = document.createElement("canvas");
const calm = matchMedia("(prefers-reduced-motion: reduce)");
const dark = matchMedia("(prefers-color-scheme: dark)");
const speeds = [0.5, 1, 2, 4, 8, 16, 32, 64];

// The time in ticks; the agents that are picked and pointed at; the fault that was asked for; the first leg that is
// listed; whether the ground, and what is behind the agents, is to be drawn anew.
const shows = {
  time: 0, plays: false, speed: 4, paths: true, goals: true, labels: false, picked: null, over: null, fault: null,
  firstLeg: 0, newGround: true, newBehind: true,
};

// Where the map is: the width of a cell, and the left upper corner of the map, in pixels of the page. `before` is where
// it was before the page itself moved it to show a fault.
const view = { scale: 1, left: 0, top: 0, width: 1, height: 1, fitted: true, before: null };

let frame = 0;
let drawnAt = 0;
let colour = {};

function redraw(what) {
  shows.newBehind ||= what === "behind" || what === "ground";
  shows.newGround ||= what === "ground";
  frame ||= requestAnimationFrame(draw);
}

function draw(at) {
  frame = 0;
  if (shows.plays) {
    goOn(Math.min((at - drawnAt) / 1000, 0.25));
  }
  drawnAt = at;
  if (shows.newGround) {
    drawGround();
  }
  if (shows.newBehind) {
    drawBehind();
  }
  pen.setTransform(1, 0, 0, 1, 0, 0);
  pen.drawImage(behind, 0, 0);
  toCells(pen);
  drawAgents();
  drawMarks();
  drawFaults();
}

// Goes on in time. This asks for the next frame.
function goOn(seconds) {
  const time = Math.min(shows.time + seconds * shows.speed, lastTick);
  setTime(time, false);
  if (time === lastTick) {
    play(false);
  }
}

// The time at which the agents are drawn: for whoever wants little motion, they are in their cells.
function drawnTime() {
  return calm.matches ? Math.floor(shows.time) : shows.time;
}

// Has a pen draw in cells: (0.5, 0.5) is the middle of the cell (0,0).
function toCells(pen) {
  const ratio = canvas.width / view.width;
  const { scale, left, top } = view;
  pen.setTransform(scale * ratio, 0, 0, scale * ratio, left * ratio, top * ratio);
}

// The map, a pixel for each cell.
function drawGround() {
  shows.newGround = false;
  const style = getComputedStyle(document.documentElement);
  for (const name of ["page", "free", "blocked", "grid", "edge", "bad", "ink", "panel"]) {
    colour[name] = style.getPropertyValue(`--${name}`).trim();
  }
  ground.width = data.width;
  ground.height = data.height;
  const pen = ground.getContext("2d");
  pen.fillStyle = colour.free;
  pen.fillRect(0, 0, data.width, data.height);
  pen.fillStyle = colour.blocked;
  for (let cell = 0; cell < data.width * data.height; cell++) {
    if (freeCells[cell] === 0) {
      pen.fillRect(cell % data.width, Math.floor(cell / data.width), 1, 1);
    }
  }
}

// What doesn't move: the map, the paths and the goals.
function drawBehind() {
  shows.newBehind = false;
  behind.width = canvas.width;
  behind.height = canvas.height;
  const pen = behind.getContext("2d");
  pen.fillStyle = colour.page;
  pen.fillRect(0, 0, behind.width, behind.height);
  toCells(pen);
  pen.imageSmoothingEnabled = view.scale < 1;
  pen.drawImage(ground, 0, 0);
  drawLabels(pen);
  if (view.scale >= 10) {
    drawGrid(pen);
  }
  drawLabelNumbers(pen);
  pen.lineJoin = pen.lineCap = "round";
  const picked = [shows.over, shows.picked].filter((agent) => agent !== null);
  for (const agent of agents) {
    if (shows.paths && !picked.includes(agent)) {
      drawPath(pen, agent, false);
    }
  }
  for (const agent of agents) {
    if (shows.goals && !picked.includes(agent)) {
      drawGoal(pen, agent, false);
    }
  }
  for (const agent of picked) {
    drawPath(pen, agent, true);
    drawGoal(pen, agent, true);
  }
}

// The columns and rows that are seen.
function sight() {
  const { scale, left, top, width, height } = view;
  return {
    fromX: Math.max(0, Math.floor(-left / scale)), toX: Math.min(data.width, Math.ceil((width - left) / scale)),
    fromY: Math.max(0, Math.floor(-top / scale)), toY: Math.min(data.height, Math.ceil((height - top) / scale)),
  };
}

// Lines between the cells that are seen.
function drawGrid(pen) {
  const { fromX, toX, fromY, toY } = sight();
  pen.strokeStyle = colour.grid;
  pen.lineWidth = 1 / view.scale;
  pen.beginPath();
  for (let x = fromX; x <= toX; x++) {
    pen.moveTo(x, fromY);
    pen.lineTo(x, toY);
  }
  for (let y = fromY; y <= toY; y++) {
    pen.moveTo(fromX, y);
    pen.lineTo(toX, y);
  }
  pen.stroke();
}

// A path's line. Each agent's is a little beside the middle of the cells, so that paths on one way are seen apart, and
// begins and ends in the middle. A step that was made before is not drawn again.
function lineOf(agent) {
  if (agent.line) {
    return agent.line;
  }
  const line = (agent.line = new Path2D());
  const beside = 0.5 + ((agent.number * 5) % 11 - 5) * 0.045;
  const [first, last] = [cellAt(agent, 0), cellAt(agent, agent.cost)];
  line.moveTo(first[0] + 0.5, first[1] + 0.5);
  line.lineTo(first[0] + beside, first[1] + beside);
  const seen = new Set();
  let isDown = true;
  for (let at = 2; at < agent.cells.length; at += 2) {
    const [x, y, toX, toY] = agent.cells.subarray(at - 2, at + 2);
    const isForth = x < toX || (x === toX && y <= toY);
    const step = isForth ? `${x},${y},${toX},${toY}` : `${toX},${toY},${x},${y}`;
    if (seen.has(step)) {
      isDown = false;
      continue;
    }
    seen.add(step);
    if (!isDown) {
      line.moveTo(x + beside, y + beside);
    }
    line.lineTo(toX + beside, toY + beside);
    isDown = true;
  }
  line.moveTo(last[0] + beside, last[1] + beside);
  line.lineTo(last[0] + 0.5, last[1] + 0.5);
  return line;
}

function drawPath(pen, agent, isPicked) {
  if (isPicked) {
    pen.strokeStyle = colour.ink;
    pen.lineWidth = Math.max(0.2, 4.6 / view.scale);
    pen.stroke(lineOf(agent));
  }
  pen.globalAlpha = isPicked ? 1 : agents.length > 40 ? 0.5 : 0.8;
  pen.strokeStyle = agent.colour;
  pen.lineWidth = isPicked ? Math.max(0.13, 3 / view.scale) : Math.max(0.08, 1.4 / view.scale);
  pen.stroke(lineOf(agent));
  pen.globalAlpha = 1;
}

function drawGoal(pen, agent, isPicked) {
  const [x, y] = agent.goal;
  const radius = Math.max(0.44, 3.2 / view.scale);
  pen.beginPath();
  pen.arc(x + 0.5, y + 0.5, radius, 0, 2 * Math.PI);
  pen.strokeStyle = isPicked ? colour.ink : agent.colour;
  pen.lineWidth = Math.max(0.09, 1.5 / view.scale) * (isPicked ? 2.2 : 1);
  pen.stroke();
  if (isPicked) {
    pen.strokeStyle = agent.colour;
    pen.lineWidth = Math.max(0.09, 1.5 / view.scale);
    pen.stroke();
  }
}

function radiusOfAgents() {
  return Math.max(0.36, 2.6 / view.scale);
}

function drawAgents() {
  const picked = [shows.over, shows.picked].filter((agent) => agent !== null);
  const time = drawnTime();
  for (const agent of agents) {
    if (!picked.includes(agent)) {
      drawAgent(agent, time, false);
    }
  }
  for (const agent of picked) {
    drawAgent(agent, time, true);
  }
}

function drawAgent(agent, time, isPicked) {
  const [x, y] = placeAt(agent, time).map((part) => part + 0.5);
  const radius = radiusOfAgents() * (isPicked ? 1.15 : 1);
  pen.beginPath();
  pen.arc(x, y, radius, 0, 2 * Math.PI);
  pen.fillStyle = agent.colour;
  pen.fill();
  pen.strokeStyle = isPicked ? colour.ink : colour.edge;
  pen.lineWidth = isPicked ? Math.max(0.1, 2.5 / view.scale) : Math.max(0.03, 0.8 / view.scale);
  pen.stroke();
  drawNumber(agent, x, y);
}

// The number, where it can be read. It is drawn in pixels, since a font less than a pixel high isn't drawn well.
function drawNumber(agent, x, y) {
  const text = String(agent.number);
  const height = view.scale * [0.5, 0.43, 0.33][text.length - 1];
  if (height < 6.5) {
    return;
  }
  const ratio = canvas.width / view.width;
  pen.save();
  pen.setTransform(ratio, 0, 0, ratio, 0, 0);
  pen.font = `600 ${height}px system-ui, sans-serif`;
  pen.textAlign = "center";
  pen.textBaseline = "middle";
  pen.fillStyle = inkOn(agent.colour);
  pen.fillText(text, view.left + x * view.scale, view.top + (y + 0.02) * view.scale);
  pen.restore();
}

// Black or white, whichever can be read on a colour.
function inkOn(shade) {
  const [red, green, blue] = [1, 3, 5].map((at) => parseInt(shade.slice(at, at + 2), 16));
  return 0.3 * red + 0.59 * green + 0.11 * blue > 135 ? "#000000" : "#ffffff";
}

// Faults at the tick that is shown: a cross in a ring.
function drawFaults() {
  pen.strokeStyle = colour.bad;
  for (const fault of faultsAt(Math.floor(shows.time))) {
    drawMark(fault);
  }
}

function drawMark(fault) {
  const [x, y] = middleOf(fault).map((part) => part + 0.5);
  const radius = Math.max(0.62, 9 / view.scale);
  pen.lineWidth = Math.max(0.09, 2.5 / view.scale);
  pen.beginPath();
  pen.arc(x, y, radius, 0, 2 * Math.PI);
  for (const [dx, dy] of [[1, 0], [-1, 0], [0, 1], [0, -1]]) {
    pen.moveTo(x + dx * radius, y + dy * radius);
    pen.lineTo(x + dx * radius * 1.5, y + dy * radius * 1.5);
  }
  pen.stroke();
}

// The place of a fault: of two agents that swap, or of a step, between the cells.
function middleOf(fault) {
  const cells = fault.kind === "swap" || fault.kind === "step" ? fault.cells : fault.cells.slice(0, 1);
  return [0, 1].map((part) => cells.reduce((sum, cell) => sum + cell[part], 0) / cells.length);
}

// Moving over the map.

function fit() {
  const scale = Math.min(view.width / (data.width + 0.6), view.height / (data.height + 0.6), 120);
  Object.assign(view, {
    scale,
    left: (view.width - data.width * scale) / 2,
    top: (view.height - data.height * scale) / 2,
    fitted: true,
    before: null,
  });
  redraw("behind");
}

function moveBy(dx, dy) {
  view.left = Math.min(Math.max(view.left + dx, 40 - data.width * view.scale), view.width - 40);
  view.top = Math.min(Math.max(view.top + dy, 40 - data.height * view.scale), view.height - 40);
  Object.assign(view, { fitted: false, before: null });
  placeTip();
  redraw("behind");
}

// Moves the map, if a place of it is out of sight, so that this is in the middle.
function showPlace([x, y]) {
  const [atX, atY] = [view.left + (x + 0.5) * view.scale, view.top + (y + 0.5) * view.scale];
  if (atX < 20 || atY < 20 || atX > view.width - 20 || atY > view.height - 20) {
    const { left, top, scale, fitted } = view;
    moveBy(view.width / 2 - atX, view.height / 2 - atY);
    view.before = { left, top, scale, fitted };
  }
}

// Puts the map back where it was before `showPlace` moved it, if it hasn't been moved since.
function goBack() {
  if (view.before) {
    Object.assign(view, view.before, { before: null });
    if (view.fitted) {
      fit();
    }
    redraw("behind");
  }
}

// Zooms so that what is at this point stays there.
function zoom(factor, x = view.width / 2, y = view.height / 2) {
  const least = 0.8 * Math.min(view.width / data.width, view.height / data.height, 120);
  const scale = Math.min(Math.max(view.scale * factor, least), 160);
  view.left = x - (x - view.left) * (scale / view.scale);
  view.top = y - (y - view.top) * (scale / view.scale);
  view.scale = scale;
  moveBy(0, 0);
}

function resize() {
  const ratio = devicePixelRatio || 1;
  view.width = Math.max(canvas.clientWidth, 1);
  view.height = Math.max(canvas.clientHeight, 1);
  canvas.width = Math.round(view.width * ratio);
  canvas.height = Math.round(view.height * ratio);
  if (view.fitted) {
    fit();
  }
  redraw("behind");
}
