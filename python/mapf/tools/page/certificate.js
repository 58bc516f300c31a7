"use strict";

// The certificate beside the plan, as items of a list: each has its words, and may have a note, lines that tell more,
// marks on the map, and the items below it. A mark has its words, cells and agents, its tick, and the tick after its
// last one. `of` is the node or lemma that an item shows. A node's item has what stands there, a lemma's its number.
//
// What stands at a node is a chain up to the root: the marks of the constraints that come with the node, its blocks,
// and what stands above it.

const certificate = data.certificate ?? null;

// So many lemmas stand below one item at most.
const mostLemmas = 100;

// Where a part of a tree isn't in the page.
const cutNote = "left out: the page holds the upper part of the tree";

function listOf(numbers) {
  return numbers.join(", ").replace(/, (\d+)$/, " and $1");
}

function agentsText(numbers) {
  return numbers.length === 1 ? `agent ${numbers[0]}` : `agents ${listOf(numbers)}`;
}

function counts(number, name) {
  return `${number.toLocaleString("en")} ${name}${number === 1 ? "" : "s"}`;
}

function labelText(label) {
  return label === "inf" ? "∞" : String(label);
}

// A line for what isn't in the page.
function leftOut(count, name) {
  return count > 0 ? [`this page leaves out ${counts(count, name)} more`] : [];
}

// Constraints.

// The mark of a constraint. In its words an agent isn't somewhere, or has a cost.
function constraintMark(kind, agent, cells, number) {
  const [from, to] = cells.map(shown);
  const one = { cells, agents: [agent], tick: number, until: number + 1 };
  switch (kind) {
    case "not":
      return to === undefined
        ? { ...one, words: `agent ${agent} isn't in ${from} at tick ${number}` }
        : { ...one, words: `agent ${agent} doesn't go from ${from} to ${to} after tick ${number}` };
    case "clear":
      return { ...one, until: Infinity, words: `agent ${agent} isn't in ${from} from tick ${number} on` };
    case "least":
      return { ...one, tick: null, words: `agent ${agent} costs at least ${number}` };
    default:
      return { ...one, tick: null, words: `agent ${agent} costs at most ${number}` };
  }
}

function arrivedMark(agent, tick) {
  const goal = agents[agent].goal;
  const words = `no other agent is in ${shown(goal)}, the goal of agent ${agent}, from tick ${tick} on`;
  return { words, cells: [goal], agents: [agent], tick, until: Infinity };
}

// What a split adds on one of its sides.
function addedBy({ kind, is }, side) {
  if (kind === "cost" || kind === "costs") {
    return side === 0 ? costsAtMost(is) : [constraintMark("least", is[0], [], is[1] + 1)];
  }
  const tick = is[is.length - 1];
  const cells = cellsIn(is.slice(2, -1));
  return [constraintMark("not", is[side], side === 0 ? cells : cells.reverse(), tick)];
}

// What a split on a cost adds for the case that the agent costs at most that.
function costsAtMost([agent, cost, other, least]) {
  const more = other === undefined ? [] : [constraintMark("least", other, [], least)];
  return [constraintMark("most", agent, [], cost), arrivedMark(agent, cost), ...more];
}

function cellsIn(numbers) {
  return numbers.length === 0 ? [] : [numbers.slice(0, 2), ...cellsIn(numbers.slice(2))];
}

// Nodes.

// The mark of a split, of which the words name its agents.
function splitMark({ kind, is }) {
  if (kind === "cost" || kind === "costs") {
    return costMark(is);
  }
  const both = is.slice(0, 2);
  const tick = is[is.length - 1];
  const cells = cellsIn(is.slice(2, -1));
  const words = kind === "vertex"
    ? `split: ${agentsText(both)} can't both be in ${shown(cells[0])} at tick ${tick}`
    : `split: ${agentsText(both)} can't exchange ${cells.map(shown).join(" and ")} after tick ${tick}`;
  return { words, cells, agents: both, tick, until: tick + 1 };
}

function costMark([agent, cost, other, least, lemma]) {
  const words = other === undefined
    ? `split: agent ${agent} costs at most ${cost}, or more`
    : `split: by lemma ${lemma} agents ${agent} and ${other} cost at least ${cost + least}, so if agent ${agent} costs`
      + ` at most ${cost}, agent ${other} costs at least ${least}`;
  return { words, cells: [], agents: [agent], tick: null };
}

// The items of a tree, of which that of the root is answered. At the root these constraints stand.
function treeItem(tree, words, standing) {
  const from = { tree, below: childrenOf(tree) };
  return tree.nodes.length === 0 ? null : nodeItem(from, 0, words, standing, null);
}

// By the numbers of the nodes, those of their left and their right children.
function childrenOf(tree) {
  const below = tree.nodes.map(() => []);
  tree.nodes.forEach((node, number) => {
    if (node.above !== undefined) {
      below[node.above][node.side] = number;
    }
  });
  return below;
}

// The item of a node, given the marks of its own constraints and what stands above it.
function nodeItem(from, number, words, marks, above) {
  const node = from.tree.nodes[number];
  const standing = { marks, blocks: node.blocks ?? [], above };
  const item = { words, note: noteOf(node), bad: node.refused, line: node.line, of: node, node, standing };
  if (node.kind === "leaf") {
    return { ...item, lines: () => leafLines(node, standing) };
  }
  if (node.kind === "clash") {
    return { ...item, lines: () => [`agents ${listOf(node.is)} have one goal, so no plan is valid`] };
  }
  const split = splitMark(node);
  return { ...item, split, below: () => [0, 1].map((side) => childItem(from, number, side, standing)) };
}

function childItem(from, number, side, standing) {
  const { tree, below } = from;
  const added = addedBy(tree.nodes[number], side);
  const words = added.map((mark) => mark.words).join(", and ");
  const child = below[number][side];
  if (child === undefined) {
    return { words, note: tree.nodes.length < tree.count ? cutNote : "not read" };
  }
  return nodeItem(from, child, words, added, standing);
}

// The marks of an item: a split comes before the constraints that stand at its node, the nearest ones first.
function marksOf(item) {
  const marks = [...(item.split ? [item.split] : []), ...(item.marks ?? [])];
  for (let at = item.standing ?? null; at; at = at.above) {
    marks.push(...at.marks);
  }
  return marks;
}

// The blocks that hold where this stands, by their agents.
function blocksOf(standing) {
  const blocks = new Map();
  for (let at = standing; at; at = at.above) {
    at.blocks.filter(([agent]) => !blocks.has(agent)).forEach((block) => blocks.set(block[0], block));
  }
  return blocks;
}

function noteOf(node) {
  if (node.refused) {
    return `refused in line ${certificate.refused}`;
  }
  if (node.kind === "clash" || node.sums?.bound === "inf") {
    return "no plan";
  }
  return node.sums ? `cost at least ${node.sums.bound}` : "";
}

// What a leaf adds up to.
function leafLines(node, standing) {
  if (!node.sums) {
    return ["what this leaf adds up to wasn't judged"];
  }
  return certificate.version === 3 ? lemmaLines(node) : labelLines(node.sums, blocksOf(standing));
}

function labelLines(sums, blocks) {
  const { distances } = certificate;
  const least = distances.map((far, agent) => blocks.get(agent)?.[1] ?? far);
  const lines = least.flatMap((label, agent) => (label === distances[agent] ? [] : [
    `agent ${agent} needs at least ${labelText(label)} here (${labelText(distances[agent])} without the constraints)`,
  ]));
  if (lines.length < least.length) {
    lines.push(`each ${lines.length > 0 ? "other " : ""}agent needs its distance to its goal`);
  }
  const sum = least.length <= 12 && least.length > 1 ? `${least.map(labelText).join(" + ")} = ` : "";
  return [...lines, `all add up to ${sum}${labelText(sums.bound)}`];
}

function lemmaLines({ uses = [], groups = [], sums }) {
  const single = uses.map((number) => `uses ${lemmaText(number)}`);
  const lines = [...single, ...groups.map((group, at) => groupText(group, sums.worths[at] ?? "inf"))];
  if (sums.bound === "inf") {
    return [...lines, "so no plan is in this case"];
  }
  const parts = [[sums.alone, ...sums.worths].join(" + "), ...(sums.total > 0 ? [`${sums.total} of prices`] : [])];
  const sum = sums.unit === 1 ? parts.join(" - ") : `(${parts.join(" - ")}) / ${sums.unit}, rounded up`;
  const told = sum === String(sums.bound) ? sum : `${sum} = ${sums.bound}`;
  return [`the agents, each alone, add up to ${sums.alone}`, ...lines, `all add up to ${told}`];
}

function groupText({ uses, divisor, count }, worth) {
  const used = uses.map((use) => useText(use, divisor));
  const cut = count > uses.length ? `; and ${counts(count - uses.length, "use")} more` : "";
  return `${labelText(worth)} more by ${used.join("; ")}${cut}${togetherText(uses, divisor, count, worth)}`;
}

// A use in a group: by how much what the lemma counts exceeds what its agents count alone, and its share of that.
function useText([number, weight, alone, counted], divisor) {
  const share = divisor === 1 ? "" : `, times ${weight}/${divisor}`;
  if (!Number.isFinite(alone) || !Number.isFinite(counted)) {
    return `${lemmaText(number)}${share}`;
  }
  const { bound, agents: named = [] } = certificate.lemmas[number] ?? {};
  const whole = counted === bound ? "" : `counts ${counted}, `;
  const excess = counted > alone ? `${counted - alone} more than` : "not more than";
  return `${lemmaText(number)}, ${whole}${excess} the ${alone} of ${named.length === 1 ? "it" : "them"} alone${share}`;
}

// What the uses of a group add up to before it is rounded up.
function togetherText(uses, divisor, count, worth) {
  const sum = uses.reduce((part, [, weight, alone, counted]) => part + weight * Math.max(0, counted - alone), 0);
  if (!Number.isFinite(sum) || count > uses.length || (uses.length === 1 && divisor === 1)) {
    return "";
  }
  const isShort = (100 * sum) % divisor === 0;
  const told = isShort ? String(sum / divisor) : `${sum}/${divisor}`;
  return `; together ${told}${sum % divisor === 0 ? "" : `, rounded up to ${worth}`}`;
}

// Lemmas and price lists.

function lemmaText(number) {
  const lemma = certificate.lemmas[number];
  if ((lemma?.bound ?? null) === null) {
    return `lemma ${number}`;
  }
  const name = `lemma ${number}: ${agentsText(lemma.agents)}`;
  if (lemma.bound === "inf") {
    return `${name} can't all arrive`;
  }
  if (lemma.list === null) {
    return `${name} cost${lemma.agents.length === 1 ? "s" : ""} at least ${lemma.bound}`;
  }
  const { unit } = certificate.lists[lemma.list] ?? { unit: 1 };
  return `${name}, ${unit === 1 ? "costs" : `${unit} times the costs`} and prices at least ${lemma.bound}`;
}

function lemmaItem(lemma, number) {
  const marks = lemma.constraints.map((told) => constraintMark(...told));
  const isRefused = lemma.bound === null && certificate.refused !== null;
  const constraints = lemma.count > 0 ? counts(lemma.count, "constraint") : "";
  const item = {
    words: lemmaText(number), marks, line: lemma.line, bad: isRefused, of: lemma, lemma: number,
    note: isRefused ? `refused in line ${certificate.refused}` : constraints,
    lines: () => [reasonText(lemma), ...leftOut(lemma.count - marks.length, "constraint")],
  };
  const tree = lemma.tree && treeItem(lemma.tree, "the cases of this lemma", marks);
  return tree ? { ...item, below: () => [tree] } : item;
}

// By what a lemma is shown.
function reasonText({ kind, entries }) {
  if (kind === "cases") {
    return "shown by cases";
  }
  return `shown by ${counts(entries, kind === "never" ? "joint cell" : "label")}`;
}

function pricesItem(list, number) {
  const marks = list.prices.map(([cells, tick, price]) => {
    const place = cells.map(shown).join(" to ");
    return { words: `${place} at tick ${tick}: ${price}`, cells, agents: [], tick, until: tick + 1 };
  });
  const unit = list.unit > 1 ? [`each tick of a cost counts ${list.unit}`] : [];
  return {
    words: `price list ${number}: ${counts(list.count, "price")}, ${list.total} together`, marks, line: list.line,
    marksName: "Prices",
    lines: () => [...unit, ...leftOut(list.count - marks.length, "price")],
  };
}

// All lemmas as one item, and many of them in parts.
function lemmasItem() {
  const { lemmas, lemmaCount } = certificate;
  const items = (from) => lemmas.slice(from, from + mostLemmas).map((lemma, at) => lemmaItem(lemma, from + at));
  const parts = [];
  for (let from = 0; from < lemmas.length; from += mostLemmas) {
    const last = Math.min(from + mostLemmas, lemmas.length) - 1;
    parts.push({ words: `lemmas ${from} to ${last}`, below: () => items(from) });
  }
  const note = lemmas.length < lemmaCount ? `this page holds the first ${lemmas.length.toLocaleString("en")}` : "";
  return { words: counts(lemmaCount, "lemma"), note, below: () => (parts.length > 1 ? parts : items(0)) };
}

function certificateItems() {
  const root = treeItem(certificate.tree, "all valid plans", []);
  return [
    ...(root ? [root] : []),
    ...(certificate.lemmaCount > 0 ? [lemmasItem()] : []),
    ...certificate.lists.map(pricesItem),
  ];
}

// What stands above the tree.
function treeName() {
  const { number, verdict, shows, tree } = certificate;
  if (shows.startsWith("refused")) {
    return "The certificate's cases, as far as they were read";
  }
  const cases = tree.count > 1 ? ": each is in one of these cases" : "";
  return `Why no valid plan ${verdict.startsWith("optimal") ? "is cheaper" : `costs less than ${number}`}${cases}`;
}

function claimText() {
  const { claim, number, version } = certificate;
  if (claim === null) {
    return "It doesn't begin as a certificate does.";
  }
  const words = claim === "impossible" ? "no plan is valid" : `no valid plan costs less than ${number}`;
  return `It is of version ${version}, and claims that ${words}.`;
}

function verdictText() {
  const [kind, first, second] = certificate.verdict.split(" ");
  const meanings = {
    optimal: `the plan costs ${first}, and no valid plan costs less`,
    within: `the plan costs ${second}, and no valid plan costs less than ${first}`,
  };
  return `${certificate.verdict}: ${meanings[kind] ?? certificate.meaning}`;
}

// What a certificate of another cost shows all the same.
function showsText() {
  const { verdict, shows, number, reason } = certificate;
  if (shows === verdict) {
    return "";
  }
  return shows.startsWith("refused") ? ` Beside a plan that its claim fits: ${shows}: ${reason}.`
    : ` The plan costs ${data.cost}. The certificate is right all the same: no valid plan costs less than ${number}.`;
}
