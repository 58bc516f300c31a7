"use strict";

// What a verdict means. Of what is accepted this is what the theorem says (coq/README.md). The meanings of codes are
// those of docs/FORMATS.md, section 8, and the rules behind them those of its sections 3 and 9, in short.

// What is true of the problem where a line accepts. Null where the line refuses.
function meaningOf(line, agents) {
  const [kind, ...numbers] = line.split(" ");
  const [first, second] = numbers.map((number) => Number(number).toLocaleString("en"));
  const meaning = {
    optimal: `the plan is valid, its sum of costs is ${first}, and no valid plan has a smaller one.`,
    within: `the plan is valid, its sum of costs is ${second}, and no valid plan has a sum of costs below ${first}.`
      + gapText(...numbers.map(Number)),
    bound: `no valid plan has a sum of costs below ${first}. There may be no valid plan.`,
    impossible: "no plan is valid.",
  }[kind];
  return meaning ? `For ${whose(agents)}, ${meaning}` : null;
}

function whose(agents) {
  return `${agents === 1 ? "the first agent" : `the first ${agents} agents`} of the scenario`;
}

// The same in short, for the headline.
function acceptedOf(line) {
  const [kind, ...numbers] = line.split(" ");
  const [first, second] = numbers.map((number) => Number(number).toLocaleString("en"));
  return {
    optimal: `Optimal, cost ${first}`,
    within: `Valid, cost ${second}; every valid plan costs at least ${first}`,
    bound: `Every valid plan costs at least ${first}`,
    impossible: "No plan is valid",
  }[kind];
}

function gapText(bound, cost) {
  const tenths = Math.ceil(((cost - bound) * 1000) / bound);
  return bound > 0 ? ` So the plan is at most ${tenths / 10}% dearer than the cheapest.` : "";
}

const meanings = {
  F1: "the map isn't written as the format asks",
  F2: "the scenario isn't written as the format asks, doesn't fit the map, or has fewer agents than you ask for",
  C1: "the plan text isn't written as the format asks, or a number in it is out of range",
  C2: "the certificate isn't written as the format asks, or a number in it is out of range",
  C3: "the number of agents differs from the problem's, in the plan text or in the certificate",
  C4: "the claim doesn't fit the answer, or the plan text has a limit answer of version 1",
  C5: "the plan isn't valid",
  C6: "bad split",
  C7: "unsound label",
  C8: "leaf too weak for what has to be shown",
  C9: "false clash",
  C10: "a line that isn't allowed",
};

const split = "Each split must name two different agents, and a free cell or two free and adjacent cells: one doesn't.";
const clash = "Each clash must name two different agents with the same goal: one doesn't.";

// Where docs/FORMATS.md has the rule behind a code, and the rule in short.
const rules = {
  F1: ["section 1", "Line by line a map has: type octile; height H; width W; map; then H rows of W characters, each of"
    + " them one of . G S (free) or @ O T W (blocked)."],
  F2: ["section 1", "A scenario has the line version 1, then a row of nine words for each agent. Each row has the width"
    + " and the height of the map, and the agent's start and goal, which are free cells."],
  C1: ["section 2"],
  C2: ["section 3"],
  C3: ["section 3"],
  C4: ["section 3"],
  C5: ["section 2"],
  C6: ["section 3, rule 1", split],
  C7: ["section 3, rule 2", "Each label must exceed the distance, fall by at most one along each step that the"
    + " constraints allow, and at the goal have a constraint that forbids the goal at a later tick: one doesn't."],
  C8: ["section 3, rule 4", "At each leaf the labels of all agents at their starts must add up to at least what is"
    + " claimed, or one of them must be infinite, as it must for the claim that no plan is valid: at one leaf it isn't"
    + " so."],
  C9: ["section 3, rule 5", clash],
};

// The same for certificates of version 3, where it differs.
const rules3 = {
  C2: ["section 9"],
  C6: ["section 9, rule 5", split],
  C7: ["section 9, rules 2 to 4", "Each label must fall along each allowed step by at most the unit of the price list"
    + " and the prices of the step. Joint cells must begin with the starts of two agents, and each pair of steps"
    + " without a conflict must lead from joint cells to joint cells. Somewhere it isn't so."],
  C8: ["section 9, rule 9", "The bound of each leaf must be at least what its tree has to show: at one leaf it isn't."],
  C9: ["section 9, rule 7", clash],
  C10: ["section 9, rules 1, 6 and 8", "A line isn't allowed. Prices and constraints must be of free cells, of an edge"
    + " adjacent ones, and the agents of a lemma must differ. A lemma must be used after its own text, for agents of the"
    + " tree, with its list, where each of its constraints is met. In a group the weights of an agent's lemmas must add"
    + " up to at most the divisor. A split on two costs must follow from its lemma."],
};

// What has to be corrected, where another certificate alone doesn't help.
const corrections = {
  F1: "Correct the map, or choose another.",
  F2: "Correct the scenario or the number of agents, or choose the map to which the scenario belongs.",
  C1: "Correct the plan text, or choose another.",
  C3: "Choose a plan text and a certificate of the same number of agents, and give that number.",
  C4: "Choose the certificate that belongs to this plan text.",
  C5: "No certificate helps as long as the plan isn't corrected.",
};
const isOpen = "The claim may be true: another certificate may show it.";
const isDamaged = "The file is damaged or isn't a certificate: get it again.";
const reasonSeen = "The reason above is seen by another reading, which isn't proved.";
const noPlace = "This checker doesn't tell where: tools/recheck names the line.";

// Hints are of another reading. Each has words, a part of a sentence, and may have advice. One that is the whole reason
// needs no rule beside it.

// The hint of the headline: it knows which meaning of the code is meant. C5 has one meaning alone.
function headHint(code, hints) {
  return code === "C5" ? undefined : hints[0];
}

function headlineOf(code, hints) {
  return `Refused: ${headHint(code, hints)?.words ?? meanings[code]} (${code})`;
}

// Why nothing is drawn beside a verdict. A plan text with a limit answer of version 1 has no plan either.
function undrawnOf(code, answer) {
  if (answer === null && code !== "C4") {
    return "Nothing is drawn: the texts were refused before a plan was judged.";
  }
  return costOf(answer) ? "The plan can't be drawn." : "This answer has no plan to draw.";
}

// The cost of the plan, where the checker has found it valid.
function costOf(answer) {
  return answer?.match(/^optimal (\d+)$/)?.[1];
}

// What is proved although the texts are refused, a sentence each. The checker judges the plan before it takes the
// certificate, and its answer then is true too: the lemma prepare_fits of coq/Checker.v.
function provedOf(answer, agents) {
  const cost = costOf(answer);
  return cost === undefined ? ["Nothing is proved."] : [
    `For ${whose(agents)}, the plan is valid, and its sum of costs is ${Number(cost).toLocaleString("en")}. The checker`
      + " judged it before the certificate, and this too is proved in Coq.",
    "How cheap a valid plan can be isn't proved.",
  ];
}

// What a refusal means under its headline, a sentence each.
function refusalOf(code, version, hints, answer, agents) {
  const [place, rule] = (version === 3 && rules3[code]) || rules[code];
  const above = headHint(code, hints);
  const others = hints.filter((hint) => hint !== above).map(({ words }) => sentenceOf(words)).join(" ");
  return [
    ...(above ? [`${code} means that ${meanings[code]}.`, reasonSeen] : []),
    ...(others ? [`Seen by another reading, which isn't proved: ${others}`] : []),
    ...(rule && !above?.isWhole ? [rule] : []),
    ...(above || code in corrections ? [] : [noPlace]),
    ...(above?.isWhole ? [] : [`The rule is in the project's docs: FORMATS.md, ${place}.`]),
    ...provedOf(answer, agents), above?.advice ?? (code === "C2" && above ? isDamaged : corrections[code] ?? isOpen),
  ];
}
