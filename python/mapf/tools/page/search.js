"use strict";

// The search for an agent: what in the tree has a constraint, labels or a lemma of it, in the order of the list.

// The agent; its hits, each with its tree and the number of its node, or the number of its lemma; by nodes and lemmas
// why they are hits, and how many hits are below; and which hit was shown last.
const search = { agent: null, hits: [], why: new Map(), below: new Map(), at: -1 };

// Finding.

function seek(agent) {
  Object.assign(search, { agent, hits: [], why: new Map(), below: new Map(), at: -1 });
  if (agent !== null) {
    seekTree(certificate.tree, null);
    certificate.lemmas.forEach((lemma, number) => {
      if (lemma.agents.includes(agent)) {
        note({ of: lemma, lemma: number }, ["lemma"]);
      }
      if (lemma.tree) {
        search.below.set(lemma, seekTree(lemma.tree, number));
      }
    });
  }
  element("tree").querySelectorAll("li").forEach(markFound);
}

function note(hit, why) {
  search.hits.push(hit);
  search.why.set(hit.of, why);
}

// Seeks in the tree of a lemma, or in the last tree, and answers how many hits it has. The nodes are sorted by depth.
function seekTree(tree, lemma) {
  const { nodes } = tree;
  const below = childrenOf(tree);
  const due = nodes.length > 0 ? [0] : [];
  while (due.length > 0) {
    const number = due.pop();
    const why = reasonsOf(nodes, nodes[number]);
    if (why.length > 0) {
      note({ of: nodes[number], tree, number, lemma }, why);
    }
    due.push(...[1, 0].map((side) => below[number][side]).filter((child) => child !== undefined));
  }
  let count = 0;
  for (const node of [...nodes].reverse()) {
    const sum = (search.below.get(node) ?? 0) + (search.why.has(node) ? 1 : 0);
    const above = nodes[node.above];
    if (above) {
      search.below.set(above, (search.below.get(above) ?? 0) + sum);
    } else {
      count += sum;
    }
  }
  return count;
}

// What a node has of the agent. Of its constraints only those count that the split above it adds.
function reasonsOf(nodes, node) {
  const { agent } = search;
  const above = nodes[node.above];
  const has = {
    constraint: above && addedBy(above, node.side).some((mark) => mark.agents.includes(agent)),
    labels: (node.blocks ?? []).some(([of]) => of === agent),
    lemma: lemmasOf(node).some((number) => certificate.lemmas[number]?.agents.includes(agent)),
  };
  return Object.keys(has).filter((name) => has[name]);
}

// Telling.

// Marks the item of an entry in words.
function markFound(entry) {
  const button = entry.firstElementChild;
  button.querySelector(".found")?.remove();
  const { of } = entry.item;
  const why = search.why.get(of);
  const below = search.below.get(of) ?? 0;
  const here = why ? [`agent ${search.agent}: ${why.join(", ")}`] : [];
  const words = [...here, ...(below > 0 ? [`${below} below`] : [])];
  if (words.length > 0) {
    const sign = made("small", `${why ? "◆ " : ""}${words.join("; ")}`);
    sign.className = why ? "found here" : "found";
    button.append(" ", sign);
  }
}

function tellSearch() {
  const { agent, hits, at } = search;
  const { lemmas, lemmaCount, tree } = certificate;
  const trees = [tree, ...lemmas.flatMap((lemma) => (lemma.tree ? [lemma.tree] : []))];
  const held = trees.reduce((sum, { nodes }) => sum + nodes.length, 0);
  const isCut = lemmas.length < lemmaCount || trees.some(({ nodes, count }) => nodes.length < count);
  const nodes = hits.filter((hit) => hit.tree).length;
  const ofLemmas = lemmaCount > 0 ? ` and ${hits.length - nodes} of ${counts(lemmas.length, "lemma")}` : "";
  const found = `agent ${agent}: ${nodes.toLocaleString("en")} of ${counts(held, "node")}${ofLemmas}`;
  element("found").textContent = agent === null ? ""
    : `${at >= 0 ? `${at + 1} of ${hits.length}; ` : ""}${found}${isCut ? " that this page holds" : ""}`;
  for (const id of ["found-before", "found-next"]) {
    setUseful(element(id), hits.length > 0);
  }
}

// Takes what stands in the field.
function takeSought() {
  const text = element("sought").value.trim();
  const agent = /^\d{1,3}$/.test(text) && Number(text) < agents.length ? Number(text) : null;
  const isWrong = text !== "" && agent === null;
  element("sought").setAttribute("aria-invalid", String(isWrong));
  seek(agent);
  tellSearch();
  if (isWrong) {
    element("found").textContent = `The agents are 0 to ${agents.length - 1}.`;
  }
}

function clearSought() {
  if (element("sought").value !== "") {
    element("sought").value = "";
    takeSought();
  }
}

// Stepping.

// Goes on from the hit that is chosen, or else from the one that was shown last.
function stepFound(by) {
  const { hits } = search;
  if (hits.length === 0) {
    return;
  }
  const here = chosen ? hits.findIndex((hit) => hit.of === chosen.of) : -1;
  const from = here >= 0 ? here : search.at;
  search.at = from < 0 ? (by > 0 ? 0 : hits.length - 1) : (from + by + hits.length) % hits.length;
  if (shows.picked !== agents[search.agent]) {
    pick(agents[search.agent]);
  }
  const way = wayTo(hits[search.at]);
  showItem(way);
  tellSearch();
  element("found").append(way.length > mostOpened ? "; it is deeper than what is opened here" : "");
}

// The way to a hit: the number of the item at each level of the list.
function wayTo({ tree, number, lemma }) {
  const way = [];
  if (tree) {
    for (let node = tree.nodes[number]; node.above !== undefined; node = tree.nodes[node.above]) {
      way.push(node.side);
    }
    way.push(0);
  }
  if (lemma === null) {
    return way.reverse();
  }
  const top = certificate.tree.nodes.length > 0 ? 1 : 0;
  const places = certificate.lemmas.length > mostLemmas
    ? [Math.floor(lemma / mostLemmas), lemma % mostLemmas] : [lemma];
  return [top, ...places, ...way.reverse()];
}
