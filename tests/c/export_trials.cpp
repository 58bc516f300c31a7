// Trials of export/mapf_cert.hpp for tests/runners/export. The first word of the call names the trial:
//
//   refusals            tries each refusal, and each bound of a range; a line for each, with a tab and what went wrong
//   crossing CERT       the lines that the head of the header shows
//   trees CERT          each kind of line of version 2, its parts in any order
//   lemmas CERT         each kind of line of version 3, its parts in any order
//   plans               each kind of plan text, to standard output
//   deep N CERT         N nested splits
//   labels CERT         reads an agent with prices and constraints, several times, and writes a lemma for each

#include <cstddef>
#include <fstream>
#include <functional>
#include <iostream>
#include <locale>
#include <optional>
#include <set>
#include <sstream>
#include <stdexcept>
#include <string>
#include <utility>
#include <vector>

#include "mapf_cert.hpp"

using namespace mapf_cert;

namespace {

/// A way to spell numbers that no text of the formats has.
struct Grouped : std::numpunct<char> {
  char do_thousands_sep() const override { return '.'; }
  std::string do_grouping() const override { return "\1"; }
};

std::ofstream opened(const std::string& name) {
  std::ofstream out(name, std::ios::binary);
  out.imbue(std::locale(std::locale::classic(), new Grouped));
  out << std::hex << std::showpos;
  return out;
}

const Sizes sizes{5, 4, 3};
const Cell corner{4, 3};

/// How a call ended: the kind of its error and the sentence, or nothing. A refused call must not write.
std::string ending(const std::function<void(std::ostringstream&, std::string&)>& call) {
  std::ostringstream out;
  std::string before;
  std::string ended;
  try {
    call(out, before);
    return "";
  } catch (const std::invalid_argument& error) {
    ended = std::string("value: ") + error.what();
  } catch (const std::logic_error& error) {
    ended = std::string("order: ") + error.what();
  } catch (const std::runtime_error& error) {
    ended = std::string("stream: ") + error.what();
  }
  return out.str() == before ? ended : ended + " (and something was written)";
}

void tell(const std::string& name, const std::string& got, const std::string& wanted) {
  std::cout << name << "\t";
  if (got != wanted) std::cout << "got '" << got << "', wanted '" << wanted << "'";
  std::cout << "\n";
}

using TreeCall = std::function<void(TreeWriter&)>;
using LemmaCall = std::function<void(LemmaWriter&)>;

/// A call on a writer of version 2, after calls that are accepted.
std::string tree_ending(const TreeCall& call, const TreeCall& before_it = [](TreeWriter&) {}) {
  return ending([&](std::ostringstream& out, std::string& before) {
    TreeWriter writer(out, sizes, Claim::cost(0));
    before_it(writer);
    before = out.str();
    call(writer);
  });
}

std::string lemma_ending(Number lists, Number lemmas, const LemmaCall& call,
                         const LemmaCall& before_it = [](LemmaWriter&) {}) {
  return ending([&](std::ostringstream& out, std::string& before) {
    LemmaWriter writer(out, sizes, Claim::cost(0), lists, lemmas);
    before_it(writer);
    before = out.str();
    call(writer);
  });
}

/// The least and the greatest number of a range are accepted, those beside it refused.
void try_range(const std::string& name, const std::string& what, Number least, Number most,
               const std::function<std::string(Number)>& end_of) {
  for (const Number number : {least, most}) tell(name + " " + std::to_string(number), end_of(number), "");
  for (const Number number : {least - 1, most + 1}) {
    tell(name + " " + std::to_string(number), end_of(number),
         "value: " + what + " is " + std::to_string(number) + ", and has to be from " + std::to_string(least) + " to " +
             std::to_string(most) + ".");
  }
}

void try_sizes() {
  const auto end_of = [](const Sizes& tried, const Claim& claim) {
    return ending([&](std::ostringstream& out, std::string&) { TreeWriter(out, tried, claim); });
  };
  try_range("width", "The width of the map", 1, 2048, [&](Number n) { return end_of({n, 1, 1}, Claim::cost(0)); });
  try_range("height", "The height of the map", 1, 2048, [&](Number n) { return end_of({1, n, 1}, Claim::cost(0)); });
  try_range("agents", "The number of agents", 1, 200, [&](Number n) { return end_of({1, 1, n}, Claim::cost(0)); });
  try_range("claimed cost", "The claimed number", 0, 1'999'999'800,
            [&](Number n) { return end_of(sizes, Claim::cost(n)); });
  try_range("claimed bound", "The claimed number", 0, 1'999'999'800,
            [&](Number n) { return end_of(sizes, Claim::bound(n)); });
}

void try_trees() {
  const auto split = [](const Split& tried) {
    return tree_ending([&](TreeWriter& writer) { writer.split(tried); });
  };
  const auto entry = [](const Entry& tried) {
    return tree_ending([&](TreeWriter& writer) { writer.leaf({{0, {tried}}}); });
  };
  try_range("tree: left agent", "An agent", 0, 2, [&](Number n) { return split(Split::vertex(n, 0, corner, 0)); });
  try_range("tree: right agent", "An agent", 0, 2, [&](Number n) { return split(Split::vertex(0, n, corner, 0)); });
  try_range("tree: column", "The column of a cell", 0, 4,
            [&](Number n) { return split(Split::vertex(0, 1, {n, 0}, 0)); });
  try_range("tree: row", "The row of a cell", 0, 3, [&](Number n) { return split(Split::vertex(0, 1, {0, n}, 0)); });
  try_range("tree: row of the second cell", "The row of a cell", 0, 3,
            [&](Number n) { return split(Split::swap(0, 1, {0, 0}, {0, n}, 0)); });
  try_range("tree: tick of a vertex split", "The tick of a split", 0, 999'999,
            [&](Number n) { return split(Split::vertex(0, 1, corner, n)); });
  try_range("tree: tick of a swap split", "The tick of a split", 0, 999'999,
            [&](Number n) { return split(Split::swap(0, 1, corner, {3, 3}, n)); });
  try_range("tree: column of an entry", "The column of a cell", 0, 4, [&](Number n) { return entry({{n, 0}, 0, 1}); });
  try_range("tree: tick of an entry", "The tick of an entry", 0, 9'999'999,
            [&](Number n) { return entry({corner, n, 1}); });
  tell("tree: label 9999999", entry({corner, 0, 9'999'999}), "");
  tell("tree: label inf", entry({corner, 0, Label::infinite()}), "");
  tell("tree: label 0", entry({corner, 0, 0}), "value: A label is 0, and has to be from 1 to 9999999.");
  tell("tree: label 10000000", entry({corner, 0, 10'000'000}),
       "value: A label is 10000000, and has to be from 1 to 9999999.");
  tell("tree: label -1", ending([](std::ostringstream&, std::string&) { static_cast<void>(Label(-1)); }),
       "value: A label is negative, and has to be 0 or more.");
  try_range("tree: agent of a block", "An agent", 0, 2, [](Number n) {
    return tree_ending([&](TreeWriter& writer) { writer.leaf({{n, {{corner, 0, 1}}}}); });
  });
  try_range("tree: agent of a clash", "An agent", 0, 2, [](Number n) {
    return tree_ending([&](TreeWriter& writer) { writer.clash({0, n}); });
  });
  const std::string twice = "value: Two entries of an agent have the same cell and tick.";
  tell("tree: an entry twice", tree_ending([](TreeWriter& writer) {
         writer.leaf({{0, {{corner, 1, 1}, {corner, 0, 1}, {corner, 1, 2}}}});
       }), twice);
  tell("tree: a block twice", tree_ending([](TreeWriter& writer) {
         writer.leaf({{1, {{corner, 1, 1}}}, {0, {{corner, 1, 1}}}, {1, {{corner, 0, 1}}}});
       }), "value: Two blocks of a node are of the same agent.");
  tell("tree: a split on a cost", split(Split::cost(0, 1)), "value: Version 2 has no split on costs.");
  tell("tree: a split on costs", split(Split::costs(0, 1, 1, 1, 0)), "value: Version 2 has no split on costs.");
}

void try_order_of_trees() {
  const TreeCall leaf = [](TreeWriter& writer) { writer.leaf(); };
  const TreeCall split = [](TreeWriter& writer) { writer.split(Split::vertex(0, 1, corner, 0)); };
  const TreeCall clash = [](TreeWriter& writer) { writer.clash({0, 1}); };
  const TreeCall end = [](TreeWriter& writer) { writer.end(); };
  tell("order: a leaf after the tree", tree_ending(leaf, leaf), "order: No node is due.");
  tell("order: a split after the tree", tree_ending(split, leaf), "order: No node is due.");
  tell("order: a clash after the tree", tree_ending(clash, leaf), "order: No node is due.");
  tell("order: the end before the tree", tree_ending(end), "order: The tree isn't complete.");
  tell("order: the end inside the tree", tree_ending(end, split), "order: The tree isn't complete.");
  tell("order: the end twice", tree_ending(end, [](TreeWriter& writer) {
         writer.leaf();
         writer.end();
       }), "order: The text has ended.");
  const auto written = [](const std::vector<Node>& nodes) {
    return ending([&](std::ostringstream& out, std::string& before) {
      before = nodes.empty() ? "" : "mapf-cert 2\nagents 3\nclaim cost 0\n";
      write_tree(out, sizes, Claim::cost(0), nodes);
    });
  };
  const Node bad_child{Split::vertex(0, 1, corner, 0), {}, 0, 1};
  const Node no_child{Split::vertex(0, 1, corner, 0), {}, 1, 2};
  tell("order: no nodes", written({}), "value: A tree has at least one node.");
  tell("order: a child before its parent", written({bad_child, {}}),
       "value: A child of a split doesn't stand behind it in the vector.");
  tell("order: a child that isn't there", written({no_child, {}}),
       "value: A child of a split doesn't stand behind it in the vector.");
  tell("order: a clash with a block", written({{Clash{0, 1}, {{0, {{corner, 0, 1}}}}, 0, 0}}),
       "value: A clash has no blocks.");
}

void try_prices() {
  const auto list = [](const PriceList& tried) {
    return lemma_ending(1, 0, [&](LemmaWriter& writer) { writer.list(tried); });
  };
  const Cell beside{3, 3};
  try_range("prices: unit", "The unit of a price list", 1, 1000, [&](Number n) { return list({n, {}}); });
  try_range("prices: column", "The column of a cell", 0, 4,
            [&](Number n) { return list({1, {{{n, 0}, std::nullopt, 0, 1}}}); });
  try_range("prices: row of the second cell", "The row of a cell", 0, 3,
            [&](Number n) { return list({1, {{{1, 0}, Cell{0, n}, 0, 1}}}); });
  try_range("prices: tick", "The tick of a price", 0, 999'999,
            [&](Number n) { return list({1, {{corner, std::nullopt, n, 1}}}); });
  tell("prices: 9999999", list({1, {{corner, std::nullopt, 0, 9'999'999}}}), "");
  tell("prices: 10000000", list({1, {{corner, std::nullopt, 0, 10'000'000}}}),
       "value: A price is 10000000, and has to be from 1 to 9999999.");
  tell("prices: -1", list({1, {{corner, std::nullopt, 0, -1}}}),
       "value: A price is -1, and has to be from 1 to 9999999.");
  tell("prices: an edge of one cell", list({1, {{corner, corner, 0, 1}}}),
       "value: The two cells of a price are the same.");
  const std::string twice = "value: Two prices of a list are of the same cell or edge and tick.";
  tell("prices: a cell twice", list({1, {{corner, std::nullopt, 0, 1}, {corner, std::nullopt, 0, 2}}}), twice);
  tell("prices: an edge in both directions", list({1, {{corner, beside, 0, 1}, {beside, corner, 0, 1}}}), twice);
}

std::string one_ending(const One& tried) {
  return lemma_ending(0, 1, [&](LemmaWriter& writer) { writer.lemma(tried); });
}

std::string two_ending(const Two& tried) {
  return lemma_ending(0, 1, [&](LemmaWriter& writer) { writer.lemma(tried); });
}

void try_constraints() {
  const auto under = [](const Constraint& tried) { return one_ending({0, {tried}, {}, std::nullopt}); };
  const std::string what = "The number of a constraint";
  try_range("constraint: not", what, 0, 999'999, [&](Number n) { return under(Constraint::not_at(0, corner, n)); });
  try_range("constraint: not of a move", what, 0, 999'999,
            [&](Number n) { return under(Constraint::not_move(0, corner, {3, 3}, n)); });
  try_range("constraint: clear", what, 0, 9'999'998, [&](Number n) { return under(Constraint::clear(0, corner, n)); });
  try_range("constraint: most", what, 0, 9'999'998, [&](Number n) { return under(Constraint::most(0, n)); });
  try_range("constraint: least", what, 0, 9'999'999, [&](Number n) { return under(Constraint::least(0, n)); });
  try_range("constraint: column", "The column of a cell", 0, 4,
            [&](Number n) { return under(Constraint::clear(0, {n, 0}, 0)); });
  try_range("constraint: row of the second cell", "The row of a cell", 0, 3,
            [&](Number n) { return under(Constraint::not_move(0, {0, 0}, {0, n}, 0)); });
  const std::string other = "value: The agent of a constraint isn't one of its lemma.";
  tell("constraint: another agent", under(Constraint::least(1, 0)), other);
  tell("constraint: another agent of two", two_ending({0, 1, {Constraint::least(2, 0)}, {}, {}, {}, std::nullopt}),
       other);
  One many;
  for (Tick tick = 0; tick < 1001; ++tick) many.constraints.push_back(Constraint::not_at(0, corner, tick));
  tell("constraint: 1001 of them", one_ending(many),
       "value: The number of constraints of a lemma is 1001, and has to be from 0 to 1000.");
  many.constraints.back() = many.constraints.front();
  tell("constraint: 1000 of them, one repeated", one_ending(many), "");
}

void try_lemmas() {
  try_range("lemmas: agent", "An agent", 0, 2, [](Number n) { return one_ending({n, {}, {}, std::nullopt}); });
  try_range("lemmas: second agent", "An agent", 0, 2,
            [](Number n) { return two_ending({0, n, {}, {}, {}, {}, std::nullopt}); });
  tell("lemmas: label 9999999999", one_ending({0, {}, {{corner, 0, 9'999'999'999}}, std::nullopt}), "");
  tell("lemmas: label 10000000000", one_ending({0, {}, {{corner, 0, 10'000'000'000}}, std::nullopt}),
       "value: A label is 10000000000, and has to be from 1 to 9999999999.");
  tell("lemmas: label 0", two_ending({0, 1, {}, {}, {{corner, 0, 0}}, {}, std::nullopt}),
       "value: A label is 0, and has to be from 1 to 9999999999.");
  const auto joint = [](std::vector<JointEntry> tried) {
    return two_ending({0, 1, {}, {}, {}, std::move(tried), std::nullopt});
  };
  try_range("lemmas: tick of a joint entry", "The tick of an entry", 0, 9'999'999,
            [&](Number n) { return joint({{corner, corner, n, 1}}); });
  try_range("lemmas: column of a joint entry", "The column of a cell", 0, 4,
            [&](Number n) { return joint({{std::nullopt, Cell{n, 0}, 0, 1}}); });
  try_range("lemmas: row of a joint entry", "The row of a cell", 0, 3,
            [&](Number n) { return joint({{Cell{0, n}, std::nullopt, 0, 1}}); });
  tell("lemmas: a joint entry without cells", joint({{std::nullopt, std::nullopt, 0, 1}}),
       "value: A joint entry has at least one cell.");
  tell("lemmas: a joint label 0", joint({{corner, corner, 0, 0}}),
       "value: A label is 0, and has to be from 1 to 9999999999.");
  tell("lemmas: a joint entry twice", joint({{std::nullopt, corner, 0, 1}, {std::nullopt, corner, 0, 1}}),
       "value: Two joint entries have the same cells and tick.");
  tell("lemmas: both stars", joint({{std::nullopt, corner, 0, 1}, {corner, std::nullopt, 0, 1}}), "");
  tell("lemmas: no list", one_ending({0, {}, {}, 0}), "value: A price list is named, and the certificate has none.");
  try_range("lemmas: list", "The number of a price list", 0, 1, [](Number n) {
    return lemma_ending(2, 1, [&](LemmaWriter& writer) { writer.lemma(One{0, {}, {}, n}); },
                        [](LemmaWriter& writer) {
                          writer.list({});
                          writer.list({});
                        });
  });
  const auto never = [](std::vector<std::pair<Cell, Cell>> cells) {
    return lemma_ending(0, 1, [&](LemmaWriter& writer) { writer.lemma(Never{0, 1, std::move(cells)}); });
  };
  tell("lemmas: no joint cells", never({}), "value: A lemma of joint cells has at least one pair of cells.");
  try_range("lemmas: row of joint cells", "The row of a cell", 0, 3,
            [&](Number n) { return never({{corner, {0, n}}}); });
  const auto cases = [](const Cases& tried) {
    return lemma_ending(0, 1, [&](LemmaWriter& writer) { writer.lemma(tried); });
  };
  tell("lemmas: cases of no agent", cases({{}, {}, 1}),
       "value: The number of agents of a lemma by cases is 0, and has to be from 1 to 3.");
  tell("lemmas: cases of an agent twice", cases({{1, 0, 1}, {}, 1}), "value: Two agents of a lemma are the same.");
  try_range("lemmas: agent of cases", "An agent", 0, 2, [&](Number n) { return cases({{n}, {}, 1}); });
  tell("lemmas: bound 0", cases({{0}, {}, 0}), "value: A label is 0, and has to be from 1 to 1999999800.");
  tell("lemmas: bound 1999999800", cases({{0}, {}, 1'999'999'800}), "");
  tell("lemmas: bound 1999999801", cases({{0}, {}, 1'999'999'801}),
       "value: A label is 1999999801, and has to be from 1 to 1999999800.");
  const auto counts = [](Number lists, Number lemmas) { return lemma_ending(lists, lemmas, [](LemmaWriter&) {}); };
  try_range("lemmas: count of lists", "The number of price lists", 0, 9'999'999'999,
            [&](Number n) { return counts(n, 0); });
  try_range("lemmas: count", "The number of lemmas", 0, 9'999'999'999, [&](Number n) { return counts(0, n); });
}

void try_leaves() {
  const auto split = [](const Split& tried) {
    return lemma_ending(0, 0, [&](LemmaWriter& writer) { writer.split(tried); });
  };
  try_range("leaves: cost", "The cost of a split", 0, 9'999'998, [&](Number n) { return split(Split::cost(0, n)); });
  try_range("leaves: agent of a cost", "An agent", 0, 2, [&](Number n) { return split(Split::cost(n, 0)); });
  try_range("leaves: cost of costs", "The cost of a split", 0, 9'999'998,
            [&](Number n) { return split(Split::costs(0, n, 1, 0, 0)); });
  try_range("leaves: least cost", "The least cost of a split", 0, 9'999'999,
            [&](Number n) { return split(Split::costs(0, 0, 1, n, 0)); });
  try_range("leaves: other agent of costs", "An agent", 0, 2,
            [&](Number n) { return split(Split::costs(0, 0, n, 0, 0)); });
  try_range("leaves: lemma of costs", "The number of a lemma", 0, 9'999'999'999,
            [&](Number n) { return split(Split::costs(0, 0, 1, 0, n)); });
  try_range("leaves: tick", "The tick of a split", 0, 999'999,
            [&](Number n) { return split(Split::swap(0, 1, corner, {3, 3}, n)); });
  const auto leaf = [](const Leaf& tried) {
    return lemma_ending(0, 0, [&](LemmaWriter& writer) { writer.leaf(tried); });
  };
  const auto grouped = [&](const Group& tried) { return leaf({{}, {tried}, std::nullopt}); };
  try_range("leaves: use", "The number of a lemma", 0, 9'999'999'999, [&](Number n) {
    return leaf({{n}, {}, std::nullopt});
  });
  try_range("leaves: use in a group", "The number of a lemma", 0, 9'999'999'999,
            [&](Number n) { return grouped({1, {{n, 1}}}); });
  try_range("leaves: weight", "The weight of a use", 1, 1000, [&](Number n) { return grouped({1, {{0, n}}}); });
  try_range("leaves: divisor", "The divisor of a group", 1, 1000, [&](Number n) { return grouped({n, {{0, 1}}}); });
  tell("leaves: an empty group", grouped({1, {}}),
       "value: The number of uses of a group is 0, and has to be from 1 to 200000.");
  Group large;
  for (Number number = 0; number < 200'001; ++number) large.uses.push_back({number, 1});
  tell("leaves: a group of 200001", grouped(large),
       "value: The number of uses of a group is 200001, and has to be from 1 to 200000.");
  tell("leaves: a use twice", leaf({{1, 0, 1}, {}, std::nullopt}), "value: A leaf uses a lemma twice.");
  tell("leaves: a use twice in a group", grouped({2, {{1, 1}, {0, 1}, {1, 1}}}), "value: A group uses a lemma twice.");
  tell("leaves: four uses", leaf({{0, 1, 2, 3}, {}, std::nullopt}),
       "value: The number of uses of a leaf is 4, and has to be from 0 to 3.");
  tell("leaves: four groups", leaf({{}, std::vector<Group>(4, {1, {{0, 1}}}), std::nullopt}),
       "value: The number of groups of a leaf is 4, and has to be from 0 to 3.");
  tell("leaves: no list", leaf({{}, {}, 0}), "value: A price list is named, and the certificate has none.");
}

void try_order_of_lemmas() {
  const LemmaCall list = [](LemmaWriter& writer) { writer.list({}); };
  const LemmaCall one = [](LemmaWriter& writer) { writer.lemma(One{}); };
  const LemmaCall two = [](LemmaWriter& writer) { writer.lemma(Two{0, 1, {}, {}, {}, {}, std::nullopt}); };
  const LemmaCall never = [](LemmaWriter& writer) { writer.lemma(Never{0, 1, {{corner, corner}}}); };
  const LemmaCall cases = [](LemmaWriter& writer) { writer.lemma(Cases{{0}, {}, 1}); };
  const LemmaCall leaf = [](LemmaWriter& writer) { writer.leaf({}); };
  const LemmaCall split = [](LemmaWriter& writer) { writer.split(Split::cost(0, 1)); };
  const LemmaCall clash = [](LemmaWriter& writer) { writer.clash({0, 1}); };
  const LemmaCall end = [](LemmaWriter& writer) { writer.end(); };
  const std::string no_lemma = "order: No lemma is due.";
  tell("order: a list too many", lemma_ending(1, 0, list, list), "order: No price list is due.");
  for (const auto& [name, call] : {std::pair("one", one), std::pair("two", two), std::pair("never", never),
                                   std::pair("cases", cases)}) {
    tell(std::string("order: before the lists, ") + name, lemma_ending(1, 1, call), no_lemma);
    tell(std::string("order: too many, ") + name, lemma_ending(0, 1, call, one), no_lemma);
    tell(std::string("order: inside cases, ") + name, lemma_ending(0, 2, call, cases), no_lemma);
  }
  for (const auto& [name, call] : {std::pair("leaf", leaf), std::pair("split", split), std::pair("clash", clash)}) {
    tell(std::string("order: before the lemmas, ") + name, lemma_ending(0, 1, call), "order: No node is due.");
    tell(std::string("order: after the tree, ") + name, lemma_ending(0, 0, call, leaf), "order: No node is due.");
    tell(std::string("order: after the tree of cases, ") + name, lemma_ending(0, 2, call, [&](LemmaWriter& writer) {
           cases(writer);
           leaf(writer);
         }), "order: No node is due.");
  }
  tell("order: the end before the lists", lemma_ending(1, 0, end), "order: Not all lists and lemmas were written.");
  tell("order: the end before the lemmas", lemma_ending(0, 1, end), "order: Not all lists and lemmas were written.");
  tell("order: the end before the last tree", lemma_ending(0, 0, end), "order: The tree isn't complete.");
  tell("order: the end after cases", lemma_ending(0, 1, end, cases), "order: The tree isn't complete.");
}

void try_plans() {
  const auto plan = [](const std::vector<Path>& paths, int version) {
    return ending([&](std::ostringstream& out, std::string&) { write_plan(out, sizes, paths, version); });
  };
  const auto limit = [](std::optional<Number> splits, std::optional<Number> bound) {
    return ending([&](std::ostringstream& out, std::string&) { write_limit(out, sizes, splits, bound); });
  };
  const auto impossible = [](int version) {
    return ending([&](std::ostringstream& out, std::string&) { write_impossible(out, sizes, version); });
  };
  const std::string version = "The version of a plan text";
  try_range("plans: version", version, 1, 2, [&](Number n) { return plan({{corner}, {corner}, {corner}}, int(n)); });
  try_range("plans: version of impossible", version, 1, 2, [&](Number n) { return impossible(int(n)); });
  tell("plans: two paths", plan({{corner}, {corner}}, 2),
       "value: The number of paths is 2, and has to be from 3 to 3.");
  tell("plans: a path without cells", plan({{corner}, {}, {corner}}, 2), "value: A path has at least one cell.");
  try_range("plans: column", "The column of a cell", 0, 4,
            [&](Number n) { return plan({{corner}, {{n, 0}}, {corner}}, 2); });
  Path path(10'000'001, corner);
  path.back() = {0, 0};
  tell("plans: a path of 10000000", plan({{corner}, path, {corner}}, 2),
       "value: The cost of a path is 10000000, and has to be from 0 to 9999999.");
  try_range("plans: splits", "The number of splits", 0, 100'000, [&](Number n) { return limit(n, 0); });
  try_range("plans: bound", "The bound", 0, 1'999'999'800, [&](Number n) { return limit(std::nullopt, n); });
}

void try_streams() {
  const auto full = [](const std::function<void(std::ostream&)>& call) {
    return ending([&](std::ostringstream& out, std::string&) {
      out.setstate(std::ios::badbit);
      call(out);
    });
  };
  const std::string wanted = "stream: The stream took no more.";
  tell("stream: a tree", full([](std::ostream& out) { TreeWriter(out, sizes, Claim::cost(0)); }), wanted);
  tell("stream: a plan", full([](std::ostream& out) { write_impossible(out, sizes); }), wanted);
  tell("stream: an end", ending([](std::ostringstream& out, std::string& before) {
         TreeWriter writer(out, sizes, Claim::cost(0));
         writer.leaf();
         before = out.str();
         out.setstate(std::ios::badbit);
         writer.end();
       }), wanted);
}

void try_labels() {
  const Cell start{0, 0}, goal{2, 0};
  const Sizes strip{3, 1, 1};
  const std::vector<Label> steps = distances(strip, goal, [](Cell) { return true; });
  const auto of_cost = [&](const std::vector<Constraint>& constraints, Label cost) {
    return ending([&](std::ostringstream&, std::string&) { labels_of_cost(strip, steps, start, constraints, cost); });
  };
  tell("labels: a cost that is too high", of_cost({}, 3),
       "value: The agent can arrive at a lower cost than the one that is to be shown.");
  tell("labels: an infinite cost that isn't", of_cost({Constraint::least(0, 4)}, Label::infinite()),
       "value: The agent can go on after its constraints, so no entries show that its cost is infinite.");
  tell("labels: a goal that is never free", of_cost({Constraint::clear(0, goal, 3)}, Label::infinite()),
       "value: The agent can go on after its constraints, so no entries show that its cost is infinite.");
  try_range("labels: column of the start", "The column of a cell", 0, 2, [&](Number n) {
    return ending([&](std::ostringstream&, std::string&) { exact_labels(strip, steps, {n, 0}, {}); });
  });
  try_range("labels: row of the goal", "The row of a cell", 0, 3, [&](Number n) {
    return ending([&](std::ostringstream&, std::string&) { distances(sizes, {0, n}, [](Cell) { return true; }); });
  });
  tell("labels: too few distances", ending([&](std::ostringstream&, std::string&) {
         exact_labels(sizes, steps, start, {});
       }), "value: The distances aren't as many as the cells.");
  tell("labels: a row that is too short", ending([&](std::ostringstream&, std::string&) {
         labels_above(strip, steps, {{1, 2}});
       }), "value: A row of the table has another number of cells.");
  const auto price = [](double dual, Number unit, Number wanted) {
    tell("labels: a price of " + std::to_string(dual), std::to_string(whole_price(dual, unit)), std::to_string(wanted));
  };
  price(1.5, 2, 3);
  price(0.26, 2, 1);
  price(0.2, 2, 0);
  price(-1, 1, 0);
  price(1e30, 1, 9'999'999);
}

void write_crossing(const std::string& name) {
  auto out = opened(name);
  TreeWriter writer(out, Sizes{3, 3, 2}, Claim::cost(5));
  writer.split(Split::vertex(0, 1, Cell{1, 1}, 1));
  writer.leaf({Block{0, {Entry{{0, 1}, 0, 3}}}});
  writer.leaf({Block{1, {Entry{{1, 0}, 0, 3}}}});
  writer.end();
}

void write_pair(const std::string& name) {
  auto out = opened(name);
  const Sizes sizes{3, 3, 2};
  const Two two{0, 1};
  LemmaWriter writer(out, sizes, Claim::cost(11), 0, 1);
  const Number lemma = writer.lemma(two);
  writer.leaf({{}, {Group{1, {Use{lemma, 1}}}}});
  writer.end();
}

void write_trees(const std::string& name) {
  auto out = opened(name);
  const Entry barred{{0, 0}, 0, Label::infinite()};
  TreeWriter writer(out, {4, 1, 3}, Claim::impossible());
  writer.split(Split::vertex(0, 1, {0, 0}, 0), {{2, {}}});
  writer.split(Split::swap(0, 1, {0, 0}, {1, 0}, 0), {{0, {barred}}});
  writer.leaf();
  writer.leaf({{1, {{{1, 0}, 0, 2}}}, {2, {}}, {0, {barred}}});
  writer.clash({1, 2});
  writer.end();
}

void write_lemmas(const std::string& name) {
  auto out = opened(name);
  LemmaWriter writer(out, {5, 3, 4}, Claim::impossible(), 2, 6);
  const Cell a{0, 2}, b{1, 2}, c{2, 2}, d{3, 2}, e{4, 2};
  writer.list(
      {2, {{c, b, 1, 1}, {a, std::nullopt, 2, 0}, {a, b, 3, 2}, {d, c, 1, 9'999'999}, {b, std::nullopt, 1, 3}}});
  writer.list({});
  const Cell f{0, 0}, g{1, 0}, h{2, 0};
  const Number never = writer.lemma(Never{0, 1, {{g, h}, {f, h}, {f, g}, {g, h}}});
  const Number priced = writer.lemma(One{2, {}, {{b, 1, 5}, {a, 0, 8}}, 0});
  const Constraint first = Constraint::not_at(2, b, 1);
  writer.lemma(One{2,
                   {Constraint::least(2, 2), Constraint::most(2, 9), first, Constraint::clear(2, e, 0),
                    Constraint::not_move(2, a, b, 2), first},
                   {{a, 0, 4}},
                   std::nullopt});
  const std::vector<JointEntry> joint{{d, std::nullopt, 0, Label::infinite()}, {std::nullopt, d, 0, 9'999'999'999},
                                      {b, b, 0, Label::infinite()},            {a, e, 0, 6}};
  writer.lemma(Two{2, 3, {Constraint::not_at(3, d, 1), first}, {{a, 0, 4}}, {{e, 0, 2}}, joint, std::nullopt});
  writer.lemma(Cases{{3, 2}, {Constraint::least(3, 1)}, 4});
  writer.split(Split::cost(2, 3));
  writer.leaf({});
  writer.clash({2, 3});
  const Number by_cases = writer.lemma(Cases{{0, 1}, {}, Label::infinite()});
  writer.leaf({{}, {{1, {{never, 1}}}}, std::nullopt});
  writer.split(Split::vertex(2, 3, b, 1));
  writer.split(Split::swap(2, 3, b, c, 3));
  writer.split(Split::cost(2, 5));
  writer.leaf({{priced}, {{2, {{never, 2}}}}, 0});
  writer.leaf({{}, {{3, {{by_cases, 2}, {never, 1}}}}, 1});
  writer.clash({2, 3});
  writer.split(Split::costs(0, 4, 1, 5, never));
  writer.leaf({{}, {{1, {{never, 1}}}}, std::nullopt});
  writer.leaf({{}, {{1, {{never, 1}}}}, std::nullopt});
  writer.end();
}

void write_plans() {
  const Sizes two{3, 2, 2};
  const std::vector<Path> paths{{{0, 0}, {0, 0}, {1, 0}, {1, 0}, {1, 0}}, {{2, 1}, {2, 1}}};
  write_plan(std::cout, two, paths);
  write_plan(std::cout, two, paths, 1);
  write_limit(std::cout, two, 100, 7);
  write_limit(std::cout, two, std::nullopt, 7);
  write_limit(std::cout, two, 100, std::nullopt);
  write_limit(std::cout, two, std::nullopt, std::nullopt);
  write_impossible(std::cout, two);
  write_impossible(std::cout, two, 1);
}

/// Each left child is a split again.
void write_deep(std::size_t count, const std::string& name) {
  std::vector<Node> nodes;
  for (std::size_t at = 0; at < count; ++at) nodes.push_back({Split::vertex(0, 1, {0, 0}, 7), {}, at + 1, count + 1});
  nodes.resize(count + 2);
  auto out = opened(name);
  write_tree(out, {2, 1, 2}, Claim::cost(0), nodes);
}

/// Reads agents, each as: width, height, start, goal, the blocked cells, the unit, the prices, the constraints. Each
/// list has its length before it. The map is the same for all. Writes a lemma for each, and prints its bound.
void write_labels(const std::string& name) {
  std::vector<PriceList> lists;
  std::vector<One> lemmas;
  Sizes read{0, 0, 1};
  for (Cell start, goal; std::cin >> read.width >> read.height >> start.x >> start.y >> goal.x >> goal.y;) {
    std::size_t count = 0;
    std::set<Cell> blocked;
    for (std::cin >> count; count > 0; --count) {
      Cell cell;
      std::cin >> cell.x >> cell.y;
      blocked.insert(cell);
    }
    PriceList list;
    for (std::cin >> list.unit >> count; count > 0; --count) {
      Price price;
      Cell to;
      std::cin >> price.cell.x >> price.cell.y >> to.x >> to.y >> price.tick >> price.price;
      if (to != price.cell) price.to = to;
      list.prices.push_back(price);
    }
    std::vector<Constraint> constraints;
    for (std::cin >> count; count > 0; --count) {
      int kind = 0;
      Constraint constraint;
      std::cin >> kind >> constraint.cell.x >> constraint.cell.y >> constraint.to.x >> constraint.to.y >>
          constraint.number;
      constraint.kind = static_cast<Constraint::Kind>(kind);
      constraints.push_back(constraint);
    }
    const std::vector<Label> steps = distances(read, goal, [&](Cell cell) { return blocked.count(cell) == 0; });
    const std::vector<Entry> entries = exact_labels(read, steps, start, constraints, list);
    const Label bound = bound_of_one(read, steps, start, constraints, entries, list);
    std::cout << (bound.is_infinite() ? "inf" : std::to_string(bound.number())) << "\n";
    lemmas.push_back({0, constraints, entries, static_cast<Number>(lists.size())});
    lists.push_back(list);
  }
  auto out = opened(name);
  const auto number = static_cast<Number>(lemmas.size());
  LemmaWriter writer(out, read, Claim::bound(0), number, number);
  for (const PriceList& list : lists) writer.list(list);
  for (const One& lemma : lemmas) writer.lemma(lemma);
  writer.leaf({});
  writer.end();
}

}  // namespace

int main(int count, char** words) {
  const std::vector<std::string> given(words + 1, words + count);
  const std::string trial = given.empty() ? "" : given[0];
  if (trial == "refusals") {
    for (const auto& each : {try_sizes, try_trees, try_order_of_trees, try_prices, try_constraints, try_lemmas,
                             try_leaves, try_order_of_lemmas, try_plans, try_streams, try_labels}) {
      each();
    }
  } else if (trial == "crossing") {
    write_crossing(given.at(1));
  } else if (trial == "pair") {
    write_pair(given.at(1));
  } else if (trial == "trees") {
    write_trees(given.at(1));
  } else if (trial == "lemmas") {
    write_lemmas(given.at(1));
  } else if (trial == "plans") {
    write_plans();
  } else if (trial == "deep") {
    write_deep(std::stoul(given.at(1)), given.at(2));
  } else if (trial == "labels") {
    write_labels(given.at(1));
  } else {
    return 2;
  }
  return 0;
}
