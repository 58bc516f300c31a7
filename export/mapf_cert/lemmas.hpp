// Certificates of version 3: price lists, lemmas, and a tree that uses them.

#ifndef MAPF_CERT_LEMMAS_HPP
#define MAPF_CERT_LEMMAS_HPP

#include <algorithm>
#include <optional>
#include <ostream>
#include <stdexcept>
#include <tuple>
#include <utility>
#include <vector>

#include "lines.hpp"
#include "types.hpp"

namespace mapf_cert {

/// A price of 1 to 9,999,999, in parts of a tick, of a cell at a tick, or of the edge between two adjacent cells, in
/// both directions, from a tick to the next. The tick is 0 to 999,999. A price of 0 is left out, as it is no price.
struct Price {
  Cell cell;
  std::optional<Cell> to;
  Tick tick = 0;
  Number price = 0;
};

/// A price list: a tick has `unit` parts, 1 to 1,000, and prices count in these parts. Labels and bounds of lemmas with
/// this list do too. Any prices give a true bound, since the labels are judged with them: rounded dual prices of a
/// linear program may show a smaller bound, and never a wrong one.
struct PriceList {
  Number unit = 1;
  std::vector<Price> prices;

  /// The sum of the prices. A leaf that names the list takes it off.
  Number total() const {
    Number sum = 0;
    for (const Price& price : prices) sum += price.price;
    return sum;
  }
  /// The bound, in ticks, of a leaf at which this list is named and what is used counts `sum` in all.
  Number bound(Number sum) const { return (std::max<Number>(sum - total(), 0) + unit - 1) / unit; }
};

/// A lemma of one agent. Its bound is the label of its start at tick 0, plus the price of that cell at tick 0.
struct One {
  Agent agent = 0;
  std::vector<Constraint> constraints = {};
  std::vector<Entry> entries = {};
  /// The number of a price list, or none.
  std::optional<Number> list = {};
};

/// A label of two agents at a tick. An agent without a cell has arrived for good; one of the two has a cell.
struct JointEntry {
  std::optional<Cell> first;
  std::optional<Cell> second;
  Tick tick;
  Label label;
};

/// A lemma of two agents. Its bound is the joint label of both starts at tick 0, plus the prices of both at tick 0.
struct Two {
  Agent first = 0;
  Agent second = 0;
  std::vector<Constraint> constraints = {};
  std::vector<Entry> first_entries = {};
  std::vector<Entry> second_entries = {};
  std::vector<JointEntry> joint_entries = {};
  std::optional<Number> list = {};
};

/// A lemma of two agents that never both arrive: they don't leave these joint cells, at least one pair.
struct Never {
  Agent first = 0;
  Agent second = 0;
  std::vector<std::pair<Cell, Cell>> cells;
};

/// A lemma by cases: these agents, 1 to K of them, cost at least the bound (1 to 1,999,999,800, or infinite) together.
/// The tree that shows it follows: nodes come before the next lemma.
struct Cases {
  std::vector<Agent> agents;
  std::vector<Constraint> constraints = {};
  Label bound = Label::infinite();
};

/// A lemma in a group, by its number, with a weight of 1 to 1,000.
struct Use {
  Number lemma = 0;
  Number weight = 1;
};

/// Lemmas, 1 to 200,000 of them, whose excess over what single agents cost is added up by weights and divided. For each
/// agent the weights of its lemmas add up to at most the divisor, 1 to 1,000.
struct Group {
  Number divisor = 1;
  std::vector<Use> uses = {};
};

/// A leaf of version 3: the numbers of lemmas of single agents, groups (at most K of each), and a price list or none.
struct Leaf {
  std::vector<Number> uses = {};
  std::vector<Group> groups = {};
  std::optional<Number> list = {};
};

/// Writes a certificate of version 3 to a stream: its price lists, then its lemmas, then a tree in pre-order. How many
/// lists and lemmas there are is said at the beginning.
class LemmaWriter : private detail::Writer {
 public:
  /// Writes the first lines. Throws std::invalid_argument if a size, the claim or a count is out of range.
  LemmaWriter(std::ostream& out, const Sizes& sizes, const Claim& claim, Number lists, Number lemmas)
      : Writer(out, sizes), lists_(lists), lemmas_(lemmas) {
    detail::require_range("The number of price lists", lists, 0, most_items);
    detail::require_range("The number of lemmas", lemmas, 0, most_items);
    detail::Lines lines = head("mapf-cert 3", claim);
    lines.add("prices", lists);
    if (lists == 0) lines.add("lemmas", lemmas);
    lines.write_to(out);
    open_ = 0;
    begin_tree_if_due();
  }

  /// Writes a price list, and answers its number.
  Number list(PriceList list) {
    require_due(written_lists_ < lists_, "No price list is due.");
    detail::require_range("The unit of a price list", list.unit, 1, 1000);
    put_in_range(list.prices);
    const auto key = [](const Price& price) {
      return std::tuple(price.tick, price.to.has_value(), price.cell, price.to.value_or(Cell{}));
    };
    detail::put_in_order(list.prices, key, "Two prices of a list are of the same cell or edge and tick.");
    detail::Lines lines;
    lines.add("list", list.unit, detail::count_of(list.prices.size()));
    for (const Price& price : list.prices) {
      if (price.to) {
        lines.add("price", price.cell, *price.to, price.tick, price.price);
      } else {
        lines.add("price", price.cell, price.tick, price.price);
      }
    }
    if (written_lists_ + 1 == lists_) lines.add("lemmas", lemmas_);
    lines.write_to(out_);
    const Number number = written_lists_++;
    begin_tree_if_due();
    return number;
  }

  /// Writes a lemma, and answers its number.
  Number lemma(One lemma) {
    require_lemma_due();
    ranges_.agent(lemma.agent);
    require_list(lemma.list);
    put_in_range(lemma.constraints, {lemma.agent});
    ranges_.entries(lemma.entries, most_label);
    detail::Lines lines;
    lines.add("one", lemma.agent, detail::count_of(lemma.constraints.size()), detail::count_of(lemma.entries.size()),
              lemma.list);
    add_constraints(lines, lemma.constraints);
    detail::add_entries(lines, lemma.entries);
    return write_lemma(lines);
  }
  Number lemma(Two lemma) {
    require_lemma_due();
    ranges_.agent(lemma.first);
    ranges_.agent(lemma.second);
    require_list(lemma.list);
    put_in_range(lemma.constraints, {lemma.first, lemma.second});
    ranges_.entries(lemma.first_entries, most_label);
    ranges_.entries(lemma.second_entries, most_label);
    put_in_range(lemma.joint_entries);
    detail::Lines lines;
    lines.add("two", lemma.first, lemma.second, detail::count_of(lemma.constraints.size()),
              detail::count_of(lemma.first_entries.size()), detail::count_of(lemma.second_entries.size()),
              detail::count_of(lemma.joint_entries.size()), lemma.list);
    add_constraints(lines, lemma.constraints);
    detail::add_entries(lines, lemma.first_entries);
    detail::add_entries(lines, lemma.second_entries);
    for (const JointEntry& entry : lemma.joint_entries) {
      lines.add("at", entry.first, entry.second, entry.tick, entry.label);
    }
    return write_lemma(lines);
  }
  Number lemma(Never lemma) {
    require_lemma_due();
    ranges_.agent(lemma.first);
    ranges_.agent(lemma.second);
    detail::require(!lemma.cells.empty(), "A lemma of joint cells has at least one pair of cells.");
    for (const auto& [first, second] : lemma.cells) {
      ranges_.cell(first);
      ranges_.cell(second);
    }
    std::sort(lemma.cells.begin(), lemma.cells.end());
    lemma.cells.erase(std::unique(lemma.cells.begin(), lemma.cells.end()), lemma.cells.end());
    detail::Lines lines;
    lines.add("never", lemma.first, lemma.second, detail::count_of(lemma.cells.size()));
    for (const auto& [first, second] : lemma.cells) lines.add("cells", first, second);
    return write_lemma(lines);
  }
  /// After this the nodes of the lemma's tree are due. They may use earlier lemmas.
  Number lemma(Cases lemma) {
    require_lemma_due();
    detail::require_range("The number of agents of a lemma by cases", detail::count_of(lemma.agents.size()), 1,
                          ranges_.agents());
    for (const Agent agent : lemma.agents) ranges_.agent(agent);
    detail::put_in_order(lemma.agents, [](Agent agent) { return agent; }, "Two agents of a lemma are the same.");
    put_in_range(lemma.constraints, lemma.agents);
    ranges_.label(lemma.bound, detail::most_cost);
    detail::Lines lines;
    lines.add("cases", detail::count_of(lemma.agents.size()), detail::count_of(lemma.constraints.size()), lemma.bound);
    for (const Agent agent : lemma.agents) lines.add("agent", agent);
    add_constraints(lines, lemma.constraints);
    lines.write_to(out_);
    open_ = 1;
    return written_lemmas_++;
  }

  /// Writes a split on a conflict or on costs.
  void split(const Split& split) {
    require_due(open_ > 0, "No node is due.");
    detail::Lines lines;
    if (split.kind == Split::Kind::vertex || split.kind == Split::Kind::swap) {
      add_conflict(lines, split, std::nullopt);
    } else {
      add_costs(lines, split);
    }
    write_node(lines, 1);
  }
  /// Writes a leaf. Throws std::invalid_argument if a lemma is used twice outside groups, or twice in a group.
  void leaf(Leaf leaf) {
    require_due(open_ > 0, "No node is due.");
    detail::require_range("The number of uses of a leaf", detail::count_of(leaf.uses.size()), 0, ranges_.agents());
    detail::require_range("The number of groups of a leaf", detail::count_of(leaf.groups.size()), 0, ranges_.agents());
    require_list(leaf.list);
    for (const Number lemma : leaf.uses) require_lemma(lemma);
    detail::put_in_order(leaf.uses, [](Number lemma) { return lemma; }, "A leaf uses a lemma twice.");
    for (Group& group : leaf.groups) put_in_range(group);
    detail::Lines lines;
    lines.add("leaf", detail::count_of(leaf.uses.size()), detail::count_of(leaf.groups.size()), leaf.list);
    for (const Number lemma : leaf.uses) lines.add("use", lemma);
    for (const Group& group : leaf.groups) {
      lines.add("group", detail::count_of(group.uses.size()), group.divisor);
      for (const Use& use : group.uses) lines.add("use", use.lemma, use.weight);
    }
    write_tree_node(lines, -1);
  }
  void clash(const Clash& clash) {
    write_clash(clash);
    begin_tree_if_due();
  }

  /// Writes the last line, without which the text is refused. Throws std::logic_error while lists, lemmas or nodes are
  /// due.
  void end() {
    require_due(written_lists_ == lists_ && written_lemmas_ == lemmas_, "Not all lists and lemmas were written.");
    write_end();
  }

 private:
  static constexpr Number most_items = 9'999'999'999;
  static constexpr Number most_label = 9'999'999'999;

  void require_lemma_due() const {
    require_due(written_lists_ == lists_ && open_ == 0 && written_lemmas_ < lemmas_, "No lemma is due.");
  }
  static void require_lemma(Number lemma) { detail::require_range("The number of a lemma", lemma, 0, most_items); }
  void require_list(std::optional<Number> list) const {
    if (!list) return;
    detail::require(lists_ > 0, "A price list is named, and the certificate has none.");
    detail::require_range("The number of a price list", *list, 0, lists_ - 1);
  }

  void put_in_range(std::vector<Price>& prices) const {
    prices.erase(std::remove_if(prices.begin(), prices.end(), [](const Price& price) { return price.price == 0; }),
                 prices.end());
    for (Price& price : prices) {
      ranges_.cell(price.cell);
      if (price.to) ranges_.cell(*price.to);
      detail::require(price.cell != price.to, "The two cells of a price are the same.");
      if (price.to && *price.to < price.cell) std::swap(price.cell, *price.to);
      detail::require_range("The tick of a price", price.tick, 0, detail::last_split);
      detail::require_range("A price", price.price, 1, detail::most_path);
    }
  }
  void put_in_range(std::vector<Constraint>& constraints, const std::vector<Agent>& agents) const {
    std::sort(constraints.begin(), constraints.end());
    constraints.erase(std::unique(constraints.begin(), constraints.end()), constraints.end());
    detail::require_range("The number of constraints of a lemma", detail::count_of(constraints.size()), 0, 1000);
    for (const Constraint& constraint : constraints) {
      detail::require(std::find(agents.begin(), agents.end(), constraint.agent) != agents.end(),
                      "The agent of a constraint isn't one of its lemma.");
      put_in_range(constraint);
    }
  }
  void put_in_range(const Constraint& constraint) const {
    using Kind = Constraint::Kind;
    const Kind kind = constraint.kind;
    if (kind != Kind::most && kind != Kind::least) ranges_.cell(constraint.cell);
    if (kind == Kind::not_move) ranges_.cell(constraint.to);
    const bool is_not = kind == Kind::not_at || kind == Kind::not_move;
    detail::require_range("The number of a constraint", constraint.number, 0,
                          is_not                ? detail::last_split
                          : kind == Kind::least ? detail::most_path
                                                : detail::most_path - 1);
  }
  void put_in_range(std::vector<JointEntry>& entries) const {
    for (const JointEntry& entry : entries) {
      detail::require(entry.first || entry.second, "A joint entry has at least one cell.");
      if (entry.first) ranges_.cell(*entry.first);
      if (entry.second) ranges_.cell(*entry.second);
      ranges_.entry_tick(entry.tick);
      ranges_.label(entry.label, most_label);
    }
    const auto key = [](const JointEntry& entry) {
      const int stars = !entry.first ? 1 : !entry.second ? 2 : 0;
      return std::tuple(entry.tick, stars, entry.first.value_or(Cell{}), entry.second.value_or(Cell{}));
    };
    detail::put_in_order(entries, key, "Two joint entries have the same cells and tick.");
  }
  static void put_in_range(Group& group) {
    detail::require_range("The number of uses of a group", detail::count_of(group.uses.size()), 1, 200'000);
    detail::require_range("The divisor of a group", group.divisor, 1, 1000);
    for (const Use& use : group.uses) {
      require_lemma(use.lemma);
      detail::require_range("The weight of a use", use.weight, 1, 1000);
    }
    detail::put_in_order(group.uses, [](const Use& use) { return use.lemma; }, "A group uses a lemma twice.");
  }

  static void add_constraints(detail::Lines& lines, const std::vector<Constraint>& constraints) {
    for (const Constraint& constraint : constraints) {
      switch (constraint.kind) {
        case Constraint::Kind::not_at:
          lines.add("not", constraint.agent, constraint.cell, constraint.number);
          break;
        case Constraint::Kind::not_move:
          lines.add("not", constraint.agent, constraint.cell, constraint.to, constraint.number);
          break;
        case Constraint::Kind::clear:
          lines.add("clear", constraint.agent, constraint.cell, constraint.number);
          break;
        case Constraint::Kind::most:
          lines.add("most", constraint.agent, constraint.number);
          break;
        case Constraint::Kind::least:
          lines.add("least", constraint.agent, constraint.number);
          break;
      }
    }
  }
  void add_costs(detail::Lines& lines, const Split& split) const {
    ranges_.agent(split.left);
    detail::require_range("The cost of a split", split.most, 0, detail::most_path - 1);
    if (split.kind == Split::Kind::cost) {
      lines.add("cost", split.left, split.most);
      return;
    }
    ranges_.agent(split.right);
    detail::require_range("The least cost of a split", split.least, 0, detail::most_path);
    require_lemma(split.lemma);
    lines.add("costs", split.left, split.most, split.right, split.least, split.lemma);
  }

  Number write_lemma(detail::Lines& lines) {
    lines.write_to(out_);
    const Number number = written_lemmas_++;
    begin_tree_if_due();
    return number;
  }
  void write_tree_node(detail::Lines& lines, Number change) {
    write_node(lines, change);
    begin_tree_if_due();
  }
  /// After the last lemma, with its tree, the tree of the certificate is due.
  void begin_tree_if_due() {
    if (open_ != 0 || written_lists_ != lists_ || written_lemmas_ != lemmas_ || is_last_) return;
    open_ = 1;
    is_last_ = true;
  }

  Number lists_;
  Number lemmas_;
  Number written_lists_ = 0;
  Number written_lemmas_ = 0;
  /// Whether the tree of the certificate has begun.
  bool is_last_ = false;
};

}  // namespace mapf_cert

#endif  // MAPF_CERT_LEMMAS_HPP
