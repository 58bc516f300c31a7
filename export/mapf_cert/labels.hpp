// Labels of single agents, for both versions.
//
// Each call takes the distances to the agent's goal, which also say where the goal is and which cells are free, and the
// constraints on this agent alone, whichever agent they name: those from the root to a node of version 2, or those of a
// lemma of version 3. It answers entries, and leaves out those that would not exceed the default, as the rules ask.

#ifndef MAPF_CERT_LABELS_HPP
#define MAPF_CERT_LABELS_HPP

#include <algorithm>
#include <cmath>
#include <cstddef>
#include <map>
#include <optional>
#include <set>
#include <stdexcept>
#include <tuple>
#include <utility>
#include <vector>

#include "lemmas.hpp"
#include "lines.hpp"
#include "types.hpp"

namespace mapf_cert {

namespace detail {

/// The map as the distances to a goal show it. A cell without a distance is blocked, or can't be on a path to the goal.
class Surroundings {
 public:
  Surroundings(const Sizes& sizes, const std::vector<Label>& distances, Cell start = {})
      : sizes_(sizes), distances_(distances) {
    Ranges(sizes).cell(start);
    require(count_of(distances.size()) == sizes.width * sizes.height, "The distances aren't as many as the cells.");
  }
  std::size_t number(Cell cell) const { return static_cast<std::size_t>(cell.y * sizes_.width + cell.x); }
  Label distance(Cell cell) const { return distances_[number(cell)]; }
  Cell cell(std::size_t number) const {
    const Number value = count_of(number);
    return {value % sizes_.width, value / sizes_.width};
  }
  /// Calls for each step of a cell, waiting included.
  template <class Visit>
  void for_each_step(Cell from, Visit visit) const {
    for (const Cell to : {from, Cell{from.x, from.y - 1}, Cell{from.x - 1, from.y}, Cell{from.x + 1, from.y},
                          Cell{from.x, from.y + 1}}) {
      const bool is_on_map = to.x >= 0 && to.y >= 0 && to.x < sizes_.width && to.y < sizes_.height;
      if (is_on_map && !distance(to).is_infinite()) visit(to);
    }
  }

 private:
  Sizes sizes_;
  const std::vector<Label>& distances_;
};

/// What the constraints on one agent bar.
class Bars {
 public:
  explicit Bars(const std::vector<Constraint>& constraints) {
    for (const Constraint& constraint : constraints) {
      add(constraint);
      if (constraint.kind != Constraint::Kind::least) last_ = std::max(last_, constraint.number);
    }
  }
  /// Whether the agent, which hasn't arrived for good before, can't be in a cell of this distance at the tick.
  bool is_barred(Cell cell, Tick tick, Label distance) const {
    const auto cleared = cleared_.find(cell);
    return cells_.count({cell, tick}) > 0 || (cleared != cleared_.end() && cleared->second <= tick) ||
           (most_ && Label(*most_) < distance + tick);
  }
  bool is_move_barred(Cell from, Cell to, Tick tick) const { return moves_.count({from, to, tick}) > 0; }
  bool may_rest(Cell goal, Tick tick) const {
    const auto later = cells_.lower_bound({goal, tick});
    const bool is_barred_later = later != cells_.end() && later->first == goal;
    return !is_barred_later && cleared_.count(goal) == 0 && tick >= least_;
  }
  /// The label of a state without an entry.
  Label otherwise(Label distance, Tick tick, Number unit) const {
    if (distance.is_infinite()) return distance;
    return Label(unit * std::max(distance.number(), least_ - tick));
  }
  /// The greatest number of a constraint that isn't `least`, 0 if there is none. After it nothing new is barred.
  Tick last() const { return last_; }

 private:
  void add(const Constraint& constraint) {
    switch (constraint.kind) {
      case Constraint::Kind::not_at:
        cells_.insert({constraint.cell, constraint.number});
        break;
      case Constraint::Kind::not_move:
        moves_.insert({constraint.cell, constraint.to, constraint.number});
        break;
      case Constraint::Kind::clear: {
        const auto place = cleared_.emplace(constraint.cell, constraint.number).first;
        place->second = std::min(place->second, constraint.number);
        break;
      }
      case Constraint::Kind::most:
        most_ = most_ ? std::min(*most_, constraint.number) : constraint.number;
        break;
      case Constraint::Kind::least:
        least_ = std::max(least_, constraint.number);
        break;
    }
  }

  std::set<std::pair<Cell, Tick>> cells_;
  std::set<std::tuple<Cell, Cell, Tick>> moves_;
  std::map<Cell, Tick> cleared_;
  std::optional<Number> most_;
  Number least_ = 0;
  Tick last_ = 0;
};

/// The prices of a list by cell or edge and tick.
class PriceTable {
 public:
  explicit PriceTable(const PriceList& list) {
    for (const Price& price : list.prices) {
      if (price.to) {
        edges_[{std::min(price.cell, *price.to), std::max(price.cell, *price.to), price.tick}] += price.price;
      } else {
        cells_[{price.cell, price.tick}] += price.price;
      }
      last_ = std::max(last_, price.tick);
    }
  }
  Number of_cell(Cell cell, Tick tick) const {
    const auto found = cells_.find({cell, tick});
    return found == cells_.end() ? 0 : found->second;
  }
  Number of_edge(Cell from, Cell to, Tick tick) const {
    const auto found = edges_.find({std::min(from, to), std::max(from, to), tick});
    return found == edges_.end() ? 0 : found->second;
  }
  /// What an agent pays that rests in a cell from a tick on: the prices at all later ticks.
  Number of_rest(Cell cell, Tick tick) const {
    Number sum = 0;
    for (auto at = cells_.upper_bound({cell, tick}); at != cells_.end() && at->first.first == cell; ++at) {
      sum += at->second;
    }
    return sum;
  }
  /// The last tick with a price, 0 if there is none.
  Tick last() const { return last_; }

 private:
  std::map<std::pair<Cell, Tick>, Number> cells_;
  std::map<std::tuple<Cell, Cell, Tick>, Number> edges_;
  Tick last_ = 0;
};

}  // namespace detail

/// The distance of each cell to a goal, in the order of their numbers: the least number of steps, without constraints
/// and other agents, and infinite where no path leads to the goal. `is_free` takes a cell of the map, and says whether
/// it is free.
template <class IsFree>
std::vector<Label> distances(const Sizes& sizes, Cell goal, IsFree is_free) {
  const detail::Ranges ranges(sizes);
  ranges.cell(goal);
  std::vector<Label> found(static_cast<std::size_t>(sizes.width * sizes.height), Label::infinite());
  const auto label = [&](Cell cell) -> Label& {
    return found[static_cast<std::size_t>(cell.y * sizes.width + cell.x)];
  };
  std::vector<Cell> queue;
  const auto reach = [&](Cell cell, Number steps) {
    const bool is_on_map = cell.x >= 0 && cell.y >= 0 && cell.x < sizes.width && cell.y < sizes.height;
    if (!is_on_map || !label(cell).is_infinite() || !is_free(cell)) return;
    label(cell) = Label(steps);
    queue.push_back(cell);
  };
  reach(goal, 0);
  for (std::size_t next = 0; next < queue.size(); ++next) {
    const Cell cell = queue[next];
    const Number steps = label(cell).number() + 1;
    for (const Cell to : {Cell{cell.x, cell.y - 1}, Cell{cell.x - 1, cell.y}, Cell{cell.x + 1, cell.y},
                          Cell{cell.x, cell.y + 1}}) {
      reach(to, steps);
    }
  }
  return found;
}

/// The labels that show that an agent costs at least `cost` under constraints: its least cost there, as its low-level
/// search found it, or less, or infinite if the constraints leave no path. They are of states that the agent can reach
/// from its start, and of which a label has to exceed the default. There are none if the default of the start is as
/// much as the cost.
///
/// Throws std::invalid_argument if the agent can arrive at a lower cost; and for an infinite cost if it can still go on
/// after the last tick of its constraints, since then no entries of finitely many ticks show it.
inline std::vector<Entry> labels_of_cost(const Sizes& sizes, const std::vector<Label>& distances, Cell start,
                                         const std::vector<Constraint>& constraints, Label cost) {
  const detail::Surroundings map(sizes, distances, start);
  const detail::Bars bars(constraints);
  const auto remaining = [&](Tick tick) {
    return cost.is_infinite() ? cost : Label(std::max<Number>(cost.number() - tick, 0));
  };
  std::vector<Entry> entries;
  std::vector<Cell> layer;
  std::vector<Tick> reached(distances.size(), -1);
  const auto reach = [&](Cell cell, Tick tick, std::vector<Cell>& cells) {
    const bool is_default_enough = !(bars.otherwise(map.distance(cell), tick, 1) < remaining(tick));
    if (is_default_enough || reached[map.number(cell)] == tick) return;
    reached[map.number(cell)] = tick;
    entries.push_back({cell, tick, remaining(tick)});
    cells.push_back(cell);
  };
  reach(start, 0, layer);
  if (bars.is_barred(start, 0, map.distance(start))) return entries;
  for (Tick tick = 0; !layer.empty(); ++tick) {
    detail::require(!cost.is_infinite() || tick <= bars.last(),
                    "The agent can go on after its constraints, so no entries show that its cost is infinite.");
    std::vector<Cell> next;
    for (const Cell cell : layer) {
      detail::require(map.distance(cell) != Label(0) || !bars.may_rest(cell, tick),
                      "The agent can arrive at a lower cost than the one that is to be shown.");
      map.for_each_step(cell, [&](Cell to) {
        const bool is_barred = bars.is_barred(to, tick + 1, map.distance(to)) || bars.is_move_barred(cell, to, tick);
        if (!is_barred) reach(to, tick + 1, next);
      });
    }
    layer = std::move(next);
  }
  return entries;
}

/// The greatest labels that hold, of each state that the agent can reach from its start: the least cost from there,
/// times the unit of the list, plus the least that it pays. Without a list these are the least costs alone, so they are
/// labels of version 2 too, under `not_at` and `not_move`.
///
/// States up to the tick `horizon` get labels; without one, those up to the last tick of a constraint and of a price.
/// After it the defaults count, which is exact unless there is a constraint `clear` or `most`. It takes time and memory
/// for each cell at each tick.
inline std::vector<Entry> exact_labels(const Sizes& sizes, const std::vector<Label>& distances, Cell start,
                                       const std::vector<Constraint>& constraints, const PriceList& list = {},
                                       std::optional<Tick> horizon = std::nullopt) {
  const detail::Surroundings map(sizes, distances, start);
  const detail::Bars bars(constraints);
  const detail::PriceTable prices(list);
  const Tick last = horizon.value_or(std::max(bars.last(), prices.last()));
  if (map.distance(start).is_infinite()) return {};
  if (bars.is_barred(start, 0, map.distance(start))) return {{start, 0, Label::infinite()}};
  const auto for_each_way = [&](Cell from, Tick tick, auto visit) {
    map.for_each_step(from, [&](Cell to) {
      const bool is_barred = bars.is_barred(to, tick + 1, map.distance(to)) || bars.is_move_barred(from, to, tick);
      if (!is_barred) visit(to);
    });
  };

  std::vector<std::vector<Cell>> layers{{start}};
  std::vector<Tick> reached(distances.size(), -1);
  for (Tick tick = 0; tick < last; ++tick) {
    std::vector<Cell> next;
    for (const Cell cell : layers.back()) {
      for_each_way(cell, tick, [&](Cell to) {
        if (reached[map.number(to)] != tick + 1) next.push_back(to);
        reached[map.number(to)] = tick + 1;
      });
    }
    layers.push_back(std::move(next));
  }

  std::vector<Entry> entries;
  std::vector<Label> later(distances.size(), Label::infinite());
  std::vector<Label> now = later;
  for (Tick tick = last; tick >= 0; --tick) {
    for (const Cell cell : layers[static_cast<std::size_t>(tick)]) {
      Label least = Label::infinite();
      if (map.distance(cell) == Label(0) && bars.may_rest(cell, tick)) least = Label(prices.of_rest(cell, tick));
      for_each_way(cell, tick, [&](Cell to) {
        const Number pays = list.unit + prices.of_edge(cell, to, tick) + prices.of_cell(to, tick + 1);
        const Label default_after = bars.otherwise(map.distance(to), tick + 1, list.unit);
        const Label after = tick == last ? default_after : later[map.number(to)];
        least = std::min(least, after + Label(pays));
      });
      now[map.number(cell)] = least;
      if (bars.otherwise(map.distance(cell), tick, list.unit) < least) entries.push_back({cell, tick, least});
    }
    std::swap(now, later);
  }
  return entries;
}

/// The entries of a table of lower bounds that a solver holds already, such as the backward distances under the
/// constraints of a node: the row of each tick from 0 on has the bound of each cell, in the order of their numbers.
/// With prices, `unit` is that of their list, and `least` the greatest number of a constraint `least`.
inline std::vector<Entry> labels_above(const Sizes& sizes, const std::vector<Label>& distances,
                                       const std::vector<std::vector<Label>>& table, Number unit = 1,
                                       Number least = 0) {
  const detail::Surroundings map(sizes, distances);
  const detail::Bars bars({Constraint::least(0, least)});
  std::vector<Entry> entries;
  for (std::size_t row = 0; row < table.size(); ++row) {
    detail::require(table[row].size() == distances.size(), "A row of the table has another number of cells.");
    const Tick tick = detail::count_of(row);
    for (std::size_t number = 0; number < distances.size(); ++number) {
      if (bars.otherwise(distances[number], tick, unit) < table[row][number]) {
        entries.push_back({map.cell(number), tick, table[row][number]});
      }
    }
  }
  return entries;
}

/// The bound of a lemma of one agent with these entries, in parts of a tick of its list: the label of the start at tick
/// 0, which is the default if it has no entry, plus the price of the start at tick 0. Of a block it is the start label.
inline Label bound_of_one(const Sizes& sizes, const std::vector<Label>& distances, Cell start,
                          const std::vector<Constraint>& constraints, const std::vector<Entry>& entries,
                          const PriceList& list = {}) {
  const detail::Surroundings map(sizes, distances, start);
  const auto is_of_start = [&](const Entry& entry) { return entry.tick == 0 && entry.cell == start; };
  const auto found = std::find_if(entries.begin(), entries.end(), is_of_start);
  const Label otherwise = detail::Bars(constraints).otherwise(map.distance(start), 0, list.unit);
  return (found == entries.end() ? otherwise : found->label) + detail::PriceTable(list).of_cell(start, 0);
}

/// A price in parts of a tick from the dual value of a linear program in ticks, rounded, and 0 if it isn't positive.
/// (The row 'at most one agent is here' of a program that minimises has a dual value of 0 or less: turn its sign.)
inline Number whole_price(double dual, Number unit) {
  const double parts = std::round(dual * static_cast<double>(unit));
  return parts > 0 ? static_cast<Number>(std::min(parts, static_cast<double>(detail::most_path))) : 0;
}

}  // namespace mapf_cert

#endif  // MAPF_CERT_LABELS_HPP
