// What the texts are about: cells, labels, claims, entries, splits and constraints.

#ifndef MAPF_CERT_TYPES_HPP
#define MAPF_CERT_TYPES_HPP

#include <cstdint>
#include <stdexcept>
#include <tuple>
#include <vector>

namespace mapf_cert {

/// A number of any text. It is signed, so that a value below 0 is refused and not misread.
using Number = std::int64_t;

/// An agent: the number of its row in the scenario, from 0 to K - 1.
using Agent = Number;

/// A point in time, from 0 on. A step leads from a tick to the next.
using Tick = Number;

/// Width and height of the map, 1 to 2,048 each, and the number K of agents, 1 to 200.
struct Sizes {
  Number width = 0;
  Number height = 0;
  Number agents = 0;
};

/// A cell: its column x, 0 to width - 1, and its row y, 0 to height - 1. Cells are compared by their numbers
/// y * width + x.
struct Cell {
  Number x = 0;
  Number y = 0;

  friend bool operator==(Cell one, Cell other) { return one.x == other.x && one.y == other.y; }
  friend bool operator!=(Cell one, Cell other) { return !(one == other); }
  friend bool operator<(Cell one, Cell other) { return std::tie(one.y, one.x) < std::tie(other.y, other.x); }
};

/// The cells of an agent at ticks 0, 1, and so on. After the last of them it stays there.
using Path = std::vector<Cell>;

/// A lower bound on a remaining cost: a number from 0 on, or infinite where the agent can't arrive any more.
class Label {
 public:
  /// Throws std::invalid_argument if the number is negative.
  constexpr Label(Number number) : number_(number) {
    if (number < 0) throw std::invalid_argument("A label is negative, and has to be 0 or more.");
  }
  static constexpr Label infinite() { return Label(); }
  constexpr bool is_infinite() const { return number_ < 0; }
  /// The number of a label that isn't infinite. Of one that is, -1.
  constexpr Number number() const { return number_; }

  friend constexpr bool operator==(Label one, Label other) { return one.number_ == other.number_; }
  friend constexpr bool operator!=(Label one, Label other) { return !(one == other); }
  friend constexpr bool operator<(Label one, Label other) { return one.order() < other.order(); }
  friend constexpr Label operator+(Label one, Label other) {
    return one.is_infinite() || other.is_infinite() ? infinite() : Label(one.number_ + other.number_);
  }

 private:
  constexpr Label() : number_(-1) {}
  constexpr std::uint64_t order() const { return static_cast<std::uint64_t>(number_); }

  Number number_;
};

/// What a certificate claims: that no valid plan costs less than a number, or that no plan is valid.
struct Claim {
  enum class Kind { cost, bound, impossible };
  Kind kind = Kind::impossible;
  Number number = 0;

  /// Beside a plan of this cost, 0 to 1,999,999,800: the plan is optimal.
  static Claim cost(Number number) { return {Kind::cost, number}; }
  /// Beside a `limit` answer with this bound; in version 3 also beside a plan that costs as much or more.
  static Claim bound(Number number) { return {Kind::bound, number}; }
  static Claim impossible() { return {}; }
};

/// A label of one agent: in the cell at the tick (0 to 9,999,999) it needs at least so many ticks more until its last
/// arrival. The label is 1 to 9,999,999 in version 2, 1 to 9,999,999,999 in version 3, or infinite.
struct Entry {
  Cell cell;
  Tick tick;
  Label label;
};

/// A split of a tree. Each factory says what its two children add.
struct Split {
  enum class Kind { vertex, swap, cost, costs };
  Kind kind = Kind::vertex;
  Agent left = 0;
  Agent right = 0;
  Cell cell;
  Cell to;
  Tick tick = 0;
  Number most = 0;
  Number least = 0;
  Number lemma = 0;

  /// Left: agent `left` isn't in the cell at the tick, 0 to 999,999. Right: agent `right` isn't.
  static Split vertex(Agent left, Agent right, Cell cell, Tick tick) {
    return {Kind::vertex, left, right, cell, {}, tick, 0, 0, 0};
  }
  /// Left: agent `left` doesn't go from `cell` at the tick to `to`. Right: agent `right` doesn't go back at that tick.
  /// The tick, 0 to 999,999, is that of departure.
  static Split swap(Agent left, Agent right, Cell cell, Cell to, Tick tick) {
    return {Kind::swap, left, right, cell, to, tick, 0, 0, 0};
  }
  /// In version 3. Left: the agent costs at most `most`, 0 to 9,999,998, and no other is at its goal from then on.
  /// Right: it costs more.
  static Split cost(Agent agent, Number most) { return {Kind::cost, agent, 0, {}, {}, 0, most, 0, 0}; }
  /// In version 3. As `cost`; and left: agent `other` costs at least `least`, 0 to 9,999,999, since both cost at least
  /// `most` + `least` by the lemma of this number.
  static Split costs(Agent agent, Number most, Agent other, Number least, Number lemma) {
    return {Kind::costs, agent, other, {}, {}, 0, most, least, lemma};
  }
};

/// A constraint of version 3 on one agent. Labels are also made under those of version 2, which are `not_at` and
/// `not_move`.
struct Constraint {
  enum class Kind { not_at, not_move, clear, most, least };
  Kind kind = Kind::not_at;
  Agent agent = 0;
  Cell cell = {};
  Cell to = {};
  Number number = 0;

  /// It isn't in the cell at the tick, 0 to 999,999.
  static Constraint not_at(Agent agent, Cell cell, Tick tick) { return {Kind::not_at, agent, cell, {}, tick}; }
  /// It doesn't go from `cell` at the tick, 0 to 999,999, to `to` at the next.
  static Constraint not_move(Agent agent, Cell cell, Cell to, Tick tick) {
    return {Kind::not_move, agent, cell, to, tick};
  }
  /// It isn't in the cell at the tick, 0 to 9,999,998, or later.
  static Constraint clear(Agent agent, Cell cell, Tick tick) { return {Kind::clear, agent, cell, {}, tick}; }
  /// Its path costs at most so much, 0 to 9,999,998.
  static Constraint most(Agent agent, Number cost) { return {Kind::most, agent, {}, {}, cost}; }
  /// Its path costs at least so much, 0 to 9,999,999.
  static Constraint least(Agent agent, Number cost) { return {Kind::least, agent, {}, {}, cost}; }

  friend bool operator==(const Constraint& one, const Constraint& other) { return one.key() == other.key(); }
  friend bool operator<(const Constraint& one, const Constraint& other) { return one.key() < other.key(); }

 private:
  std::tuple<Agent, Kind, Number, Cell, Cell> key() const { return {agent, kind, number, cell, to}; }
};

/// Two agents with the same goal, in place of a leaf.
struct Clash {
  Agent first = 0;
  Agent second = 0;
};

}  // namespace mapf_cert

#endif  // MAPF_CERT_TYPES_HPP
