// How lines are spelled, and what the writers of both versions share.

#ifndef MAPF_CERT_LINES_HPP
#define MAPF_CERT_LINES_HPP

#include <algorithm>
#include <charconv>
#include <cstddef>
#include <optional>
#include <ostream>
#include <stdexcept>
#include <string>
#include <utility>
#include <vector>

#include "types.hpp"

namespace mapf_cert {

namespace detail {

constexpr Number most_cost = 1'999'999'800;
constexpr Number most_path = 9'999'999;
constexpr Number last_split = 999'999;

inline void require(bool holds, const char* sentence) {
  if (!holds) throw std::invalid_argument(sentence);
}

inline void require_range(const char* what, Number value, Number least, Number most) {
  if (value >= least && value <= most) return;
  throw std::invalid_argument(std::string(what) + " is " + std::to_string(value) + ", and has to be from " +
                              std::to_string(least) + " to " + std::to_string(most) + ".");
}

inline Number count_of(std::size_t size) { return static_cast<Number>(size); }

/// Puts items in the order of their keys. Two items of one key are refused.
template <class Item, class Key>
void put_in_order(std::vector<Item>& items, Key key, const char* sentence) {
  const auto precedes = [&key](const Item& one, const Item& other) { return key(one) < key(other); };
  const auto follows_not = [&key](const Item& one, const Item& other) { return !(key(one) < key(other)); };
  if (!std::is_sorted(items.begin(), items.end(), precedes)) std::sort(items.begin(), items.end(), precedes);
  require(std::adjacent_find(items.begin(), items.end(), follows_not) == items.end(), sentence);
}

/// Lines that are put together before they are written, so that an item with an error leaves nothing.
class Lines {
 public:
  template <class... Words>
  void add(const char* word, const Words&... words) {
    text_ += word;
    ((text_ += ' ', put(words)), ...);
    text_ += '\n';
  }
  /// Adds to a line that `end_line` ends.
  template <class Word>
  void add_word(const Word& word) {
    text_ += ' ';
    put(word);
  }
  void begin_line(const char* word) { text_ += word; }
  void end_line() { text_ += '\n'; }

  void write_to(std::ostream& out) {
    out.write(text_.data(), static_cast<std::streamsize>(text_.size()));
    if (!out) throw std::runtime_error("The stream took no more.");
  }
  void write_last_to(std::ostream& out) {
    write_to(out);
    out.flush();
    if (!out) throw std::runtime_error("The stream took no more.");
  }

 private:
  void put(const char* word) { text_ += word; }
  void put(Number number) {
    char digits[20];
    const auto end = std::to_chars(digits, digits + sizeof digits, number);
    text_.append(digits, end.ptr);
  }
  void put(Cell cell) {
    put(cell.x);
    text_ += ',';
    put(cell.y);
  }
  void put(Label label) {
    if (label.is_infinite()) {
      text_ += "inf";
    } else {
      put(label.number());
    }
  }
  void put(std::optional<Cell> cell) { cell ? put(*cell) : put("*"); }
  void put(std::optional<Number> list) { list ? put(*list) : put("-"); }

  std::string text_;
};

/// The ranges that a problem's sizes give.
class Ranges {
 public:
  explicit Ranges(const Sizes& sizes) : sizes_(sizes) {
    require_range("The width of the map", sizes.width, 1, 2048);
    require_range("The height of the map", sizes.height, 1, 2048);
    require_range("The number of agents", sizes.agents, 1, 200);
  }
  Number agents() const { return sizes_.agents; }
  void agent(Agent number) const { require_range("An agent", number, 0, sizes_.agents - 1); }
  void cell(Cell place) const {
    require_range("The column of a cell", place.x, 0, sizes_.width - 1);
    require_range("The row of a cell", place.y, 0, sizes_.height - 1);
  }
  static void label(Label bound, Number most) {
    if (!bound.is_infinite()) require_range("A label", bound.number(), 1, most);
  }
  static void entry_tick(Tick tick) { require_range("The tick of an entry", tick, 0, most_path); }
  static void split_tick(Tick tick) { require_range("The tick of a split", tick, 0, last_split); }

  /// Checks entries of one agent and puts them in order.
  void entries(std::vector<Entry>& listed, Number most_label) const {
    for (const Entry& entry : listed) {
      cell(entry.cell);
      entry_tick(entry.tick);
      label(entry.label, most_label);
    }
    put_in_order(listed, [](const Entry& entry) { return std::tie(entry.tick, entry.cell); },
                 "Two entries of an agent have the same cell and tick.");
  }

 private:
  Sizes sizes_;
};

inline void add_entries(Lines& lines, const std::vector<Entry>& entries) {
  for (const Entry& entry : entries) lines.add("at", entry.cell, entry.tick, entry.label);
}

/// What the writers of both versions share: the first lines, and that each tree is complete.
class Writer {
 public:
  Writer(const Writer&) = delete;
  Writer& operator=(const Writer&) = delete;

 protected:
  Writer(std::ostream& out, const Sizes& sizes) : ranges_(sizes), out_(out) {}

  /// The first three lines.
  Lines head(const char* version, const Claim& claim) const {
    Lines lines;
    lines.add(version);
    lines.add("agents", ranges_.agents());
    if (claim.kind == Claim::Kind::impossible) {
      lines.add("claim", "impossible");
    } else {
      require_range("The claimed number", claim.number, 0, most_cost);
      lines.add("claim", claim.kind == Claim::Kind::cost ? "cost" : "bound", claim.number);
    }
    return lines;
  }
  static void require_due(bool is_due, const char* sentence) {
    if (!is_due) throw std::logic_error(sentence);
  }
  void add_conflict(Lines& lines, const Split& split, std::optional<Number> blocks) const {
    ranges_.agent(split.left);
    ranges_.agent(split.right);
    ranges_.cell(split.cell);
    if (split.kind == Split::Kind::swap) ranges_.cell(split.to);
    ranges_.split_tick(split.tick);
    lines.begin_line(split.kind == Split::Kind::swap ? "swap" : "vertex");
    lines.add_word(split.left);
    lines.add_word(split.right);
    lines.add_word(split.cell);
    if (split.kind == Split::Kind::swap) lines.add_word(split.to);
    lines.add_word(split.tick);
    if (blocks) lines.add_word(*blocks);
    lines.end_line();
  }
  void write_clash(const Clash& clash) {
    require_due(open_ > 0, "No node is due.");
    ranges_.agent(clash.first);
    ranges_.agent(clash.second);
    Lines lines;
    lines.add("clash", clash.first, clash.second);
    write_node(lines, -1);
  }
  /// Writes a node after which so many more trees are due than before.
  void write_node(Lines& lines, Number change) {
    lines.write_to(out_);
    open_ += change;
  }
  void write_end() {
    require_due(open_ >= 0, "The text has ended.");
    require_due(open_ == 0, "The tree isn't complete.");
    Lines lines;
    lines.add("end");
    lines.write_last_to(out_);
    open_ = -1;
  }

  Ranges ranges_;
  std::ostream& out_;
  /// How many trees are due. Below 0 the text has ended.
  Number open_ = 1;
};

}  // namespace detail

/// Visits the nodes of a tree in pre-order, without recursion. `visit` takes the name of a node, of any type, writes
/// the node, and answers the names of its children as std::optional<std::pair<Name, Name>>.
template <class Name, class Visit>
void in_pre_order(Name root, Visit visit) {
  std::vector<Name> due{root};
  while (!due.empty()) {
    const Name name = due.back();
    due.pop_back();
    if (const std::optional<std::pair<Name, Name>> children = visit(name)) {
      due.push_back(children->second);
      due.push_back(children->first);
    }
  }
}

}  // namespace mapf_cert

#endif  // MAPF_CERT_LINES_HPP
