// A small conflict-based search (Sharon et al. 2015) that writes a plan text and a certificate of version 2.
//
//   g++ -std=c++17 -O2 export/example_solver.cpp -o example_solver
//   ./example_solver MAP SCEN K PLAN CERT [SPLITS]
//
// It prints `cost C`, `bound B` after so many splits (1,000 if none are given), or `impossible`. A checker judges the
// two files that it writes: mapf check MAP SCEN K PLAN CERT.
//
// What a solver does for its certificate is in `write_certificate` and `blocks_of`. It needs the finished tree alone.
// The search itself is as plain as can be.

#include <algorithm>
#include <exception>
#include <fstream>
#include <iostream>
#include <optional>
#include <queue>
#include <set>
#include <stdexcept>
#include <string>
#include <tuple>
#include <utility>
#include <vector>

#include "mapf_cert.hpp"

using namespace mapf_cert;

namespace {

/// The item of a vector or text at a place that is a signed number.
template <class Items>
auto& item(Items& items, Number place) {
  return items.at(static_cast<std::size_t>(place));
}

struct Problem {
  Sizes sizes;
  std::vector<std::string> rows;
  std::vector<Cell> starts, goals;
  /// Of each agent the distance of each cell to its goal.
  std::vector<std::vector<Label>> distances;

  bool is_free(Cell cell) const {
    const bool is_on_map = cell.x >= 0 && cell.y >= 0 && cell.x < sizes.width && cell.y < sizes.height;
    return is_on_map && std::string(".GS").find(item(item(rows, cell.y), cell.x)) != std::string::npos;
  }
  Label distance(Agent agent, Cell cell) const { return item(item(distances, agent), cell.y * sizes.width + cell.x); }
};

template <class Stream>
Stream opened(const std::string& name) {
  Stream stream(name, std::ios::binary);
  if (!stream) throw std::runtime_error(name + " can't be opened");
  return stream;
}

Problem read_problem(const std::string& map_name, const std::string& scen_name, Number agents) {
  Problem problem;
  problem.sizes.agents = agents;
  std::string word;
  auto map = opened<std::ifstream>(map_name);
  map >> word >> word >> word >> problem.sizes.height >> word >> problem.sizes.width >> word;
  for (std::string row; map >> row;) problem.rows.push_back(row);
  auto scen = opened<std::ifstream>(scen_name);
  scen >> word >> word;
  for (Agent agent = 0; agent < agents; ++agent) {
    Cell start, goal;
    for (int field = 0; field < 4; ++field) scen >> word;
    scen >> start.x >> start.y >> goal.x >> goal.y >> word;
    if (!scen || !problem.is_free(start) || !problem.is_free(goal)) throw std::runtime_error("a row of " + scen_name);
    problem.starts.push_back(start);
    problem.goals.push_back(goal);
    problem.distances.push_back(distances(problem.sizes, goal, [&](Cell cell) { return problem.is_free(cell); }));
  }
  return problem;
}

/// A cheapest path of an agent under constraints, by A* over cells and ticks. None if the constraints leave no path.
std::optional<Path> cheapest_path(const Problem& problem, Agent agent, const std::vector<Constraint>& constraints) {
  struct State {
    Cell cell;
    Tick tick;
    std::size_t before;
  };
  const std::set<Constraint> barred(constraints.begin(), constraints.end());
  const Cell start = item(problem.starts, agent), goal = item(problem.goals, agent);
  // From tick `quiet` on no constraint holds, so all ticks are alike. From `stay` on the agent may rest at its goal.
  Tick quiet = 0, stay = 0;
  for (const Constraint& constraint : constraints) {
    quiet = std::max(quiet, constraint.number + 1);
    const bool is_at_goal = constraint.kind == Constraint::Kind::not_at && constraint.cell == goal;
    if (is_at_goal) stay = std::max(stay, constraint.number + 1);
  }
  std::vector<State> states;
  std::set<std::pair<Cell, Tick>> met;
  std::priority_queue<std::tuple<Number, Number, std::size_t>> open;
  const auto reach = [&](Cell cell, Tick tick, std::size_t before) {
    const Label distance = problem.distance(agent, cell);
    if (distance.is_infinite() || barred.count(Constraint::not_at(agent, cell, tick)) > 0) return;
    if (!met.insert({cell, std::min(tick, quiet)}).second) return;
    states.push_back({cell, tick, before});
    open.push({-(tick + distance.number()), tick, states.size() - 1});
  };
  reach(start, 0, 0);
  while (!open.empty()) {
    std::size_t at = std::get<2>(open.top());
    const State state = states[at];
    open.pop();
    if (state.cell == goal && state.tick >= stay) {
      Path path{goal};
      for (; states[at].tick > 0; at = states[at].before) path.push_back(states[states[at].before].cell);
      std::reverse(path.begin(), path.end());
      return path;
    }
    for (const auto& [dx, dy] : std::vector<std::pair<Number, Number>>{{0, -1}, {-1, 0}, {1, 0}, {0, 1}, {0, 0}}) {
      const Cell to{state.cell.x + dx, state.cell.y + dy};
      if (!problem.is_free(to) || barred.count(Constraint::not_move(agent, state.cell, to, state.tick)) > 0) continue;
      reach(to, state.tick + 1, at);
    }
  }
  return std::nullopt;
}

/// The first conflict of a plan, as a split.
std::optional<Split> first_conflict(const std::vector<Path>& paths) {
  std::size_t ticks = 0;
  for (const Path& path : paths) ticks = std::max(ticks, path.size());
  const auto cell = [&](std::size_t agent, std::size_t tick) {
    return paths[agent][std::min(tick, paths[agent].size() - 1)];
  };
  for (std::size_t tick = 0; tick < ticks; ++tick) {
    for (std::size_t i = 0; i < paths.size(); ++i) {
      for (std::size_t j = i + 1; j < paths.size(); ++j) {
        const auto [first, second, now] = std::tuple<Agent, Agent, Tick>(i, j, tick);
        const Cell here = cell(i, tick), there = cell(j, tick);
        const bool is_swap = cell(i, tick + 1) == there && cell(j, tick + 1) == here;
        if (here == there) return Split::vertex(first, second, here, now);
        if (is_swap) return Split::swap(first, second, here, there, now);
      }
    }
  }
  return std::nullopt;
}

/// A node of the constraint tree, with the constraint that its parent's split adds.
struct SearchNode {
  std::size_t parent = 0;
  std::optional<Constraint> constraint;
  /// The least cost of the constrained agent under its constraints.
  Label agent_cost = Label::infinite();
  std::vector<Path> paths;
  Number cost = 0;
  std::optional<Split> split;
  std::size_t left = 0, right = 0;
};

class Search {
 public:
  explicit Search(const Problem& problem) : problem_(problem) {}
  /// Searches for an optimal plan, and answers what the finished tree shows.
  Claim run(Number most_splits) {
    nodes_.emplace_back();
    if (!find_clash() && fill_root()) open_.push({0, 0});
    while (!open_.empty()) {
      const std::size_t at = open_.top().second;
      open_.pop();
      const std::optional<Split> conflict = first_conflict(nodes_[at].paths);
      if (!conflict) {
        best_ = at;
        return Claim::cost(nodes_[at].cost);
      }
      if (splits_ == most_splits) return Claim::bound(nodes_[at].cost);
      split(at, *conflict);
    }
    return Claim::impossible();
  }

  void write_plan_text(std::ostream& out, const Claim& claim) const {
    if (claim.kind == Claim::Kind::cost) write_plan(out, problem_.sizes, nodes_[best_].paths);
    if (claim.kind == Claim::Kind::bound) write_limit(out, problem_.sizes, splits_, claim.number);
    if (claim.kind == Claim::Kind::impossible) write_impossible(out, problem_.sizes);
  }

  /// Writes the tree. The labels follow from costs and constraints, so the search kept nothing else for them.
  void write_certificate(std::ostream& out, const Claim& claim) const {
    TreeWriter writer(out, problem_.sizes, claim);
    in_pre_order(std::size_t{0}, [&](std::size_t at) -> std::optional<std::pair<std::size_t, std::size_t>> {
      const SearchNode& node = nodes_[at];
      if (clash_) {
        writer.clash(*clash_);
      } else if (node.split) {
        writer.split(*node.split, blocks_of(at));
        return std::pair(node.left, node.right);
      } else {
        writer.leaf(blocks_of(at));
      }
      return std::nullopt;
    });
    writer.end();
  }

 private:
  /// Two agents with the same goal have no valid plan, and the search would never end.
  bool find_clash() {
    for (Agent j = 0; j < problem_.sizes.agents; ++j) {
      for (Agent i = 0; i < j; ++i) {
        if (item(problem_.goals, i) == item(problem_.goals, j)) clash_ = Clash{i, j};
      }
    }
    return clash_.has_value();
  }
  bool fill_root() {
    for (Agent agent = 0; agent < problem_.sizes.agents; ++agent) {
      std::optional<Path> path = cheapest_path(problem_, agent, {});
      if (!path) return false;
      nodes_[0].cost += static_cast<Number>(path->size()) - 1;
      nodes_[0].paths.push_back(std::move(*path));
    }
    return true;
  }
  void split(std::size_t at, const Split& conflict) {
    ++splits_;
    const bool is_swap = conflict.kind == Split::Kind::swap;
    const auto [left, right, cell, to, tick] =
        std::tuple(conflict.left, conflict.right, conflict.cell, conflict.to, conflict.tick);
    nodes_[at].split = conflict;
    nodes_[at].left = add_child(at, is_swap ? Constraint::not_move(left, cell, to, tick)
                                            : Constraint::not_at(left, cell, tick));
    nodes_[at].right = add_child(at, is_swap ? Constraint::not_move(right, to, cell, tick)
                                             : Constraint::not_at(right, cell, tick));
    nodes_[at].paths.clear();
  }
  std::size_t add_child(std::size_t parent, const Constraint& constraint) {
    const std::size_t at = nodes_.size();
    SearchNode child;
    child.parent = parent;
    child.constraint = constraint;
    nodes_.push_back(child);
    const Agent agent = constraint.agent;
    const std::optional<Path> path = cheapest_path(problem_, agent, constraints_of(at, agent));
    if (!path) return at;
    SearchNode& node = nodes_[at];
    node.paths = nodes_[parent].paths;
    item(node.paths, agent) = *path;
    node.agent_cost = static_cast<Number>(path->size()) - 1;
    for (const Path& each : node.paths) node.cost += static_cast<Number>(each.size()) - 1;
    open_.push({-node.cost, at});
    return at;
  }
  /// The constraints on an agent from the root to a node.
  std::vector<Constraint> constraints_of(std::size_t at, Agent agent) const {
    std::vector<Constraint> found;
    for (; nodes_[at].constraint; at = nodes_[at].parent) {
      if (nodes_[at].constraint->agent == agent) found.push_back(*nodes_[at].constraint);
    }
    return found;
  }
  /// The block of the agent that the split above constrains. It has no entries if the distances say as much.
  std::vector<Block> blocks_of(std::size_t at) const {
    if (!nodes_[at].constraint) return {};
    const Agent agent = nodes_[at].constraint->agent;
    return {{agent, labels_of_cost(problem_.sizes, item(problem_.distances, agent), item(problem_.starts, agent),
                                   constraints_of(at, agent), nodes_[at].agent_cost)}};
  }

  const Problem& problem_;
  std::vector<SearchNode> nodes_;
  /// The open nodes. One of least cost is at the top.
  std::priority_queue<std::pair<Number, std::size_t>> open_;
  std::optional<Clash> clash_;
  std::size_t best_ = 0;
  Number splits_ = 0;
};

void run(const std::vector<std::string>& words) {
  if (words.size() < 5) throw std::runtime_error("use: example_solver MAP SCEN K PLAN CERT [SPLITS]");
  const Problem problem = read_problem(words[0], words[1], std::stoll(words[2]));
  Search search(problem);
  const Claim claim = search.run(words.size() > 5 ? std::stoll(words[5]) : 1000);
  auto plan = opened<std::ofstream>(words[3]);
  search.write_plan_text(plan, claim);
  auto certificate = opened<std::ofstream>(words[4]);
  search.write_certificate(certificate, claim);
  if (claim.kind == Claim::Kind::impossible) std::cout << "impossible\n";
  if (claim.kind == Claim::Kind::cost) std::cout << "cost " << claim.number << "\n";
  if (claim.kind == Claim::Kind::bound) std::cout << "bound " << claim.number << "\n";
}

}  // namespace

int main(int count, char** words) {
  try {
    run(std::vector<std::string>(words + 1, words + count));
    return 0;
  } catch (const std::exception& error) {
    std::cerr << "example_solver: " << error.what() << "\n";
  }
  return 2;
}
