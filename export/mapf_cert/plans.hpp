// Plan texts.

#ifndef MAPF_CERT_PLANS_HPP
#define MAPF_CERT_PLANS_HPP

#include <cstddef>
#include <optional>
#include <ostream>
#include <utility>
#include <vector>

#include "lines.hpp"
#include "types.hpp"

namespace mapf_cert {

/// Writes a plan text with K paths, in version 2 or 1, and answers its cost. Repeated last cells of a path are
/// left out. Each path has at least one cell, and costs 9,999,999 at most. That the plan is valid isn't judged.
inline Number write_plan(std::ostream& out, const Sizes& sizes, std::vector<Path> paths, int version = 2) {
  const detail::Ranges ranges(sizes);
  detail::require_range("The version of a plan text", version, 1, 2);
  detail::require_range("The number of paths", detail::count_of(paths.size()), sizes.agents, sizes.agents);
  Number sum = 0;
  for (Path& path : paths) {
    detail::require(!path.empty(), "A path has at least one cell.");
    for (const Cell cell : path) ranges.cell(cell);
    while (path.size() > 1 && path[path.size() - 2] == path.back()) path.pop_back();
    detail::require_range("The cost of a path", detail::count_of(path.size()) - 1, 0, detail::most_path);
    sum += detail::count_of(path.size()) - 1;
  }
  detail::Lines lines;
  lines.add("mapf-plan", version);
  lines.add("agents", sizes.agents);
  lines.add("cost", sum);
  for (std::size_t agent = 0; agent < paths.size(); ++agent) {
    lines.begin_line("path");
    lines.add_word(detail::count_of(agent));
    lines.add_word(detail::count_of(paths[agent].size()) - 1);
    for (const Cell cell : paths[agent]) lines.add_word(cell);
    lines.end_line();
  }
  lines.add("end");
  lines.write_last_to(out);
  return sum;
}

/// Writes a plan text without a plan, which stands beside `claim bound`: the search ended after so many splits, or
/// without a number because a conflict at tick 1,000,000 or later would have to be split. The number is 0 to 100,000.
/// Nothing is compared with it, so give 100,000 if there were more. No valid plan costs less than the bound. Without a
/// bound the text is of version 1, and no certificate is accepted beside it.
inline void write_limit(std::ostream& out, const Sizes& sizes, std::optional<Number> splits,
                        std::optional<Number> bound) {
  const detail::Ranges ranges(sizes);
  if (splits) detail::require_range("The number of splits", *splits, 0, 100'000);
  if (bound) detail::require_range("The bound", *bound, 0, detail::most_cost);
  detail::Lines lines;
  lines.add("mapf-plan", bound ? 2 : 1);
  lines.add("agents", sizes.agents);
  lines.begin_line("limit");
  splits ? lines.add_word(*splits) : lines.add_word("ticks");
  if (bound) {
    lines.add_word("bound");
    lines.add_word(*bound);
  }
  lines.end_line();
  lines.add("end");
  lines.write_last_to(out);
}

/// Writes a plan text that says that no plan is valid, in version 2 or 1.
inline void write_impossible(std::ostream& out, const Sizes& sizes, int version = 2) {
  const detail::Ranges ranges(sizes);
  detail::require_range("The version of a plan text", version, 1, 2);
  detail::Lines lines;
  lines.add("mapf-plan", version);
  lines.add("agents", sizes.agents);
  lines.add("impossible");
  lines.add("end");
  lines.write_last_to(out);
}

}  // namespace mapf_cert

#endif  // MAPF_CERT_PLANS_HPP
