// Certificates of version 2: a constraint tree with labels of single agents.

#ifndef MAPF_CERT_TREES_HPP
#define MAPF_CERT_TREES_HPP

#include <algorithm>
#include <cstddef>
#include <optional>
#include <ostream>
#include <utility>
#include <variant>
#include <vector>

#include "lines.hpp"
#include "types.hpp"

namespace mapf_cert {

/// The labels of one agent at a node of version 2. They hold at the node and below it, until a deeper block replaces
/// them. A block without entries can't be spelled. It is left out, so that the labels from above hold on.
struct Block {
  Agent agent = 0;
  std::vector<Entry> entries = {};
};

/// Writes a certificate of version 2 to a stream, node by node in pre-order: after a split its left child with all that
/// is below, then its right child. Nothing is kept but a count.
class TreeWriter : private detail::Writer {
 public:
  /// Writes the first three lines. Throws std::invalid_argument if a size or the claim is out of range.
  TreeWriter(std::ostream& out, const Sizes& sizes, const Claim& claim) : Writer(out, sizes) {
    head("mapf-cert 2", claim).write_to(out);
  }

  /// Writes a split on a vertex or swapping conflict, with at most one block for each agent.
  void split(const Split& split, std::vector<Block> blocks = {}) {
    require_due(open_ > 0, "No node is due.");
    detail::require(split.kind == Split::Kind::vertex || split.kind == Split::Kind::swap,
                    "Version 2 has no split on costs.");
    put_in_order(blocks);
    detail::Lines lines;
    add_conflict(lines, split, detail::count_of(blocks.size()));
    add_blocks(lines, blocks);
    write_node(lines, 1);
  }
  /// Writes a leaf, with at most one block for each agent.
  void leaf(std::vector<Block> blocks = {}) {
    require_due(open_ > 0, "No node is due.");
    put_in_order(blocks);
    detail::Lines lines;
    lines.add("leaf", detail::count_of(blocks.size()));
    add_blocks(lines, blocks);
    write_node(lines, -1);
  }
  void clash(const Clash& clash) { write_clash(clash); }

  /// Writes the last line, without which the text is refused. Throws std::logic_error while nodes are due.
  void end() { write_end(); }

 private:
  void put_in_order(std::vector<Block>& blocks) const {
    const auto is_empty = [](const Block& block) { return block.entries.empty(); };
    blocks.erase(std::remove_if(blocks.begin(), blocks.end(), is_empty), blocks.end());
    for (Block& block : blocks) {
      ranges_.agent(block.agent);
      ranges_.entries(block.entries, detail::most_path);
    }
    detail::put_in_order(blocks, [](const Block& block) { return block.agent; },
                         "Two blocks of a node are of the same agent.");
  }
  static void add_blocks(detail::Lines& lines, const std::vector<Block>& blocks) {
    for (const Block& block : blocks) {
      lines.add("agent", block.agent, detail::count_of(block.entries.size()));
      detail::add_entries(lines, block.entries);
    }
  }
};

/// A node of version 2 in a vector: a leaf (monostate), a split with the places of its two children in the vector, or a
/// clash, with the blocks of a leaf or of a split.
struct Node {
  std::variant<std::monostate, Split, Clash> kind;
  std::vector<Block> blocks = {};
  std::size_t left = 0;
  std::size_t right = 0;
};

/// Writes a certificate of version 2 from a vector of nodes, of which the first is the root. A child stands behind its
/// parent. A node that several splits name is written once for each of them.
inline void write_tree(std::ostream& out, const Sizes& sizes, const Claim& claim, const std::vector<Node>& nodes) {
  detail::require(!nodes.empty(), "A tree has at least one node.");
  TreeWriter writer(out, sizes, claim);
  using Children = std::optional<std::pair<std::size_t, std::size_t>>;
  in_pre_order(std::size_t{0}, [&](std::size_t at) -> Children {
    const Node& node = nodes[at];
    if (const Clash* clash = std::get_if<Clash>(&node.kind)) {
      detail::require(node.blocks.empty(), "A clash has no blocks.");
      writer.clash(*clash);
      return std::nullopt;
    }
    if (const Split* split = std::get_if<Split>(&node.kind)) {
      const auto [least, most] = std::minmax(node.left, node.right);
      detail::require(least > at && most < nodes.size(), "A child of a split doesn't stand behind it in the vector.");
      writer.split(*split, node.blocks);
      return std::pair(node.left, node.right);
    }
    writer.leaf(node.blocks);
    return std::nullopt;
  });
  writer.end();
}

}  // namespace mapf_cert

#endif  // MAPF_CERT_TREES_HPP
