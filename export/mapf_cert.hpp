// Writes plan texts and certificates of versions 2 and 3 from any solver of multi-agent path finding, so that a proved
// checker can judge the answers of that solver. It needs C++17, the standard library, and the folder mapf_cert beside
// it, which has its parts: copy both. Their comments say what each call takes. All names are in namespace mapf_cert.
//
// docs/FORMATS.md defines the texts. This header writes what is of their grammar and in their ranges, and refuses the
// rest. It judges no rule: whether the text shows its claim is for `mapf check` or `tools/recheck` to say.
//
//   Plan text                 write_plan, write_limit, write_impossible
//   Certificate, version 2    TreeWriter, in pre-order; or write_tree, from a vector of nodes
//   Certificate, version 3    LemmaWriter: price lists, then lemmas, then a tree
//   Labels                    distances; labels_of_cost, of a known cost; exact_labels, under prices; labels_above
//
// This writes the certificate of tests/cases/solve-crossing, which has a block with one label at each leaf:
//
//   TreeWriter writer(out, Sizes{3, 3, 2}, Claim::cost(5));     // 3 columns, 3 rows, 2 agents
//   writer.split(Split::vertex(0, 1, Cell{1, 1}, 1));
//   writer.leaf({Block{0, {Entry{{0, 1}, 0, 3}}}});             // agent 0, at 0,1 at tick 0: label 3
//   writer.leaf({Block{1, {Entry{{1, 0}, 0, 3}}}});
//   writer.end();
//
// In version 3 a lemma of two agents is used in a group, here with the divisor 1 and the weight 1:
//
//   LemmaWriter writer(out, sizes, Claim::cost(11), 0, 1);      // no price lists, 1 lemma
//   const Number lemma = writer.lemma(two);
//   writer.leaf({{}, {Group{1, {Use{lemma, 1}}}}});
//   writer.end();
//
// export/example_solver.cpp is a small solver that writes version 2, and export/example_prices.cpp writes version 3.
//
// Units. A cell is a column x and a row y, and 0,0 is at the top left. Time is counted in ticks from 0, and so are
// costs: each step costs 1, also a wait. Only prices, and what is added to them, count in parts of a tick (PriceList).
//
// Errors. std::invalid_argument says in a sentence which value can't be spelled, and std::logic_error that a call isn't
// due now. Nothing of that call is written then, save that write_tree stops at the node with the error.
// std::runtime_error says that the stream took no more.
//
// Order. Entries, blocks, prices, constraints, joint cells, agents and uses may be given in any order. They are sorted.
//
// The lines end with LF, so open a file with std::ios::binary. The locale of the stream isn't used.

#ifndef MAPF_CERT_HPP
#define MAPF_CERT_HPP

#include "mapf_cert/labels.hpp"
#include "mapf_cert/lemmas.hpp"
#include "mapf_cert/plans.hpp"
#include "mapf_cert/trees.hpp"
#include "mapf_cert/types.hpp"

#endif  // MAPF_CERT_HPP
