// A certificate of version 3 whose bound comes from the dual values of a linear program, as in branch and price.
//
//   g++ -std=c++17 export/example_prices.cpp -o example_prices
//   ./example_prices MAP SCEN PLAN CERT
//
// It writes the four files. `mapf check MAP SCEN 3 PLAN CERT` then says `optimal 9`.
//
// The problem. Three agents have to pass the middle cell v = 1,1 of a cross, one after another:
//
//     @.@    agent 0 goes from 0,1 to 2,1
//     ...    agent 1 goes from 1,0 to 1,2
//     @.@    agent 2 goes from 1,2 to 0,1
//
// The linear program. A column is a path. Whoever is in v at tick t, which is 1 or more, waited t - 1 ticks before and
// moves on at once, so its cheapest path costs t + 1. Let x(i, t) say that agent i takes the path through v at tick t.
//
//     minimise    the sum over i and t of (t + 1) x(i, t)
//     subject to  the sum over t of x(i, t) = 1     for each agent i     dual value a(i)
//                 the sum over i of x(i, t) <= 1    for each tick t      dual value -p(t)
//
// Its dual program:
//
//     maximise    a(0) + a(1) + a(2) - p(1) - p(2) - ..
//     subject to  a(i) - p(t) <= t + 1  and  p(t) >= 0
//
// Solved by hand. The three agents take ticks 1, 2 and 3, so there the dual constraints hold with equality, for each
// agent alike: a = p(1) + 2 = p(2) + 3 = p(3) + 4. The least prices have p(3) = 0: a = 4, p(1) = 2, p(2) = 1. At later
// ticks no price is needed, since 4 <= t + 1. Both programs have the value 9: 2 + 3 + 4, and 4 + 4 + 4 - 2 - 1. The
// program leaves out other conflicts, so 9 is a lower bound. The plan below attains it.
//
// The certificate. p is a price list: whoever is in v at tick 1 pays 2, at tick 2 it pays 1. All values are whole, so
// its unit is 1. (Halves would take the unit 2, and whole_price rounds what is left.) a is the label of each agent's
// start: cost and price add up to 4 or more, whichever tick it takes. The leaf adds up the labels, less the total 3.

#include <fstream>
#include <iostream>
#include <vector>

#include "mapf_cert.hpp"

using namespace mapf_cert;

int main(int count, char** words) {
  if (count != 5) {
    std::cerr << "use: example_prices MAP SCEN PLAN CERT\n";
    return 2;
  }
  const Sizes sizes{3, 3, 3};
  const Cell middle{1, 1}, left{0, 1}, top{1, 0}, right{2, 1}, bottom{1, 2};
  const std::vector<Cell> starts{left, top, bottom}, goals{right, bottom, left};
  const auto is_free = [](Cell cell) { return cell.x == 1 || cell.y == 1; };

  std::ofstream(words[1], std::ios::binary) << "type octile\nheight 3\nwidth 3\nmap\n@.@\n...\n@.@\n";
  std::ofstream(words[2], std::ios::binary) << "version 1\n0 cross 3 3 0 1 2 1 2\n0 cross 3 3 1 0 1 2 2\n"
                                               "0 cross 3 3 1 2 0 1 2\n";
  std::ofstream plan(words[3], std::ios::binary);
  write_plan(plan, sizes, {{left, middle, right}, {top, top, top, middle, bottom}, {bottom, bottom, middle, left}});

  PriceList list;
  list.prices = {{middle, std::nullopt, 1, whole_price(2.0, list.unit)},
                 {middle, std::nullopt, 2, whole_price(1.0, list.unit)}};

  // The checker adds up labels, and not the dual values a. They follow from the prices, also from rounded ones.
  std::vector<One> lemmas;
  Number sum = 0;
  for (Agent agent = 0; agent < sizes.agents; ++agent) {
    const auto at = static_cast<std::size_t>(agent);
    const std::vector<Label> steps = distances(sizes, goals[at], is_free);
    const std::vector<Entry> entries = exact_labels(sizes, steps, starts[at], {}, list);
    sum += bound_of_one(sizes, steps, starts[at], {}, entries, list).number();
    lemmas.push_back({agent, {}, entries, 0});
  }
  const Number bound = list.bound(sum);

  std::ofstream certificate(words[4], std::ios::binary);
  LemmaWriter writer(certificate, sizes, Claim::cost(bound), 1, sizes.agents);
  Leaf leaf;
  leaf.list = writer.list(list);
  for (const One& lemma : lemmas) leaf.uses.push_back(writer.lemma(lemma));
  writer.leaf(leaf);
  writer.end();
  std::cout << "cost " << bound << "\n";
}
