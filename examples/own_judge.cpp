// A prioritised planner that judges its own answers in its own process, by the library of include/mapf.h.
//
//   ./library
//   g++ -std=c++17 -O2 -Iinclude examples/own_judge.cpp out/libmapf.a -o own_judge
//   ./own_judge MAP SCEN K [LIMIT]
//
// Each agent takes a cheapest path that meets no agent before it. The library searches for a certificate with at most
// LIMIT splits (100 if none are given), and judges the plan beside it.

#include <algorithm>
#include <fstream>
#include <iostream>
#include <iterator>
#include <set>
#include <sstream>
#include <string>
#include <utility>
#include <vector>

#include "mapf.h"

namespace {

// The cells of an agent, one for each tick, as their numbers y * width + x.
using Path = std::vector<int>;

struct Problem {
    std::string map, scen;
    int width = 0, height = 0;
    std::vector<std::string> rows;
    std::vector<std::pair<int, int>> agents;  // the start and the goal of each

    bool is_free(int x, int y) const {
        return x >= 0 && y >= 0 && x < width && y < height && std::string(".GS").find(rows[y][x]) < 3;
    }
};

std::string text_of(const char *name) {
    std::ifstream file(name, std::ios::binary);
    return {std::istreambuf_iterator<char>(file), {}};
}

Problem problem_of(const char *map_name, const char *scen_name, uint32_t count) {
    Problem problem;
    std::string word;
    problem.map = text_of(map_name);
    problem.scen = text_of(scen_name);
    std::istringstream map(problem.map), scen(problem.scen);
    map >> word >> word >> word >> problem.height >> word >> problem.width >> word;
    for (std::string row; map >> row;) problem.rows.push_back(row);
    scen >> word >> word;
    for (uint32_t agent = 0; agent < count; ++agent) {
        int x = 0, y = 0, to_x = 0, to_y = 0;
        scen >> word >> word >> word >> word >> x >> y >> to_x >> to_y >> word;
        problem.agents.emplace_back(y * problem.width + x, to_y * problem.width + to_x);
    }
    return problem;
}

int at(const Path &path, std::size_t tick) { return path[std::min(tick, path.size() - 1)]; }

// Whether a step from one cell to another meets an agent before, or swaps cells with it.
bool meets(const std::vector<Path> &before, int from, int to, std::size_t tick) {
    return std::any_of(before.begin(), before.end(), [&](const Path &path) {
        return at(path, tick + 1) == to || (at(path, tick) == to && at(path, tick + 1) == from);
    });
}

// A cheapest path that meets no agent before, by breadth-first search over cells and ticks. Empty if there is none.
Path path_of(const Problem &problem, std::pair<int, int> ends, const std::vector<Path> &before) {
    struct State {
        int cell;
        std::size_t tick, parent;
    };
    // When all agents before rest, and from when on none of them is at the goal.
    std::size_t quiet = 1, free_from = 0;
    for (const Path &path : before) {
        quiet = std::max(quiet, path.size());
        for (std::size_t tick = 0; tick < path.size(); ++tick)
            if (path[tick] == ends.second) free_from = std::max(free_from, tick + 1);
    }
    std::vector<State> states{{ends.first, 0, 0}};
    std::set<std::pair<int, std::size_t>> met{{ends.first, 0}};
    for (std::size_t place = 0; place < states.size(); ++place) {
        const State state = states[place];
        if (state.cell == ends.second && state.tick >= free_from) {
            Path path(state.tick + 1);
            for (std::size_t back = place, tick = path.size(); tick-- > 0; back = states[back].parent)
                path[tick] = states[back].cell;
            return path;
        }
        const int x = state.cell % problem.width, y = state.cell / problem.width;
        for (const auto &[dx, dy] : {std::pair{0, 0}, {1, 0}, {-1, 0}, {0, 1}, {0, -1}}) {
            const int to = (y + dy) * problem.width + x + dx;
            if (!problem.is_free(x + dx, y + dy) || meets(before, state.cell, to, state.tick)) continue;
            if (!met.insert({to, std::min(state.tick + 1, quiet)}).second) continue;
            states.push_back({to, state.tick + 1, place});
        }
    }
    return {};
}

std::string plan_text(const Problem &problem, const std::vector<Path> &paths) {
    std::ostringstream lines;
    std::size_t cost = 0;
    for (std::size_t agent = 0; agent < paths.size(); ++agent) {
        cost += paths[agent].size() - 1;
        lines << "path " << agent << ' ' << paths[agent].size() - 1;
        for (int cell : paths[agent]) lines << ' ' << cell % problem.width << ',' << cell / problem.width;
        lines << '\n';
    }
    std::ostringstream text;
    text << "mapf-plan 2\nagents " << paths.size() << "\ncost " << cost << '\n' << lines.str() << "end\n";
    return text.str();
}

// What the check says of a plan beside the certificate of a search.
void judge(const Problem &problem, const std::string &plan, uint32_t limit) {
    const auto count = static_cast<uint32_t>(problem.agents.size());
    const mapf_question question{count, MAPF_CBSH, limit, 50 * count};
    std::string found(1 << 20, '\0'), cert(1 << 24, '\0');
    const mapf_solution solution = mapf_solve(problem.map.data(), problem.map.size(), problem.scen.data(),
        problem.scen.size(), question, &found[0], found.size(), &cert[0], cert.size());
    const mapf_answer verdict = mapf_check(problem.map.data(), problem.map.size(), problem.scen.data(),
        problem.scen.size(), count, plan.data(), plan.size(), cert.data(),
        solution.is_written ? solution.cert_length : 0);
    if (verdict.kind == MAPF_OPTIMAL) std::cout << "optimal " << verdict.cost << '\n';
    else if (verdict.kind == MAPF_WITHIN) std::cout << "within " << verdict.bound << ' ' << verdict.cost << '\n';
    else if (verdict.fault.error == MAPF_C4 && solution.answer.kind == MAPF_OPTIMAL)
        std::cout << "not optimal: the plan is valid, and another one costs " << solution.answer.cost << '\n';
    else std::cout << "refused: error " << verdict.fault.error << ", defect " << verdict.fault.defect << '\n';
}

}  // namespace

int main(int count, char **words) {
    if (count < 4) return 2;
    const Problem problem = problem_of(words[1], words[2], static_cast<uint32_t>(std::stoul(words[3])));
    std::vector<Path> paths;
    for (const auto &ends : problem.agents) {
        paths.push_back(path_of(problem, ends, paths));
        if (paths.back().empty()) return std::cout << "no plan: agent " << paths.size() - 1 << " has no path\n", 1;
    }
    judge(problem, plan_text(problem, paths), count > 4 ? static_cast<uint32_t>(std::stoul(words[4])) : 100);
}
