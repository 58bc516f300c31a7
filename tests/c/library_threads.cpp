// Has threads solve, check, judge and follow plans side by side by the library of include/mapf.h, and compares what
// they get with what one thread gets alone.
//
//   library_threads MAP SCEN K LIMIT
#include "mapf.h"

#include <algorithm>
#include <atomic>
#include <cstdio>
#include <cstdlib>
#include <fstream>
#include <iterator>
#include <string>
#include <thread>
#include <vector>

namespace {

constexpr int THREADS = 8;
constexpr int ROUNDS = 6;

std::string text_of(const char *name) {
    std::ifstream file(name, std::ios::binary);
    return {std::istreambuf_iterator<char>(file), {}};
}

struct Answer {
    mapf_solution solution;
    std::string plan, cert;
    mapf_answer verdict, validity;
    std::vector<mapf_reply> replies;
};

bool are_same(const mapf_answer &a, const mapf_answer &b) {
    return a.kind == b.kind && a.cause == b.cause && a.bound == b.bound && a.cost == b.cost &&
        a.fault.error == b.fault.error;
}

// What agents are told that follow the plan, if there is one: in turn, as often as the longest of their paths takes. They
// ask in another thread than the one that makes and frees the dispatcher.
std::vector<mapf_reply> replies_of(const std::string &map, const std::string &scen, uint32_t count,
                                   const std::string &plan) {
    mapf_dispatcher dispatcher{};
    mapf_dispatcher_new(&dispatcher, map.data(), map.size(), scen.data(), scen.size(), count, plan.data(), plan.size());
    std::vector<uint32_t> agents;
    for (uint32_t turn = 0; turn < 100 * count; turn++) {
        agents.push_back(turn % count);
    }
    std::vector<mapf_reply> replies(agents.size());
    std::thread other([&] {
        replies.resize(mapf_dispatcher_ask(&dispatcher, agents.data(), agents.size(), replies.data(), replies.size()));
    });
    other.join();
    mapf_dispatcher_free(&dispatcher);
    return replies;
}

// A search, the check of what it wrote, and what is found of its plan.
Answer answer_of(const std::string &map, const std::string &scen, const mapf_question &question) {
    Answer found{};
    found.plan.resize(4000000);
    found.cert.resize(4000000);
    found.solution = mapf_solve(map.data(), map.size(), scen.data(), scen.size(), question, &found.plan[0],
                                found.plan.size(), &found.cert[0], found.cert.size());
    found.plan.resize(found.solution.is_written ? found.solution.plan_length : 0);
    found.cert.resize(found.solution.is_written ? found.solution.cert_length : 0);
    found.verdict = mapf_check(map.data(), map.size(), scen.data(), scen.size(), question.agents, found.plan.data(),
                               found.plan.size(), found.cert.data(), found.cert.size());
    found.validity = mapf_validate(map.data(), map.size(), scen.data(), scen.size(), question.agents, found.plan.data(),
                                   found.plan.size());
    found.replies = replies_of(map, scen, question.agents, found.plan);
    return found;
}

bool is_same_reply(const mapf_reply &a, const mapf_reply &b) {
    return a.kind == b.kind && a.number == b.number;
}

bool is_same(const Answer &a, const Answer &b) {
    return are_same(a.solution.answer, b.solution.answer) && a.plan == b.plan && a.cert == b.cert &&
        are_same(a.verdict, b.verdict) && are_same(a.validity, b.validity) &&
        a.replies.size() == b.replies.size() &&
        std::equal(a.replies.begin(), a.replies.end(), b.replies.begin(), is_same_reply);
}

// Whether the check says of an answer what the search said.
bool is_confirmed(const Answer &answer) {
    return answer.solution.is_written == 1 && answer.verdict.kind == answer.solution.answer.kind &&
        answer.verdict.bound == answer.solution.answer.bound && answer.verdict.cost == answer.solution.answer.cost;
}

}  // namespace

int main(int count, char **words) {
    if (count != 5) {
        return 3;
    }
    const std::string map = text_of(words[1]), scen = text_of(words[2]);
    const auto agents = static_cast<uint32_t>(std::atoi(words[3])), limit = static_cast<uint32_t>(std::atoi(words[4]));
    std::vector<mapf_question> questions;
    for (uint32_t k = 1; k <= agents; k++) {
        questions.push_back({k, MAPF_CBS, limit, 0});
        questions.push_back({k, MAPF_CBSH, limit, 50 * k});
    }
    std::vector<Answer> alone;
    for (const auto &question : questions) {
        alone.push_back(answer_of(map, scen, question));
        if (!is_confirmed(alone.back())) {
            std::printf("%u agents: the check says something else\n", question.agents);
            return 1;
        }
    }
    std::atomic<int> wrong{0};
    std::vector<std::thread> threads;
    for (int number = 0; number < THREADS; number++) {
        threads.emplace_back([&, number] {
            for (int round = 0; round < ROUNDS; round++) {
                for (std::size_t at = 0; at < questions.size(); at++) {
                    const std::size_t other = (at + static_cast<std::size_t>(number)) % questions.size();
                    wrong += !is_same(alone[other], answer_of(map, scen, questions[other]));
                }
            }
        });
    }
    for (auto &thread : threads) {
        thread.join();
    }
    std::printf("%d threads, %d answers differ\n", THREADS, wrong.load());
    return wrong.load() != 0;
}
