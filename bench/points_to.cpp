// The peer of bench/points_to.py: inclusion-based points-to sets by a worklist with difference propagation, over hash sets.
// It reads the same file as `measure points time` and writes the same line.
#include <algorithm>
#include <chrono>
#include <cstdint>
#include <cstdio>
#include <deque>
#include <fstream>
#include <unordered_set>
#include <vector>

using Number = std::uint32_t;
using Set = std::unordered_set<Number>;
using List = std::vector<Number>;

struct Constraint {
    Number rule, target, source, third;
};

struct Solver {
    Number registers, regions;
    std::vector<Set> members, edges;
    std::vector<List> waiting, loads, stores;
    std::deque<Number> queue;

    Solver(Number registers, Number regions)
        : registers(registers), regions(regions), members(registers + regions), edges(registers + regions),
          waiting(registers + regions), loads(registers + regions), stores(registers + regions) {}

    void add(Number node, Number member) {
        if (!members[node].insert(member).second) return;
        if (waiting[node].empty()) queue.push_back(node);
        waiting[node].push_back(member);
    }

    void link(Number from, Number to) {
        if (from == to || !edges[from].insert(to).second) return;
        for (Number member : members[from]) add(to, member);
    }

    void open(const Constraint &c) {
        switch (c.rule) {
        case 1: add(c.target, c.source); break;
        case 2: link(c.source, c.target); break;
        case 3: loads[c.source].push_back(c.target); break;
        case 4: stores[c.target].push_back(c.source); break;
        }
    }

    void visit(Number node) {
        List news;
        news.swap(waiting[node]);
        for (Number to : edges[node])
            for (Number member : news) add(to, member);
        for (Number member : news) {
            if (member >= regions) continue;
            for (Number to : loads[node]) link(registers + member, to);
            for (Number from : stores[node]) link(from, registers + member);
        }
    }

    std::vector<List> solve(const std::vector<Constraint> &all) {
        for (const Constraint &c : all) open(c);
        while (!queue.empty()) {
            Number node = queue.front();
            queue.pop_front();
            visit(node);
        }
        std::vector<List> lists;
        for (const Set &set : members) {
            lists.emplace_back(set.begin(), set.end());
            std::sort(lists.back().begin(), lists.back().end());
        }
        return lists;
    }
};

int main(int count, char **words) {
    if (count != 2) return 2;
    std::ifstream file(words[1]);
    Number registers, regions;
    if (!(file >> registers >> regions)) return 1;
    std::vector<Constraint> all;
    for (Constraint c; file >> c.rule >> c.target >> c.source >> c.third;) all.push_back(c);
    auto start = std::chrono::steady_clock::now();
    Solver solver(registers, regions);
    std::vector<List> lists = solver.solve(all);
    std::chrono::duration<double> taken = std::chrono::steady_clock::now() - start;
    std::uint64_t total = 0, checksum = 0xcbf29ce484222325;
    auto mix = [&](std::uint64_t number) { checksum = (checksum ^ number) * 0x100000001b3; };
    for (const List &list : lists) {
        total += list.size();
        mix(list.size());
        for (Number member : list) mix(member);
    }
    std::printf("seconds %.6f nodes %zu constraints %zu members %llu checksum %llu\n", taken.count(), lists.size(), all.size(),
                (unsigned long long)total, (unsigned long long)checksum);
}
