// A plain C++ program that does what `zero`, `period` and `schedule` do, to measure `cts` beside.
//
//   g++ -O2 -std=c++17 -o baseline bench/baseline.cc
//   baseline F.bench F.toml         prints what schedule prints, without the cycle
//   baseline F.bench F.toml F.pl    prints the processor time of its phases in ms, for bench/beside.py
//
// It takes files that cts accepts, without a host, and makes no tree. Sums are of 64 bits.
#include <cstdio>
#include <ctime>
#include <iostream>
#include <numeric>

#include "baseline_netlist.h"

struct Edge { int from, to; Time weight; bool counts; };
struct Schedule { Time over = 0, under = 1; std::vector<Time> arrivals; bool found = true; };

// The least period: longest ways at one, which a cycle that is too long raises to its own. Times
// are in parts of a tick.
static Schedule least_period(const std::vector<Edge> &edges, size_t registers, Time floor) {
    Schedule schedule;
    schedule.over = floor;
    std::vector<std::vector<int>> leaving(registers);
    for (size_t place = 0; place < edges.size(); place++) leaving[edges[place].from].push_back(place);
    while (true) {
        std::vector<Time> times(registers, 0);
        std::vector<int> by(registers, -1), queue(registers), seen(registers, -1);
        std::vector<char> waits(registers, 1);
        std::iota(queue.begin(), queue.end(), 0);
        std::vector<int> cycle;
        for (size_t next = 0, checked = registers; next < queue.size() && cycle.empty(); next++) {
            int from = queue[next];
            waits[from] = 0;
            for (int place : leaving[from]) {
                const Edge &edge = edges[place];
                Time time = times[from] + edge.weight * schedule.under - (edge.counts ? schedule.over : 0);
                if (time <= times[edge.to]) continue;
                times[edge.to] = time, by[edge.to] = place;
                if (!waits[edge.to]) waits[edge.to] = 1, queue.push_back(edge.to);
            }
            if (next < checked) continue;
            checked = next + registers;
            std::fill(seen.begin(), seen.end(), -1);
            for (size_t start = 0; start < registers && cycle.empty(); start++) {
                int at = start;
                while (at >= 0 && seen[at] < 0 && by[at] >= 0) seen[at] = start, at = edges[by[at]].from;
                if (by[at] < 0 || seen[at] != (int)start) continue;
                for (int end = at; cycle.empty() || at != end; at = edges[by[at]].from) cycle.push_back(by[at]);
            }
        }
        if (cycle.empty()) {
            schedule.arrivals = times;
            return schedule;
        }
        Time weight = 0, count = 0;
        for (int place : cycle) weight += edges[place].weight, count += edges[place].counts;
        if (count == 0) return schedule.found = false, schedule;
        Time part = std::gcd(weight, count);
        schedule.over = weight / part, schedule.under = count / part;
    }
}

static std::string fraction(Time over, Time under) {
    Time part = std::gcd(over, under);
    return std::to_string(over / part) + (under / part == 1 ? "" : "/" + std::to_string(under / part));
}

int main(int count, char **words) {
    if (count < 3) return std::cerr << "usage: baseline F.bench F.toml [F.pl]\n", 2;
    // Processor time, which says the same on a busy machine.
    std::clock_t begun = std::clock(), last = begun;
    std::string phases;
    auto ended = [&](const char *name, std::clock_t since) {
        char text[64];
        snprintf(text, sizeof text, "%s %.3f ", name, 1000.0 * (std::clock() - since) / CLOCKS_PER_SEC);
        phases += text, last = std::clock();
    };
    Circuit circuit;
    circuit.signals = read_netlist(read_file(words[1]));
    circuit.table = read_table(read_file(words[2]));
    ended("parse", last);
    circuit.sort();
    ended("levels", last);
    std::vector<Pair> pairs = circuit.pairs();
    ended("pairs", last);
    Time setup = circuit.table["register.setup"], hold = circuit.table["register.hold"];
    Time zero = circuit.table["period.floor"];
    bool meets_hold = true;
    std::vector<Edge> edges;
    for (const Pair &pair : pairs) {
        edges.push_back({pair.launching, pair.capturing, pair.greatest + setup, true});
        edges.push_back({pair.capturing, pair.launching, hold - pair.least, false});
        zero = std::max(zero, pair.greatest + setup);
        meets_hold &= hold <= pair.least;
    }
    ended("cons", last);
    Schedule schedule = least_period(edges, circuit.registers.size(), circuit.table["period.floor"]);
    ended("period", last);
    size_t registers = circuit.registers.size();
    std::vector<Time> setups(registers, INT64_MAX), holds(registers, INT64_MAX);
    if (schedule.found) {
        for (const Pair &pair : pairs) {
            Time apart = schedule.arrivals[pair.capturing] - schedule.arrivals[pair.launching];
            Time early = schedule.over + apart - (pair.greatest + setup) * schedule.under;
            Time late = (pair.least - hold) * schedule.under - apart;
            setups[pair.capturing] = std::min(setups[pair.capturing], early);
            holds[pair.capturing] = std::min(holds[pair.capturing], late);
        }
    }
    ended("slacks", last);
    ended("total", begun);
    if (count > 3) return std::cout << phases << "\n", 0;
    if (!schedule.found) return std::cout << "never\n", 1;
    std::cout << "period " << fraction(schedule.over, schedule.under) << "\nzero "
              << (meets_hold ? std::to_string(zero) : "none") << "\nregisters " << registers << "\n";
    for (size_t place = 0; place < registers; place++) {
        bool is_captured = setups[place] != INT64_MAX;
        std::cout << circuit.signals[circuit.registers[place]].name << " "
                  << fraction(schedule.arrivals[place], schedule.under) << " "
                  << (is_captured ? fraction(setups[place], schedule.under) : "-") << " "
                  << (is_captured ? fraction(holds[place], schedule.under) : "-") << "\n";
    }
}
