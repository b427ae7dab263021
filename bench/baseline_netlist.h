// What the baseline reads: a netlist, a delay table, and the pairs of registers that a path joins.
#pragma once
#include <algorithm>
#include <cstdint>
#include <fstream>
#include <map>
#include <sstream>
#include <string>
#include <unordered_map>
#include <vector>

using Time = int64_t;
struct Signal { std::string name, kind; std::vector<std::string> words; std::vector<int> reads; };
struct Pair { int launching, capturing; Time least, greatest; };

static std::string read_file(const char *path) {
    std::ifstream file(path, std::ios::binary);
    std::stringstream text;
    text << file.rdbuf();
    return text.str();
}

// The signals, each with the names that it reads; outputs are left out.
static std::vector<Signal> read_netlist(const std::string &text) {
    std::vector<Signal> signals;
    std::istringstream lines(text);
    for (std::string line; std::getline(lines, line);) {
        line = line.substr(0, line.find('#'));
        std::vector<std::string> words(1);
        for (char byte : line) {
            if (std::string(" \t\r(),=").find(byte) == std::string::npos) words.back() += byte;
            else if (!words.back().empty()) words.emplace_back();
        }
        if (words.back().empty()) words.pop_back();
        if (words.empty()) continue;
        bool is_gate = line.find('=') != std::string::npos;
        std::string kind = words[is_gate ? 1 : 0];
        for (char &byte : kind) byte = toupper(byte);
        if (kind == "BUF") kind = "BUFF";
        if (is_gate) signals.push_back({words[0], kind, {words.begin() + 2, words.end()}, {}});
        else if (kind == "INPUT") signals.push_back({words[1], kind, {}, {}});
    }
    std::unordered_map<std::string, int> numbers;
    for (size_t place = 0; place < signals.size(); place++) numbers[signals[place].name] = place;
    for (Signal &signal : signals)
        for (const std::string &word : signal.words) signal.reads.push_back(numbers.at(word));
    return signals;
}

// The numbers of a delay table, by section and key.
static std::map<std::string, Time> read_table(const std::string &text) {
    std::map<std::string, Time> table;
    std::istringstream lines(text);
    std::string section;
    for (std::string line; std::getline(lines, line);) {
        line.erase(std::remove(line.begin(), line.end(), ' '), line.end());
        size_t equals = line.find('=');
        if (line[0] == '[') section = line.substr(1, line.find(']') - 1);
        else if (equals != std::string::npos && isdigit(line[equals + 1]))
            table[section + "." + line.substr(0, equals)] = std::stoll(line.substr(equals + 1));
    }
    return table;
}

struct Circuit {
    std::vector<Signal> signals;
    std::map<std::string, Time> table;
    std::vector<int> registers, number, order, place;
    std::vector<std::vector<int>> readers;
    std::vector<Time> least, greatest;

    // The gates in an order in which each comes after what it reads.
    void sort() {
        size_t count = signals.size();
        std::vector<int> missing(count, 0);
        readers.resize(count), number.assign(count, -1), place.assign(count, 0);
        least.assign(count, 0), greatest.assign(count, 0);
        for (size_t at = 0; at < count; at++) {
            Signal &signal = signals[at];
            if (signal.kind == "DFF") number[at] = registers.size(), registers.push_back(at);
            else if (signal.kind != "INPUT") {
                Time more = signal.reads.size() - 1;
                std::string key = "gate." + signal.kind;
                least[at] = table[key + ".least"] + more * table[key + ".least_per_input"];
                greatest[at] = table[key + ".greatest"] + more * table[key + ".greatest_per_input"];
                missing[at] = signal.reads.size();
            }
            for (int read : signal.reads) readers[read].push_back(at);
        }
        for (size_t at = 0; at < count; at++)
            if (missing[at] == 0) order.push_back(at);
        for (size_t next = 0; next < order.size(); next++) {
            place[order[next]] = next;
            for (int reader : readers[order[next]])
                if (number[reader] < 0 && --missing[reader] == 0) order.push_back(reader);
        }
    }

    // The pairs that a path joins, from one register after the other.
    std::vector<Pair> pairs() const {
        std::vector<Pair> found;
        std::vector<int> stamp(signals.size(), -1);
        std::vector<Time> first(signals.size()), last(signals.size());
        for (size_t launching = 0; launching < registers.size(); launching++) {
            std::vector<int> reached{registers[launching]}, captured;
            stamp[registers[launching]] = launching;
            for (size_t next = 0; next < reached.size(); next++)
                for (int reader : readers[reached[next]])
                    if (number[reader] < 0 && stamp[reader] != (int)launching)
                        stamp[reader] = launching, reached.push_back(reader);
            std::sort(reached.begin(), reached.end(), [&](int one, int other) { return place[one] < place[other]; });
            for (int at : reached) first[at] = INT64_MAX, last[at] = INT64_MIN;
            // A register's own value starts at its clock.
            first[reached[0]] = table.at("register.least"), last[reached[0]] = table.at("register.greatest");
            std::unordered_map<int, Pair> ends;
            for (int at : reached) {
                if (number[at] < 0) first[at] += least[at], last[at] += greatest[at];
                for (int reader : readers[at]) {
                    if (number[reader] < 0) {
                        first[reader] = std::min(first[reader], first[at]);
                        last[reader] = std::max(last[reader], last[at]);
                        continue;
                    }
                    Pair pair{(int)launching, number[reader], first[at], last[at]};
                    auto [end, is_new] = ends.emplace(number[reader], pair);
                    if (is_new) continue;
                    end->second.least = std::min(end->second.least, pair.least);
                    end->second.greatest = std::max(end->second.greatest, pair.greatest);
                }
            }
            for (auto &[_, pair] : ends) found.push_back(pair);
        }
        return found;
    }
};
