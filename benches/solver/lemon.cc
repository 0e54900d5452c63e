// Solves a certificate's problem by LEMON's network simplex, on single CPUs or on classes of CPUs that are alike to all
// rows: `lemon cpus|classes|plain TIMES < TEXT` prints the least cost, or `short`, the number of classes, and the least
// time of a run in microseconds. Finding the classes is not timed. `plain` has the classes as sinks that need not be filled;
// the others have a sink node, and an arc to it from each class, whose size is the arc's capacity.
#include <lemon/network_simplex.h>
#include <lemon/smart_graph.h>

#include <algorithm>
#include <chrono>
#include <iostream>
#include <map>
#include <sstream>
#include <string>
#include <vector>

struct Row {
    long demand;
    std::map<int, long> weights;
};

static std::vector<Row> read(std::istream &in) {
    std::vector<Row> rows;
    for (std::string line; std::getline(in, line);) {
        std::istringstream words(line);
        std::string word, id;
        words >> word;
        if (word != "row") continue;
        Row row;
        words >> id >> row.demand;
        while (words >> word) {
            std::size_t colon = word.find(':');
            long weight = std::stol(word.substr(0, colon));
            std::istringstream items(word.substr(colon + 1));
            for (std::string item; std::getline(items, item, ',');) {
                std::size_t hyphen = item.find('-');
                int first = std::stoi(item);
                int last = hyphen == std::string::npos ? first : std::stoi(item.substr(hyphen + 1));
                for (int cpu = first; cpu <= last; cpu++) row.weights[cpu] = weight;
            }
        }
        rows.push_back(row);
    }
    return rows;
}

// The sizes of the classes, and what a CPU of each weighs in each row (-1 where it has no weight).
struct Classes {
    std::vector<long> sizes;
    std::vector<std::vector<long>> weights;
};

static Classes classes_of(const std::vector<Row> &rows, bool single) {
    std::map<std::vector<long>, long> sizes;
    Classes classes;
    for (int cpu = 0; cpu < 4096; cpu++) {
        std::vector<long> weights;
        for (const Row &row : rows) {
            auto found = row.weights.find(cpu);
            weights.push_back(found == row.weights.end() ? -1 : found->second);
        }
        if (std::all_of(weights.begin(), weights.end(), [](long w) { return w < 0; })) continue;
        if (single) {
            classes.sizes.push_back(1);
            classes.weights.push_back(weights);
        } else {
            sizes[weights]++;
        }
    }
    for (const auto &[weights, size] : sizes) {
        classes.sizes.push_back(size);
        classes.weights.push_back(weights);
    }
    return classes;
}

// The least cost, or -1 where there is no plan.
static long solved(const std::vector<Row> &rows, const Classes &classes) {
    lemon::SmartDigraph graph;
    lemon::SmartDigraph::ArcMap<long> capacity(graph), cost(graph);
    lemon::SmartDigraph::NodeMap<long> supply(graph, 0);
    std::vector<lemon::SmartDigraph::Node> row_nodes, class_nodes;
    long asked = 0;
    for (const Row &row : rows) {
        row_nodes.push_back(graph.addNode());
        supply[row_nodes.back()] = row.demand;
        asked += row.demand;
    }
    auto sink = graph.addNode();
    supply[sink] = -asked;
    for (std::size_t g = 0; g < classes.sizes.size(); g++) {
        class_nodes.push_back(graph.addNode());
        auto out = graph.addArc(class_nodes[g], sink);
        capacity[out] = classes.sizes[g];
        cost[out] = 0;
        for (std::size_t k = 0; k < rows.size(); k++) {
            if (classes.weights[g][k] < 0) continue;
            auto arc = graph.addArc(row_nodes[k], class_nodes[g]);
            capacity[arc] = std::min(rows[k].demand, classes.sizes[g]);
            cost[arc] = classes.weights[g][k];
        }
    }
    lemon::NetworkSimplex<lemon::SmartDigraph, long> simplex(graph);
    simplex.upperMap(capacity).costMap(cost).supplyMap(supply);
    return simplex.run() == simplex.OPTIMAL ? simplex.totalCost() : -1;
}

// The same of the plain transportation problem, which LEMON solves up to six times faster.
static long solved_plain(const std::vector<Row> &rows, const Classes &classes) {
    lemon::SmartDigraph graph;
    lemon::SmartDigraph::ArcMap<int> cost(graph);
    lemon::SmartDigraph::NodeMap<int> supply(graph, 0);
    std::vector<lemon::SmartDigraph::Node> row_nodes;
    for (const Row &row : rows) {
        row_nodes.push_back(graph.addNode());
        supply[row_nodes.back()] = row.demand;
    }
    for (std::size_t g = 0; g < classes.sizes.size(); g++) {
        auto class_node = graph.addNode();
        supply[class_node] = -classes.sizes[g];
        for (std::size_t k = 0; k < rows.size(); k++) {
            if (classes.weights[g][k] >= 0) cost[graph.addArc(row_nodes[k], class_node)] = classes.weights[g][k];
        }
    }
    lemon::NetworkSimplex<lemon::SmartDigraph, int, long> simplex(graph);
    simplex.costMap(cost).supplyMap(supply).supplyType(simplex.GEQ);
    return simplex.run() == simplex.OPTIMAL ? simplex.totalCost<long>() : -1;
}

int main(int count, char **words) {
    if (count != 3) return 2;
    std::vector<Row> rows = read(std::cin);
    std::string form = words[1];
    Classes classes = classes_of(rows, form == "cpus");
    long cost = 0, least = -1;
    for (int times = std::stoi(words[2]); times > 0; times--) {
        auto start = std::chrono::steady_clock::now();
        cost = form == "plain" ? solved_plain(rows, classes) : solved(rows, classes);
        long took = std::chrono::duration_cast<std::chrono::microseconds>(std::chrono::steady_clock::now() - start).count();
        if (least < 0 || took < least) least = took;
    }
    std::cout << (cost < 0 ? "short" : std::to_string(cost)) << ' ' << classes.sizes.size() << ' ' << least << '\n';
}
