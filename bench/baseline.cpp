#include "baseline.h"
#include <lemon/preflow.h>
#include <lemon/static_graph.h>
#include <algorithm>
#include <numeric>

namespace {

using Graph = lemon::StaticDigraph;
using Capacity = Graph::ArcMap<long long>;
using Flow = lemon::Preflow<Graph, Capacity>;
using Labels = std::vector<int>;

struct Rate {
    long long p, q;
};

// The plant's graph with the added vertex t, which is node n: two arcs for each line, and one from each device to t. Built once; the
// capacities are set anew for each rate.
class Network {
public:
    Network(const Plant& plant, Way way) : plant(plant), way(way), n(int(plant.n)), capacity(build()), flow(graph, capacity, graph.node(0), graph.node(n)) {}

    // Capacities at rate p/q: q times the signals on a line, p at t. For one phase all are scaled by n + 1, and each at t has 1 more.
    void set_rate(Rate rate) {
        bool one = way == Way::one_phase;
        long long scale = one ? n + 1 : 1, more = one ? 1 : 0;
        for (size_t e = 0; e < line_of.size(); e++)
            capacity[graph.arc(int(e))] = line_of[e] < 0 ? scale * rate.p + more : scale * rate.q * (long long)plant.signals[size_t(line_of[e])];
    }

    // The community of a device: the smaller side at ties. `found` holds it.
    void community(int device) {
        flow.source(graph.node(device)).target(graph.node(n));
        found.clear();
        if (way == Way::one_phase) {
            flow.runMinCut();
            for (int v = 0; v < n; v++)
                if (flow.minCut(graph.node(v))) found.push_back(v);
        } else {
            flow.run();
            marks.assign(size_t(n) + 1, 0);
            reach(device);
            for (size_t h = 0; h < found.size(); h++) spread(graph.node(found[h]));
        }
    }

    std::vector<int> found;

private:
    // What a device has room left to go to is reached too.
    void spread(Graph::Node u) {
        for (Graph::OutArcIt e(graph, u); e != lemon::INVALID; ++e)
            if (flow.flow(e) < capacity[e]) reach(graph.id(graph.target(e)));
        for (Graph::InArcIt e(graph, u); e != lemon::INVALID; ++e)
            if (flow.flow(e) > 0) reach(graph.id(graph.source(e)));
    }

    void reach(int v) {
        if (marks[size_t(v)]) return;
        marks[size_t(v)] = 1;
        found.push_back(v);
    }

    struct Arc {
        int from, to, line;
    };

    const Graph& build() {
        std::vector<Arc> arcs;
        for (size_t l = 0; l < plant.firsts.size(); l++) {
            int a = int(plant.firsts[l]), b = int(plant.seconds[l]);
            arcs.push_back({a, b, int(l)});
            arcs.push_back({b, a, int(l)});
        }
        for (int v = 0; v < n; v++) arcs.push_back({v, n, -1});
        std::stable_sort(arcs.begin(), arcs.end(), [](const Arc& x, const Arc& y) { return x.from < y.from; });
        std::vector<std::pair<int, int>> ends;
        for (const Arc& arc : arcs) {
            ends.push_back({arc.from, arc.to});
            line_of.push_back(arc.line);
        }
        graph.build(n + 1, ends.begin(), ends.end());
        return graph;
    }

    const Plant& plant;
    Way way;
    int n;
    std::vector<int> line_of; // of each arc its line, -1 at t
    Graph graph;
    Capacity capacity;
    Flow flow;
    std::vector<char> marks;
};

class Search {
public:
    Search(const Plant& plant, Way way, Work& work) : plant(plant), n(plant.n), network(plant, way), work(work) {}

    // "Starting with the trivial clusterings": every device alone, and the connected parts.
    Hierarchy run() {
        Labels alone(n);
        std::iota(alone.begin(), alone.end(), 0);
        Labels parts = connected();
        listed.levels.push_back(alone);
        if (alone != parts) between(alone, parts);
        return listed;
    }

private:
    // The levels between two known ones (theorem 1): the finer is listed already.
    void between(const Labels& finer, const Labels& coarser) {
        Rate rate = crossing(finer, coarser);
        Labels middle = clustering(rate);
        if (middle == finer) {
            listed.low_p.push_back(rate.p);
            listed.low_q.push_back(rate.q);
            listed.levels.push_back(coarser);
            return;
        }
        between(finer, middle);
        between(middle, coarser);
    }

    // The clustering at a rate: "computing a community with respect to t for each vertex not yet contained in a community".
    Labels clustering(Rate rate) {
        work.rates++;
        network.set_rate(rate);
        Labels owner(n, -1);
        for (size_t v = 0; v < n; v++) {
            if (owner[v] >= 0) continue;
            work.cuts++;
            network.community(int(v));
            for (int u : network.found) owner[size_t(u)] = int(v);
        }
        return lowest(owner);
    }

    // For each device the lowest one with the same owner.
    Labels lowest(const Labels& owner) const {
        Labels low(n, -1), labels(n);
        for (size_t v = 0; v < n; v++) {
            int& first = low[size_t(owner[v])];
            if (first < 0) first = int(v);
            labels[v] = first;
        }
        return labels;
    }

    Labels connected() const {
        Labels root(n);
        std::iota(root.begin(), root.end(), 0);
        auto find = [&root](int v) {
            while (root[size_t(v)] != v) v = root[size_t(v)] = root[size_t(root[size_t(v)])];
            return v;
        };
        for (size_t l = 0; l < plant.firsts.size(); l++) {
            int a = find(int(plant.firsts[l])), b = find(int(plant.seconds[l]));
            root[size_t(std::max(a, b))] = std::min(a, b);
        }
        Labels labels(n);
        for (size_t v = 0; v < n; v++) labels[v] = find(int(v));
        return labels;
    }

    struct Sums {
        std::vector<long long> size, out;
    };

    Sums sums(const Labels& labels) const {
        Sums s{std::vector<long long>(n, 0), std::vector<long long>(n, 0)};
        for (int label : labels) s.size[size_t(label)]++;
        for (size_t l = 0; l < plant.firsts.size(); l++) {
            size_t a = size_t(labels[plant.firsts[l]]), b = size_t(labels[plant.seconds[l]]);
            if (a == b) continue;
            s.out[a] += (long long)plant.signals[l];
            s.out[b] += (long long)plant.signals[l];
        }
        return s;
    }

    // Of each coarser cluster that is no finer one the greatest intersection of a child's cost with its own; of these the least.
    Rate crossing(const Labels& finer, const Labels& coarser) const {
        Sums fine = sums(finer), coarse = sums(coarser);
        std::vector<Rate> greatest(n, Rate{0, 1});
        for (size_t v = 0; v < n; v++) {
            size_t c = size_t(finer[v]), C = size_t(coarser[v]);
            if (fine.size[c] == coarse.size[C]) continue;
            Rate at{fine.out[c] - coarse.out[C], coarse.size[C] - fine.size[c]};
            if (below(greatest[C], at)) greatest[C] = at;
        }
        Rate least{1, 0};
        for (size_t v = 0; v < n; v++) {
            size_t c = size_t(finer[v]), C = size_t(coarser[v]);
            if (fine.size[c] != coarse.size[C] && below(greatest[C], least)) least = greatest[C];
        }
        long long by = std::gcd(least.p, least.q);
        return Rate{least.p / by, least.q / by};
    }

    static bool below(Rate a, Rate b) { return a.p * b.q < b.p * a.q; }

    const Plant& plant;
    size_t n;
    Network network;
    Work& work;
    Hierarchy listed;
};

} // namespace

Hierarchy baseline_hierarchy(const Plant& plant, Way way, Work& work) { return Search(plant, way, work).run(); }
