// The project's hierarchy call beside document 004's own way, in one run on the same plants.
#include "baseline.h"
#include "stack.h"
#include <time.h>
#include <algorithm>
#include <cmath>
#include <cstdio>
#include <functional>

// crates/timing: a list is passed as its address and its length.
extern "C" size_t timing_hierarchy(size_t n, const size_t* firsts, size_t firsts_len, const size_t* seconds, size_t seconds_len, const size_t* signals, size_t signals_len, size_t* labels,
                                   size_t labels_len, size_t* low_p, size_t low_p_len, size_t* low_q, size_t low_q_len);

namespace {

const double LONG_ENOUGH = 3.0; // seconds for the runs of one plant
const int LEAST_RUNS = 7;
const size_t SMALL_PLANTS = 500;

// The lists that the project's call fills.
struct Lent {
    std::vector<size_t> labels, low_p, low_q;
    size_t levels = 0;
    explicit Lent(size_t n) : labels(n * n, 999), low_p(n, 999), low_q(n, 999) {}
    void call(const Plant& g) {
        levels = timing_hierarchy(g.n, g.firsts.data(), g.firsts.size(), g.seconds.data(), g.seconds.size(), g.signals.data(), g.signals.size(), labels.data(), labels.size(), low_p.data(),
                                  low_p.size(), low_q.data(), low_q.size());
    }
};

// The processor's time of this thread, so that other work on the machine counts little.
double now() {
    timespec t;
    clock_gettime(CLOCK_THREAD_CPUTIME_ID, &t);
    return double(t.tv_sec) + double(t.tv_nsec) * 1e-9;
}

double seconds_of(const std::function<void()>& work) {
    double start = now();
    work();
    return now() - start;
}

// Both found the same number of levels, the same labels and the same low rates.
bool same(const Plant& g, const Lent& a, const Hierarchy& b) {
    if (a.levels != b.levels.size() || a.levels != b.low_p.size() + 1) return false;
    for (size_t i = 0; i < a.levels; i++)
        for (size_t v = 0; v < g.n; v++)
            if (a.labels[i * g.n + v] != size_t(b.levels[i][v])) return false;
    for (size_t i = 0; i + 1 < a.levels; i++)
        if (a.low_p[i] != size_t(b.low_p[i]) || a.low_q[i] != size_t(b.low_q[i])) return false;
    return true;
}

struct Figures {
    size_t levels = 0, stack = 0, lemon_stack = 0;
    double time = 1e9, two_phases = 1e9, one_phase = 1e9;
    Work work;
    bool same = false;
    double lemon() const { return std::min(two_phases, one_phase); }
    double ratio() const { return lemon() / time; }
    double two_ratio() const { return two_phases / time; }
};

// Levels and stack, in runs of their own.
void look(const Plant& g, Figures& f) {
    Lent lent(g.n);
    Hierarchy two, one;
    Work unused;
    f.stack = stack_used([&] { lent.call(g); });
    size_t a = stack_used([&] { two = baseline_hierarchy(g, Way::two_phases, f.work); });
    size_t b = stack_used([&] { one = baseline_hierarchy(g, Way::one_phase, unused); });
    f.lemon_stack = std::max(a, b);
    f.levels = lent.levels;
    f.same = same(g, lent, two) && same(g, lent, one);
}

// The least times of several runs, each way in turn.
Figures measure(const Plant& g) {
    Figures f;
    look(g, f);
    Lent lent(g.n);
    Hierarchy other;
    Work unused;
    double start = now();
    for (int i = 0; i < LEAST_RUNS || now() - start < LONG_ENOUGH; i++) {
        f.time = std::min(f.time, seconds_of([&] { lent.call(g); }));
        f.two_phases = std::min(f.two_phases, seconds_of([&] { other = baseline_hierarchy(g, Way::two_phases, unused); }));
        f.one_phase = std::min(f.one_phase, seconds_of([&] { other = baseline_hierarchy(g, Way::one_phase, unused); }));
    }
    return f;
}

bool all_same = true;

// Small plants, many of them in several parts or without lines: the same levels too.
size_t small_plants_same() {
    size_t count = 0;
    for (uint64_t seed = 1; seed <= SMALL_PLANTS; seed++) {
        Plant g = small_plant(seed);
        Figures f;
        look(g, f);
        if (f.same) count++;
    }
    return count;
}

// A row of the table without its last column.
void print_row(const Plant& g, const Figures& f) {
    printf("| %s | %zu | %zu | %zu | %zu | %zu | %.3f | %.3f | %.3f | %.2f | ", g.name.c_str(), g.n, g.firsts.size(), f.levels, f.work.rates, f.work.cuts, f.time * 1e3, f.two_phases * 1e3,
           f.one_phase * 1e3, f.ratio());
}

// The figures of each plant. The last column has the stack, or of a growing kind how much longer it took than the row above.
void table(const std::vector<Plant>& plants, bool growing) {
    const char* last = growing ? "times the row above: project, LEMON" : "stack, bytes: project, LEMON";
    printf("| plant | devices | lines | levels | rates | cuts | project, ms | LEMON two phases, ms | LEMON one phase, ms | ratio | %s |\n", last);
    printf("|---|---|---|---|---|---|---|---|---|---|---|\n");
    double logs = 0, two_logs = 0, count = double(plants.size());
    Figures above;
    std::string kind;
    for (const Plant& g : plants) {
        Figures f = measure(g);
        all_same = all_same && f.same;
        logs += std::log(f.ratio());
        two_logs += std::log(f.two_ratio());
        print_row(g, f);
        if (!growing) printf("%zu, %zu |\n", f.stack, f.lemon_stack);
        else if (kind != g.name) printf("|\n");
        else printf("%.1f, %.1f |\n", f.time / above.time, f.lemon() / above.lemon());
        fflush(stdout);
        above = f;
        kind = g.name;
    }
    printf("\nRatio: the faster LEMON time over the project's. Geometric mean of the ratios: %.2f; with two phases everywhere: %.2f\n\n", std::exp(logs / count), std::exp(two_logs / count));
}

} // namespace

int main() {
    table({uniform_plant(128, 1024), clustered_plant(128, 1024), nested_plant(128, 1024), geometric_plant(128, 1024), tied_plant(128, 1024), path_plant(128), tree_plant(128)}, false);
    Figures deep;
    look(rising_path_plant(128), deep);
    all_same = all_same && deep.same;
    printf("Stack where a search stands in a search as often as it can (a path, signals 60001 to 60127, %zu levels): project %zu bytes, LEMON %zu\n\n", deep.levels, deep.stack, deep.lemon_stack);
    table({uniform_plant(16, 120), uniform_plant(32, 256), uniform_plant(64, 512), uniform_plant(128, 1024), clustered_plant(16, 120), clustered_plant(32, 256), clustered_plant(64, 512),
           clustered_plant(128, 1024)},
          true);
    size_t small = small_plants_same();
    printf("Levels, labels and low rates: %s on the plants above, and the same on %zu of %zu small plants\n", all_same ? "the same" : "NOT THE SAME", small, SMALL_PLANTS);
    return all_same && small == SMALL_PLANTS ? 0 : 1;
}
