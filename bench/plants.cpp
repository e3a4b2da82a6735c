#include "plants.h"
#include <algorithm>
#include <cmath>
#include <functional>
#include <map>
#include <utility>

namespace {

// splitmix64, so that a seed gives the same plant with every C++ library.
struct Random {
    uint64_t state;
    uint64_t next() {
        uint64_t z = (state += 0x9e3779b97f4a7c15u);
        z = (z ^ (z >> 30)) * 0xbf58476d1ce4e5b9u;
        z = (z ^ (z >> 27)) * 0x94d049bb133111ebu;
        return z ^ (z >> 31);
    }
    size_t below(size_t k) { return next() % k; }
    size_t between(size_t low, size_t high) { return low + below(high - low + 1); }
    double unit() { return double(next() >> 11) / double(1ull << 53); }
};

using Pair = std::pair<size_t, size_t>;
using Lines = std::map<Pair, size_t>;

// The lines in rising order, as an accepted plant has them.
Plant plant_of(const std::string& name, size_t n, const Lines& lines) {
    Plant plant;
    plant.name = name;
    plant.n = n;
    for (const auto& line : lines) {
        plant.firsts.push_back(line.first.first);
        plant.seconds.push_back(line.first.second);
        plant.signals.push_back(line.second);
    }
    return plant;
}

// Lines between random pairs that pass the test, until there are so many.
void add_lines(Lines& lines, Random& random, size_t n, size_t until, size_t low, size_t high, const std::function<bool(size_t, size_t)>& allowed) {
    while (lines.size() < until) {
        size_t a = random.below(n), b = random.below(n);
        if (a > b) std::swap(a, b);
        if (a == b || lines.count({a, b}) || !allowed(a, b)) continue;
        lines[{a, b}] = random.between(low, high);
    }
}

bool any(size_t, size_t) { return true; }

} // namespace

// Random lines with random signals of the whole range.
Plant uniform_plant(size_t n, size_t count) {
    Random random{1};
    Lines lines;
    add_lines(lines, random, n, count, 1, 65535, any);
    return plant_of("uniform", n, lines);
}

// Groups of an eighth of the devices, and of no less than 4: four lines of five inside a group, or nine pairs of ten, and strong; the others weak.
Plant clustered_plant(size_t n, size_t count) {
    Random random{2};
    Lines lines;
    size_t group = std::max<size_t>(n / 8, 4);
    size_t inside = std::min(count * 4 / 5, n * (group - 1) / 2 * 9 / 10);
    add_lines(lines, random, n, inside, 500, 1000, [group](size_t a, size_t b) { return a / group == b / group; });
    add_lines(lines, random, n, count, 1, 50, any);
    return plant_of("clustered", n, lines);
}

// Groups of 8 devices in groups of 32: strong lines in the small ones, weaker in the large ones, the weakest between them.
Plant nested_plant(size_t n, size_t count) {
    Random random{3};
    Lines lines;
    add_lines(lines, random, n, count * 2 / 5, 5000, 10000, [](size_t a, size_t b) { return a / 8 == b / 8; });
    add_lines(lines, random, n, count * 4 / 5, 200, 400, [](size_t a, size_t b) { return a / 32 == b / 32; });
    add_lines(lines, random, n, count, 1, 20, any);
    return plant_of("nested", n, lines);
}

// Points in the unit square: the nearest pairs are joined, and the nearer the more signals.
Plant geometric_plant(size_t n, size_t count) {
    Random random{4};
    std::vector<std::pair<double, double>> at(n);
    for (auto& point : at) {
        point.first = random.unit();
        point.second = random.unit();
    }
    std::vector<std::pair<double, Pair>> pairs;
    for (size_t a = 0; a < n; a++)
        for (size_t b = a + 1; b < n; b++)
            pairs.push_back({std::hypot(at[a].first - at[b].first, at[a].second - at[b].second), {a, b}});
    std::sort(pairs.begin(), pairs.end());
    pairs.resize(count);
    Lines lines;
    for (const auto& pair : pairs) lines[pair.second] = 1 + size_t(1000 * (1 - pair.first / pairs.back().first));
    return plant_of("geometric", n, lines);
}

// Random lines with 1, 2 or 3 signals: many ties.
Plant tied_plant(size_t n, size_t count) {
    Random random{5};
    Lines lines;
    add_lines(lines, random, n, count, 1, 3, any);
    return plant_of("ties", n, lines);
}

// A path through all devices.
Plant path_plant(size_t n) {
    Random random{6};
    Lines lines;
    for (size_t v = 1; v < n; v++) lines[{v - 1, v}] = random.between(1, 65535);
    return plant_of("path", n, lines);
}

// A tree: each device but the first hangs on a random one before it.
Plant tree_plant(size_t n) {
    Random random{7};
    Lines lines;
    for (size_t v = 1; v < n; v++) lines[{random.below(v), v}] = random.between(1, 65535);
    return plant_of("tree", n, lines);
}

// A path whose signals rise by 1 from line to line, all of them large: the levels part from the stretch one by one.
Plant rising_path_plant(size_t n) {
    Lines lines;
    for (size_t v = 1; v < n; v++) lines[{v - 1, v}] = 60000 + v;
    return plant_of("rising path", n, lines);
}

// 1 to 24 devices, up to three lines for each, few signals.
Plant small_plant(uint64_t seed) {
    Random random{seed};
    size_t n = random.between(1, 24);
    size_t most = std::min(3 * n, n * (n - 1) / 2);
    Lines lines;
    add_lines(lines, random, n, random.between(0, most), 1, random.between(1, 9), any);
    return plant_of("small", n, lines);
}
