// The hierarchy in document 004's own way: its parametric search (section 3.2, without contraction), each clustering by the basic
// algorithm of section 3.1 with one minimum cut for each device that no community covers yet, each cut by LEMON's preflow.
#ifndef BASELINE_H
#define BASELINE_H
#include "plants.h"

struct Hierarchy {
    std::vector<std::vector<int>> levels; // of each level the n labels, finest first
    std::vector<long long> low_p, low_q;  // the low rate of each level but the last
};

// How the smaller side at a tie is taken. Two phases: the preflow is made a flow, and the community is what the device can still reach.
// One phase: capacities are scaled so that each device in the set costs a little more, which leaves one least cut, and LEMON's own
// answer after its first phase is that one.
enum class Way { two_phases, one_phase };

// How much work a hierarchy was.
struct Work {
    size_t rates = 0, cuts = 0;
};

Hierarchy baseline_hierarchy(const Plant& plant, Way way, Work& work);

#endif
