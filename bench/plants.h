// The plants that are measured, each made from a fixed seed.
#ifndef PLANTS_H
#define PLANTS_H
#include <cstddef>
#include <cstdint>
#include <string>
#include <vector>

struct Plant {
    std::string name;
    size_t n = 0;
    std::vector<size_t> firsts, seconds, signals;
};

Plant uniform_plant(size_t n, size_t lines);
Plant clustered_plant(size_t n, size_t lines);
Plant nested_plant(size_t n, size_t lines);
Plant geometric_plant(size_t n, size_t lines);
Plant tied_plant(size_t n, size_t lines);
Plant path_plant(size_t n);
Plant tree_plant(size_t n);
Plant rising_path_plant(size_t n);
Plant small_plant(uint64_t seed);

#endif
