// Sets whose difference is known, the same ones in every run of the benchmark.
#ifndef BENCH_SETS_H
#define BENCH_SETS_H

#include "lists.h"

#include <cstddef>
#include <random>

using Random = std::mt19937;

// Two sides that differ in a known way.
struct Sides {
    Keys home;
    Keys dome;
    Keys theirs;
    Keys ours;
};

// How a list is made: with no runs, of any keys, each as likely; otherwise of so many runs of consecutive keys, their
// lengths and places random.
struct Shape {
    std::size_t runs;

    const char *name() const { return runs == 0 ? "random" : "runs"; }
};

Keys make_keys(std::size_t count, Shape shape, Random &random);

// Home has `home` keys, of which the dome lacks `ours`; the dome has `theirs` more. Both together have the shape, and
// the keys apart are any of them.
Sides make_sides(std::size_t home, std::size_t theirs, std::size_t ours, Shape shape, Random &random);

#endif
