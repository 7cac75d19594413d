// Lists of keys: as bytes, the way the C entries take them, and as numbers; and what makes two lists a difference of
// home.
#ifndef BENCH_LISTS_H
#define BENCH_LISTS_H

#include "vlomdar.h"

#include <cstddef>
#include <cstdint>
#include <vector>

using Bytes = std::vector<std::uint8_t>;
using Keys = std::vector<std::uint32_t>;

// A legal list, taken in. Room for the longest stands in place, so that nothing is allocated.
struct List {
    std::size_t count;
    std::size_t runs; // of consecutive keys
    std::uint32_t keys[VLOMDAR_LIST_LIMIT];
};

// Keys of one side of a difference.
struct Side {
    std::size_t count = 0;
    std::uint32_t keys[VLOMDAR_MOST_SAMPLES];

    void add(std::uint32_t key) { keys[count++] = key; }
};

// Ascending both: the keys that the dome has and home lacks, and those that home has and the dome lacks.
struct Difference {
    Side theirs;
    Side ours;
};

Bytes bytes_of(const Keys &keys);

// The keys of a list of bytes; false where the list is not legal: too long, a key too large, or one not above the key
// before it.
bool take(const Bytes &bytes, List &list);

// The keys of one side as bytes.
void give(const Side &side, std::uint8_t *bytes);

// Puts both lists in order and says whether theirs are keys that home lacks and ours are keys that home has.
bool settle(const List &home, Difference &found);

// The first and the last key of every run of a list.
struct Runs {
    std::size_t count;
    std::uint32_t first[VLOMDAR_LIST_LIMIT];
    std::uint32_t last[VLOMDAR_LIST_LIMIT];
};

void find_runs(const List &list, Runs &runs);

#endif
