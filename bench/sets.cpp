#include "sets.h"

#include <algorithm>
#include <numeric>

// So many different numbers below a limit, ascending.
static Keys numbers_below(std::uint32_t limit, std::size_t count, Random &random)
{
    Keys numbers(limit);
    std::iota(numbers.begin(), numbers.end(), 0u);
    std::shuffle(numbers.begin(), numbers.end(), random);
    numbers.resize(count);
    std::sort(numbers.begin(), numbers.end());
    return numbers;
}

// A key is as many as there are keys below it and, of the numbers below it that are no keys, as many as stand before
// its run.
static Keys keys_in_runs(std::size_t count, std::size_t runs, Random &random)
{
    Keys ends = numbers_below(std::uint32_t(count) - 1, runs - 1, random);
    Keys absent = numbers_below(VLOMDAR_KEY_LIMIT + 2 - std::uint32_t(count), runs, random);
    Keys keys(count);
    std::size_t run = 0;
    for (std::size_t i = 0; i < count; i++) {
        keys[i] = std::uint32_t(i) + absent[run];
        run += run < ends.size() && ends[run] == i;
    }
    return keys;
}

Keys make_keys(std::size_t count, Shape shape, Random &random)
{
    return shape.runs == 0 ? numbers_below(VLOMDAR_KEY_LIMIT + 1, count, random)
                           : keys_in_runs(count, shape.runs, random);
}

static Keys ascending(Keys::const_iterator first, Keys::const_iterator last)
{
    Keys keys(first, last);
    std::sort(keys.begin(), keys.end());
    return keys;
}

// The keys stand as ours, then those of both sides, then theirs.
Sides make_sides(std::size_t home, std::size_t theirs, std::size_t ours, Shape shape, Random &random)
{
    Keys keys = make_keys(home + theirs, shape, random);
    std::shuffle(keys.begin(), keys.end(), random);
    auto first_shared = keys.begin() + long(ours);
    auto first_theirs = keys.begin() + long(home);
    return {ascending(keys.begin(), first_theirs), ascending(first_shared, keys.end()),
            ascending(first_theirs, keys.end()), ascending(keys.begin(), first_shared)};
}
