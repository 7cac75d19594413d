// What is tested before a key is added to a running sketch or removed from it, at every key.
#ifndef BENCH_UPDATE_H
#define BENCH_UPDATE_H

#include "message.h"

// Known plan, legal size, values 1 to 65,536 at the plan's samples and 0 behind them. A value less 1 has a bit above
// the lowest 16 where the value is 0 or above 65,536. No branch on a value, so that the compiler takes several at
// once.
inline bool well_formed(const Sketch &sketch)
{
    if (15 < sketch.plan || VLOMDAR_LIST_LIMIT < sketch.size)
        return false;
    std::size_t samples = sketch.samples();
    std::uint32_t bad = 0;
    for (std::size_t i = 0; i < samples; i++)
        bad |= (sketch.values[i] - 1) >> 16;
    for (std::size_t i = samples; i < VLOMDAR_MOST_SAMPLES; i++)
        bad |= sketch.values[i];
    return bad == 0;
}

inline bool may_add(const Sketch &sketch, std::uint32_t key)
{
    return well_formed(sketch) && key <= VLOMDAR_KEY_LIMIT && sketch.size < VLOMDAR_LIST_LIMIT;
}

inline bool may_remove(const Sketch &sketch, std::uint32_t key)
{
    return well_formed(sketch) && key <= VLOMDAR_KEY_LIMIT && 0 < sketch.size;
}

#endif
