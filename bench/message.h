// A sketch and its message (include/vlomdar.h): 4 bits of version, 4 of plan, 15 of size, 17 for each value, then
// zero bits to the next whole byte, the most significant bit first. All peers write and read it by these two
// functions.
#ifndef BENCH_MESSAGE_H
#define BENCH_MESSAGE_H

#include "vlomdar.h"

#include <cstddef>
#include <cstdint>

// The values stand at the sample points 65,537 - 1, 65,537 - 2 and so on; those beyond the plan's samples are 0.
struct Sketch {
    std::uint32_t plan;
    std::uint32_t size;
    std::uint32_t values[VLOMDAR_MOST_SAMPLES];

    std::size_t samples() const { return vlomdar_samples(plan); }
};

// Writes the message of a well-formed sketch and returns its length in bytes. There is room for the longest message.
std::size_t write(const Sketch &sketch, std::uint8_t *message);

// Reads a message; false where it is not that of a well-formed sketch.
bool read(const std::uint8_t *message, std::size_t length, Sketch &sketch);

#endif
