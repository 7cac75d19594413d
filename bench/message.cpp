#include "message.h"

#include <algorithm>
#include <cstring>

namespace {

constexpr std::uint32_t version = 1;
constexpr std::size_t head_bits = 23;
constexpr std::size_t value_bits = 17;

// Bits that wait until they are four whole bytes.
struct Packer {
    std::uint8_t *next;
    std::uint64_t waiting = 0;
    unsigned count = 0;

    void put(std::uint32_t number, unsigned width)
    {
        waiting = waiting << width | number;
        count += width;
        if (32 <= count)
            put_four_bytes();
    }

    void put_four_bytes()
    {
        count -= 32;
        std::uint32_t four = __builtin_bswap32(std::uint32_t(waiting >> count));
        std::memcpy(next, &four, sizeof four);
        next += sizeof four;
    }

    // Those that are left, and zero bits to the next whole byte.
    void finish()
    {
        std::uint64_t left = waiting << (32 - count);
        for (unsigned done = 0; done < count; done += 8)
            *next++ = std::uint8_t(left >> (24 - done));
    }
};

// The eight bytes from `from` on as a number, the first byte highest.
std::uint64_t eight_bytes(const std::uint8_t *from)
{
    std::uint64_t number;
    std::memcpy(&number, from, sizeof number);
    return __builtin_bswap64(number);
}

// So many bits, at most 57, from bit number `start` on.
std::uint32_t bits(const std::uint8_t *from, std::size_t start, unsigned width)
{
    return std::uint32_t(eight_bytes(from + start / 8) << start % 8 >> (64 - width));
}

} // namespace

std::size_t write(const Sketch &sketch, std::uint8_t *message)
{
    Packer packer{message};
    packer.put(version << 19 | sketch.plan << 15 | sketch.size, head_bits);
    std::size_t samples = sketch.samples();
    for (std::size_t i = 0; i < samples; i++)
        packer.put(sketch.values[i], value_bits);
    packer.finish();
    return std::size_t(packer.next - message);
}

// The values are read each by its own place, so that none waits for the one before it, from a copy that eight bytes
// can be read of anywhere. A value less 1 has a bit above the lowest 16 where the value is 0 or above 65,536.
bool read(const std::uint8_t *message, std::size_t length, Sketch &sketch)
{
    if (length == 0 || message[0] >> 4 != version || length != vlomdar_message_length(message[0] & 15))
        return false;
    std::uint8_t copy[VLOMDAR_LONGEST_MESSAGE + 8] = {};
    std::memcpy(copy, message, length);
    sketch.plan = message[0] & 15;
    sketch.size = bits(copy, 8, 15);
    std::size_t samples = sketch.samples();
    std::uint32_t bad = 0;
    for (std::size_t i = 0; i < samples; i++) {
        sketch.values[i] = bits(copy, head_bits + value_bits * i, value_bits);
        bad |= (sketch.values[i] - 1) >> 16;
    }
    std::fill(sketch.values + samples, sketch.values + VLOMDAR_MOST_SAMPLES, 0);
    std::size_t end = head_bits + value_bits * samples;
    std::uint8_t padding = std::uint8_t(copy[end / 8] << end % 8);
    return sketch.size <= VLOMDAR_LIST_LIMIT && bad == 0 && padding == 0;
}
