// The arithmetic for the values of sets (shared.h).
#ifndef BENCH_PLAIN_FIELD_H
#define BENCH_PLAIN_FIELD_H

#include "../shared.h"
#include "residue.h"

namespace plain {

struct Field {
    using Number = Residue;

    static Residue times(Residue one, Residue other) { return plain::times(one, other); }
    static Residue inverse(Residue residue) { return plain::inverse(residue); }
    static void multiply_in(const std::uint32_t *keys, std::size_t count, std::size_t first, Residue *product);
    static Residue product_at(std::size_t index, const std::uint32_t *keys, std::size_t count);
};

} // namespace plain

#endif
