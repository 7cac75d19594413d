// Polynomials of degree 64 at most, in place and without allocation; the coefficient of W^0 comes first.
#ifndef BENCH_TWIN_POLYNOMIAL_H
#define BENCH_TWIN_POLYNOMIAL_H

#include "residue.h"

#include <cstddef>

namespace twin {

constexpr std::size_t most_coefficients = VLOMDAR_MOST_SAMPLES + 1;

struct Polynomial {
    std::size_t degree;
    Residue coefficient[most_coefficients];
};

} // namespace twin

#endif
