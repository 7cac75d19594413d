// The fraction of two polynomials that has given values at the sample points.
#ifndef BENCH_PLAIN_FRACTION_H
#define BENCH_PLAIN_FRACTION_H

#include "../degrees.h"
#include "polynomial.h"

namespace plain {

// numerator = denominator × value at every sample point. The polynomials are in W = -Z, which is 1, 2 and so on at
// the sample points; a key is the negative of a root.
struct Fraction {
    Polynomial numerator;
    Polynomial denominator;
};

// The fraction of two monic polynomials that a difference would be which the first `samples` points tell; false where
// there is none.
bool find_fraction(const Residue *values, std::size_t samples, const Degrees &degrees, Fraction &found);

// Whether a fraction has the values from point number `first`, from 0, up to number `samples` - 1. There is room for
// eight values behind.
bool holds(const Fraction &fraction, const Residue *values, std::size_t first, std::size_t samples);

} // namespace plain

#endif
