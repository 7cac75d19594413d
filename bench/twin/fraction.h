// The fraction of two polynomials that has given values at the sample points.
#ifndef BENCH_TWIN_FRACTION_H
#define BENCH_TWIN_FRACTION_H

#include "polynomial.h"
#include "values.h"

namespace twin {

// The polynomials are in W = -Z, which is 1, 2 and so on at the sample points; a key is the negative of a root.
struct Fraction {
    Polynomial numerator;
    Polynomial denominator;
};

// The fraction of two monic polynomials that a difference would be; false where there is none. The gap is the
// numerator's degree less the denominator's.
bool find_fraction(const Units &values, std::size_t samples, long gap, Fraction &found);

} // namespace twin

#endif
