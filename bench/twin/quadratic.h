// Polynomials of degree 2 at most.
#ifndef BENCH_TWIN_QUADRATIC_H
#define BENCH_TWIN_QUADRATIC_H

#include "polynomial.h"

namespace twin {

// The negatives of all roots of a monic polynomial of degree 2 at most; false where it has fewer different ones than
// its degree.
bool find_one_or_two(const Polynomial &polynomial, Side &negatives);

} // namespace twin

#endif
