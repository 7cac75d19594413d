// The roots of a polynomial.
#ifndef BENCH_TWIN_ROOTS_H
#define BENCH_TWIN_ROOTS_H

#include "polynomial.h"

namespace twin {

// The negatives of all roots of a monic polynomial, in no order; false where it has fewer different ones than its
// degree.
bool find_roots(const Polynomial &polynomial, Side &negatives);

} // namespace twin

#endif
