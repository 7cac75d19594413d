// Powers of polynomials after division.
#ifndef BENCH_PLAIN_SQUARING_H
#define BENCH_PLAIN_SQUARING_H

#include "polynomial.h"

namespace plain {

// Squares a polynomial so many times, each time after division by a monic divisor of higher degree, which is 2 or
// more.
void square(Polynomial &polynomial, const Polynomial &monic, int times);

} // namespace plain

#endif
