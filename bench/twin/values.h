// The values of sets at the sample points. Point number i, from 1, is -i, so a value is the product of -(key + i)
// over the keys; here it is the product of key + i, which has the other sign where the keys are odd in number.
#ifndef BENCH_TWIN_VALUES_H
#define BENCH_TWIN_VALUES_H

#include "unit.h"

#include <cstddef>

namespace twin {

// Whatever there is one of for each sample point, and room behind, since points are taken several at once.
struct Units {
    Unit at[VLOMDAR_MOST_SAMPLES + 8];
};

// Values as quotients. Where they are running the value at a point is the product of the quotients up to there.
struct Quotients {
    Units above;
    Units below;
    bool running;
};

// The product of key + 1, key + 2 and so on over the keys of a list.
void find_values(const List &list, std::size_t samples, Quotients &made);

// Another set's values, divided by these: the quotients.
void divide(const Units &dividend, const Quotients &divisor, std::size_t samples, Quotients &made);

// What the quotients come to.
void settle(const Quotients &quotients, std::size_t samples, Units &made);

// One inverse of a product serves all: each is the inverse of the product of two times the other.
void invert(Units &units, std::size_t samples);

} // namespace twin

#endif
