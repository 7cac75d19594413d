// Polynomials of degree 64 at most, in place and without allocation. The coefficient of W^0 comes first; the last one
// is not 0.
#ifndef BENCH_PLAIN_POLYNOMIAL_H
#define BENCH_PLAIN_POLYNOMIAL_H

#include "residue.h"

#include <cstddef>

namespace plain {

constexpr std::size_t most_coefficients = VLOMDAR_MOST_SAMPLES + 1;

// Long enough for a product of two polynomials.
using Sums = Sum[2 * most_coefficients];

class Polynomial {
public:
    Polynomial() : length(0) {}
    Polynomial(const Polynomial &other);
    Polynomial &operator=(const Polynomial &other);

    // W + shift, and a number other than 0 alone.
    static Polynomial linear(Residue shift);
    static Polynomial constant(Residue value);

    bool zero() const { return length == 0; }
    long degree() const { return long(length) - 1; }
    Residue leading() const { return coefficient[length - 1]; }

    void scale(Residue factor);

    // Takes the sums as coefficients.
    void set(const Sum *sums, std::size_t count);

    // Takes zeros from the end.
    void trim();

    std::size_t length;
    Residue coefficient[most_coefficients];
};

bool operator==(const Polynomial &one, const Polynomial &other);

// sums[i] += factor × coefficient[i]
void add_multiple(Sum *sums, Residue factor, const Residue *coefficient, std::size_t count);

// one = one × factor + other × (W × upper + lower)
void combine(Polynomial &one, Residue factor, const Polynomial &other, Residue upper, Residue lower);

// one -= other × factor
void take_product(Polynomial &one, const Polynomial &other, const Polynomial &factor);

// What is left of the dividend takes its place, and the quotient is written if asked for. The divisor is not 0.
void divide(Polynomial &dividend, const Polynomial &divisor, Polynomial *quotient = nullptr);

// Where the divisor has a degree lower by 1, the remainder times a number is one × factor + other × (W × upper +
// lower). No inverse is needed for that.
struct Remainder {
    Residue factor;
    Residue upper;
    Residue lower;

    Remainder(const Polynomial &one, const Polynomial &other);
};

// polynomial × (W + shift), after division by a monic divisor of higher degree.
Polynomial times_linear(const Polynomial &polynomial, Residue shift, const Polynomial &monic);

// The greatest common divisor, monic. Not both are 0.
Polynomial common_divisor(const Polynomial &one, const Polynomial &other);

} // namespace plain

#endif
