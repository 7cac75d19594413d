// The degrees that the fraction theirs / ours may have, and where Euclid's scheme comes upon it (peer.h, step 2).
#ifndef BENCH_DEGREES_H
#define BENCH_DEGREES_H

#include <cstddef>

class Degrees {
public:
    Degrees(std::size_t samples, std::size_t home, std::size_t dome)
        : gap(long(dome) - long(home)), samples(long(samples)), numerator((this->samples + gap) / 2),
          denominator((this->samples - gap) / 2)
    {
    }

    // Theirs less ours is the gap, and together they are no more than there are samples.
    bool possible() const { return -samples <= gap && gap <= samples; }

    // The scheme has come to its middle once the numerator has a lower degree than this. A difference of fewer keys
    // than there are samples is then the pair that the scheme stands at.
    long middle() const { return full() ? numerator : numerator + 1; }

    // A difference of as many keys as there are samples is no pair of the scheme but the sum of two neighbours: the
    // one before the middle and the one after, which have these degrees then and otherwise not.
    bool sum_of_two(long earlier_numerator, long later_denominator) const
    {
        return full() && earlier_numerator == numerator && later_denominator == denominator;
    }

    // Whether a pair of these degrees has the gap, and no more roots than there are samples.
    bool allow(long found_numerator, long found_denominator) const
    {
        return 0 <= found_numerator && found_numerator <= numerator && found_numerator - found_denominator == gap;
    }

private:
    bool full() const { return numerator + denominator == samples; }

    long gap;
    long samples;
    long numerator;
    long denominator;
};

#endif
