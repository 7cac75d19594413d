// The peer that uses NTL: its arithmetic modulo a small prime, its polynomials and its root finding.
#include "degrees.h"
#include "shared.h"
#include "peer.h"

#include <NTL/lzz_pX.h>
#include <NTL/lzz_pXFactoring.h>
#include <NTL/vec_lzz_p.h>
#include <NTL/version.h>

#include <algorithm>

namespace {

using NTL::vec_zz_p;
using NTL::zz_p;
using NTL::zz_pX;

struct Field {
    using Number = long;

    const long prime = zz_p::modulus();
    const NTL::mulmod_t prepared = zz_p::ModulusInverse();

    long times(long one, long other) const { return NTL::MulMod(one, other, prime, prepared); }
    long inverse(long number) const { return NTL::InvMod(number, prime); }

    void multiply_in(const std::uint32_t *keys, std::size_t count, std::size_t first, long *product) const
    {
        long lane[shared::lanes];
        std::copy(product, product + shared::lanes, lane);
        for (std::size_t key = 0; key < count; key++)
            for (std::size_t i = 0; i < shared::lanes; i++)
                lane[i] = times(lane[i], shared::point(first + i) - long(keys[key]));
        std::copy(lane, lane + shared::lanes, product);
    }

    long product_at(std::size_t index, const std::uint32_t *keys, std::size_t count) const
    {
        return shared::product_by_keys(*this, index, keys, count);
    }
};

// numerator = denominator × value at every sample point
struct Fraction {
    zz_pX numerator;
    zz_pX denominator;
};

// The next pair of Euclid's scheme takes the place of the earlier one.
void step(Fraction &earlier, const Fraction &later)
{
    zz_pX quotient;
    NTL::DivRem(quotient, earlier.numerator, earlier.numerator, later.numerator);
    earlier.denominator -= quotient * later.denominator;
}

// The sum of both pairs with factors that make numerator and denominator monic.
Fraction monic_sum(const Fraction &earlier, const Fraction &later)
{
    zz_p earlier_factor = NTL::inv(NTL::LeadCoeff(earlier.numerator));
    zz_p later_factor = NTL::inv(NTL::LeadCoeff(later.denominator));
    return {earlier_factor * earlier.numerator + later_factor * later.numerator,
            earlier_factor * earlier.denominator + later_factor * later.denominator};
}

bool find_fraction(const vec_zz_p &values, const Degrees &degrees, Fraction &found)
{
    vec_zz_p points;
    points.SetLength(values.length());
    for (long i = 0; i < points.length(); i++)
        points[i] = shared::point(std::size_t(i));
    Fraction earlier{NTL::BuildFromRoots(points), zz_pX()};
    Fraction later{NTL::interpolate(points, values), zz_pX(1)};
    while (degrees.middle() <= NTL::deg(later.numerator)) {
        step(earlier, later);
        std::swap(earlier, later);
    }
    if (degrees.sum_of_two(NTL::deg(earlier.numerator), NTL::deg(later.denominator))) {
        found = monic_sum(earlier, later);
        return true;
    }
    found = later;
    if (!degrees.allow(NTL::deg(found.numerator), NTL::deg(found.denominator)) ||
        NTL::LeadCoeff(found.numerator) != NTL::LeadCoeff(found.denominator))
        return false;
    NTL::MakeMonic(found.numerator);
    NTL::MakeMonic(found.denominator);
    return true;
}

// All roots of a monic polynomial; false where it has fewer different ones than its degree. FindRoots asks for a
// polynomial that has as many, which is one that divides Z^65,537 - Z.
bool find_roots(const zz_pX &polynomial, Side &roots)
{
    roots.count = 0;
    if (NTL::deg(polynomial) == 0)
        return true;
    if (1 < NTL::deg(polynomial) && !NTL::IsX(NTL::PowerXMod(zz_p::modulus(), NTL::zz_pXModulus(polynomial))))
        return false;
    vec_zz_p found;
    NTL::FindRoots(found, polynomial);
    for (long i = 0; i < found.length(); i++)
        roots.add(std::uint32_t(NTL::rep(found[i])));
    return true;
}

vec_zz_p vector_of(const long *number, std::size_t count)
{
    vec_zz_p made;
    made.SetLength(long(count));
    for (std::size_t i = 0; i < count; i++)
        made[long(i)].LoopHole() = number[i];
    return made;
}

bool reconcile(const List &home, const Sketch &dome, Difference &found)
{
    std::size_t samples = dome.samples();
    Degrees degrees(samples, home.count, dome.size);
    if (!degrees.possible())
        return false;
    shared::Quotients<Field> values;
    found = Difference();
    if (!shared::find_fraction_values(Field(), home, dome, values))
        return true;
    Fraction fraction;
    return find_fraction(vector_of(values.above, samples), degrees, fraction) &&
           find_roots(fraction.numerator, found.theirs) && find_roots(fraction.denominator, found.ours) &&
           settle(home, found);
}

class Ntl : public Peer {
public:
    Ntl() { zz_p::init(modulus); }

    const char *name() const override { return "NTL"; }
    std::string version() const override { return NTL_VERSION; }
    void values(const List &list, Sketch &sketch) override { shared::write_values(Field(), list, sketch); }
    bool reconcile(const List &home, const Sketch &dome, Difference &found) override
    {
        return ::reconcile(home, dome, found);
    }
    bool add(const List &list, Sketch &sketch) override { return shared::add_all(Field(), list, sketch); }
    bool remove(const List &list, Sketch &sketch) override { return shared::remove_all(Field(), list, sketch); }
};

} // namespace

std::unique_ptr<Peer> ntl_peer() { return std::unique_ptr<Peer>(new Ntl); }
