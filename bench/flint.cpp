// The peer that uses FLINT: its arithmetic modulo a word, its polynomials and its root finding.
#include "degrees.h"
#include "shared.h"
#include "peer.h"

#include <flint/flint.h>
#include <flint/nmod_poly.h>
#include <flint/nmod_poly_factor.h>
#include <flint/nmod_vec.h>

#include <algorithm>

namespace {

struct Field {
    using Number = mp_limb_t;

    nmod_t modulo;

    Field() { nmod_init(&modulo, modulus); }

    mp_limb_t times(mp_limb_t one, mp_limb_t other) const { return nmod_mul(one, other, modulo); }
    mp_limb_t inverse(mp_limb_t number) const { return nmod_inv(number, modulo); }
    void multiply_in(const std::uint32_t *keys, std::size_t count, std::size_t first, mp_limb_t *product) const;

    mp_limb_t product_at(std::size_t index, const std::uint32_t *keys, std::size_t count) const
    {
        return shared::product_by_keys(*this, index, keys, count);
    }
};

// A limb holds a residue times two more, so two keys share one reduction.
void Field::multiply_in(const std::uint32_t *keys, std::size_t count, std::size_t first, mp_limb_t *product) const
{
    mp_limb_t lane[shared::lanes], start = mp_limb_t(shared::point(first));
    std::copy(product, product + shared::lanes, lane);
    for (std::size_t key = 0; key + 1 < count; key += 2)
        for (std::size_t i = 0; i < shared::lanes; i++) {
            mp_limb_t both = (start - i - keys[key]) * (start - i - keys[key + 1]);
            NMOD_RED2(lane[i], mp_limb_t(0), lane[i] * both, modulo);
        }
    for (std::size_t i = 0; count % 2 == 1 && i < shared::lanes; i++)
        lane[i] = times(lane[i], start - i - keys[count - 1]);
    std::copy(lane, lane + shared::lanes, product);
}

// FLINT's polynomials are C structures that have to be cleared.
struct Polynomial {
    nmod_poly_t it;
    Polynomial() { nmod_poly_init(it, modulus); }
    ~Polynomial() { nmod_poly_clear(it); }
    Polynomial(const Polynomial &) = delete;
    Polynomial &operator=(const Polynomial &) = delete;

    slong degree() const { return nmod_poly_degree(it); }
    mp_limb_t leading() const { return nmod_poly_get_coeff_ui(it, degree()); }
    void scale(mp_limb_t factor) { nmod_poly_scalar_mul_nmod(it, it, factor); }
};

// numerator = denominator × value at every sample point
struct Fraction {
    Polynomial numerator;
    Polynomial denominator;

    void swap(Fraction &other)
    {
        nmod_poly_swap(numerator.it, other.numerator.it);
        nmod_poly_swap(denominator.it, other.denominator.it);
    }

    void scale(mp_limb_t factor)
    {
        numerator.scale(factor);
        denominator.scale(factor);
    }
};

class Flint : public Peer {
public:
    ~Flint() override { flint_cleanup(); }

    const char *name() const override { return "FLINT"; }
    std::string version() const override { return FLINT_VERSION; }
    void values(const List &list, Sketch &sketch) override { shared::write_values(field, list, sketch); }
    bool reconcile(const List &home, const Sketch &dome, Difference &found) override;
    bool add(const List &list, Sketch &sketch) override { return shared::add_all(field, list, sketch); }
    bool remove(const List &list, Sketch &sketch) override { return shared::remove_all(field, list, sketch); }

private:
    void monic_sum(Fraction &earlier, Fraction &later, Fraction &sum) const;
    bool find_fraction(mp_limb_t *values, std::size_t samples, const Degrees &degrees, Fraction &found) const;
    bool find_roots(const Polynomial &polynomial, Side &roots) const;

    Field field;
};

// The next pair of Euclid's scheme takes the place of the earlier one.
void step(Fraction &earlier, const Fraction &later)
{
    Polynomial quotient;
    nmod_poly_divrem(quotient.it, earlier.numerator.it, earlier.numerator.it, later.numerator.it);
    nmod_poly_mul(quotient.it, quotient.it, later.denominator.it);
    nmod_poly_sub(earlier.denominator.it, earlier.denominator.it, quotient.it);
}

// The sum of both pairs with factors that make numerator and denominator monic.
void Flint::monic_sum(Fraction &earlier, Fraction &later, Fraction &sum) const
{
    earlier.scale(field.inverse(earlier.numerator.leading()));
    later.scale(field.inverse(later.denominator.leading()));
    nmod_poly_add(sum.numerator.it, earlier.numerator.it, later.numerator.it);
    nmod_poly_add(sum.denominator.it, earlier.denominator.it, later.denominator.it);
}

bool Flint::find_fraction(mp_limb_t *values, std::size_t samples, const Degrees &degrees, Fraction &found) const
{
    mp_limb_t points[VLOMDAR_MOST_SAMPLES];
    for (std::size_t i = 0; i < samples; i++)
        points[i] = mp_limb_t(shared::point(i));
    Fraction earlier, later;
    nmod_poly_product_roots_nmod_vec(earlier.numerator.it, points, slong(samples));
    nmod_poly_interpolate_nmod_vec(later.numerator.it, points, values, slong(samples));
    nmod_poly_one(later.denominator.it);
    while (degrees.middle() <= later.numerator.degree()) {
        step(earlier, later);
        earlier.swap(later);
    }
    if (degrees.sum_of_two(earlier.numerator.degree(), later.denominator.degree())) {
        monic_sum(earlier, later, found);
        return true;
    }
    if (!degrees.allow(later.numerator.degree(), later.denominator.degree()) ||
        later.numerator.leading() != later.denominator.leading())
        return false;
    later.scale(field.inverse(later.numerator.leading()));
    found.swap(later);
    return true;
}

// All roots of a monic polynomial; false where it has fewer different ones than its degree.
bool Flint::find_roots(const Polynomial &polynomial, Side &roots) const
{
    roots.count = 0;
    if (polynomial.degree() == 0)
        return true;
    nmod_poly_factor_t found;
    nmod_poly_factor_init(found);
    nmod_poly_roots(found, polynomial.it, 0);
    for (slong i = 0; i < found->num; i++)
        roots.add(std::uint32_t(nmod_neg(nmod_poly_get_coeff_ui(found->p + i, 0), field.modulo)));
    nmod_poly_factor_clear(found);
    return slong(roots.count) == polynomial.degree();
}

bool Flint::reconcile(const List &home, const Sketch &dome, Difference &found)
{
    std::size_t samples = dome.samples();
    Degrees degrees(samples, home.count, dome.size);
    if (!degrees.possible())
        return false;
    shared::Quotients<Field> values;
    found = Difference();
    if (!shared::find_fraction_values(field, home, dome, values))
        return true;
    Fraction fraction;
    return find_fraction(values.above, samples, degrees, fraction) && find_roots(fraction.numerator, found.theirs) &&
           find_roots(fraction.denominator, found.ours) && settle(home, found);
}

} // namespace

std::unique_ptr<Peer> flint_peer() { return std::unique_ptr<Peer>(new Flint); }
