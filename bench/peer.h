// What the benchmark asks of a peer: the job of the C entries, done another way.
//
// The benchmark goes from bytes to bytes with every contestant. Around a peer it takes the list in and tests every
// key (lists.h), and writes and reads the message and tests every field (message.h), by code that all peers share; in
// between a peer works on numbers.
//
// All peers find a difference in the same three steps, each with its own means:
//
//   1. The values of home's set at the sample points: one product a key and a point, or, where the list has few runs
//      of consecutive keys, one product a key for the first point, and from a point to the next the ends of the runs
//      alone. Divided into the dome's values they give what the fraction theirs / ours is at each point. Where it is 1
//      everywhere and the lists are equally long, nothing differs.
//   2. The fraction itself: two polynomials that have its values at every point. The peers interpolate the values and
//      break Euclid's scheme off in the middle (degrees.h), plain C++ at a few points first; the twin goes point after
//      point (twin/fraction.cpp).
//   3. The roots of both polynomials, and whether they are keys, new at home and at home.
#ifndef BENCH_PEER_H
#define BENCH_PEER_H

#include "lists.h"
#include "message.h"

#include <cstddef>
#include <cstdint>
#include <memory>
#include <string>

constexpr std::uint32_t modulus = 65537;

class Peer {
public:
    virtual ~Peer() = default;

    virtual const char *name() const = 0;

    // The library's version, or the compiler's.
    virtual std::string version() const = 0;

    // The values of a set at the sample points of the sketch's plan.
    virtual void values(const List &list, Sketch &sketch) = 0;

    // What the dome has and home lacks, and the other way round; false where no difference explains the sketch.
    virtual bool reconcile(const List &home, const Sketch &dome, Difference &found) = 0;

    // Adds the keys of a list to a running sketch, or removes them, one after the other; false where one is refused
    // (update.h).
    virtual bool add(const List &list, Sketch &sketch) = 0;
    virtual bool remove(const List &list, Sketch &sketch) = 0;
};

// Whether to go by the ends of the runs. It takes two products for each run and point, and some more work for each
// run.
inline bool few_runs(const List &list) { return 4 * list.runs < list.count; }

std::unique_ptr<Peer> plain_peer();
std::unique_ptr<Peer> ntl_peer();
std::unique_ptr<Peer> flint_peer();

// Asked to do the same, but no peer: what else the library could be, in C++ (twin/).
std::unique_ptr<Peer> twin_peer();

#endif
