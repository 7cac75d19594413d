// Who takes part: the C entries first, then the peers, each set to one piece of work whose answer is known.
#ifndef BENCH_CONTESTANTS_H
#define BENCH_CONTESTANTS_H

#include "peer.h"
#include "race.h"
#include "sets.h"

#include <cstdint>
#include <memory>
#include <vector>

using Peers = std::vector<std::unique_ptr<Peer>>;

// The sketch of a list under a plan. The answers are held against a message made of products that are taken one by
// one.
std::vector<Contestant> sketchers(std::uint32_t plan, const Keys &keys, const Peers &peers);

// The difference of two sides under a plan. The answers are held against the difference that the sides were made with.
std::vector<Contestant> reconcilers(std::uint32_t plan, const Sides &sides, const Peers &peers);

// The keys of a list added, one after the other, to the sketch of none, or removed from the sketch of the list.
std::vector<Contestant> adders(std::uint32_t plan, const Keys &keys, const Peers &peers);
std::vector<Contestant> removers(std::uint32_t plan, const Keys &keys, const Peers &peers);

#endif
