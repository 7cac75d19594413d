#include "contestants.h"

#include "defined.h"
#include "entries.h"

#include <algorithm>
#include <cstring>

namespace {

struct PeerSketch {
    Peer &peer;
    std::uint32_t plan;
    Bytes bytes;
    Bytes expected;
    List list;
    Sketch sketch;
    std::uint8_t message[VLOMDAR_LONGEST_MESSAGE];
    std::size_t length;

    PeerSketch(Peer &peer, std::uint32_t plan, const Keys &keys, const Bytes &expected)
        : peer(peer), plan(plan), bytes(bytes_of(keys)), expected(expected)
    {
    }

    void work()
    {
        length = 0;
        if (!take(bytes, list))
            return;
        sketch.plan = plan;
        sketch.size = std::uint32_t(list.count);
        peer.values(list, sketch);
        length = write(sketch, message);
    }

    bool right() const { return length == expected.size() && std::equal(expected.begin(), expected.end(), message); }
};

struct PeerReconcile {
    Peer &peer;
    Bytes message;
    Bytes bytes;
    Bytes expected_theirs;
    Bytes expected_ours;
    Sketch dome;
    List home;
    Difference found;
    std::uint8_t theirs[VLOMDAR_MOST_SAMPLES * VLOMDAR_KEY_BYTES];
    std::uint8_t ours[VLOMDAR_MOST_SAMPLES * VLOMDAR_KEY_BYTES];
    bool done;

    PeerReconcile(Peer &peer, const Bytes &message, const Sides &sides)
        : peer(peer), message(message), bytes(bytes_of(sides.home)), expected_theirs(bytes_of(sides.theirs)),
          expected_ours(bytes_of(sides.ours))
    {
    }

    void work()
    {
        done = read(message.data(), message.size(), dome) && take(bytes, home) && peer.reconcile(home, dome, found);
        if (!done)
            return;
        give(found.theirs, theirs);
        give(found.ours, ours);
    }

    static bool same(const Side &side, const std::uint8_t *bytes, const Bytes &expected)
    {
        return VLOMDAR_KEY_BYTES * side.count == expected.size() &&
               std::equal(expected.begin(), expected.end(), bytes);
    }

    bool right() const
    {
        return done && same(found.theirs, theirs, expected_theirs) && same(found.ours, ours, expected_ours);
    }
};

// A running sketch, from a message to a message.
struct PeerUpdate {
    Peer &peer;
    bool (Peer::*change)(const List &, Sketch &);
    Bytes bytes;
    Bytes before;
    Bytes after;
    Sketch sketch;
    List list;
    std::uint8_t message[VLOMDAR_LONGEST_MESSAGE];
    bool done;

    PeerUpdate(Peer &peer, bool (Peer::*change)(const List &, Sketch &), const Keys &keys, const Bytes &before,
               const Bytes &after)
        : peer(peer), change(change), bytes(bytes_of(keys)), before(before), after(after)
    {
    }

    void work()
    {
        std::memcpy(message, before.data(), before.size());
        done = read(message, before.size(), sketch) && take(bytes, list) && (peer.*change)(list, sketch);
        if (done)
            write(sketch, message);
    }

    bool right() const { return done && std::equal(after.begin(), after.end(), message); }
};

} // namespace

std::vector<Contestant> sketchers(std::uint32_t plan, const Keys &keys, const Peers &peers)
{
    Bytes expected = defined_message(plan, keys);
    std::vector<Contestant> all{entry_sketch(plan, keys, expected)};
    for (const auto &peer : peers)
        all.push_back(contestant(peer->name(), std::make_shared<PeerSketch>(*peer, plan, keys, expected)));
    return all;
}

std::vector<Contestant> reconcilers(std::uint32_t plan, const Sides &sides, const Peers &peers)
{
    Bytes message = defined_message(plan, sides.dome);
    std::vector<Contestant> all{entry_reconcile(message, sides)};
    for (const auto &peer : peers)
        all.push_back(contestant(peer->name(), std::make_shared<PeerReconcile>(*peer, message, sides)));
    return all;
}

std::vector<Contestant> adders(std::uint32_t plan, const Keys &keys, const Peers &peers)
{
    Bytes none = defined_message(plan, Keys()), all_keys = defined_message(plan, keys);
    std::vector<Contestant> all{entry_add(keys, none, all_keys)};
    for (const auto &peer : peers)
        all.push_back(contestant(peer->name(), std::make_shared<PeerUpdate>(*peer, &Peer::add, keys, none, all_keys)));
    return all;
}

std::vector<Contestant> removers(std::uint32_t plan, const Keys &keys, const Peers &peers)
{
    Bytes none = defined_message(plan, Keys()), all_keys = defined_message(plan, keys);
    std::vector<Contestant> all{entry_remove(keys, all_keys, none)};
    for (const auto &peer : peers)
        all.push_back(
            contestant(peer->name(), std::make_shared<PeerUpdate>(*peer, &Peer::remove, keys, all_keys, none)));
    return all;
}
