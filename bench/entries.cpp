#include "entries.h"

#include "vlomdar.h"

#include <algorithm>
#include <cstring>

// The crate `update`, made callable for the benchmark: reads the message, adds or removes the keys of the list one by
// one, and writes the message back. 0: all went well.
extern "C" {
std::uint64_t vlomdar_bench_add(const std::uint8_t *list, std::size_t list_length, std::uint8_t *message,
                                std::size_t message_length);
std::uint64_t vlomdar_bench_remove(const std::uint8_t *list, std::size_t list_length, std::uint8_t *message,
                                   std::size_t message_length);
}

const char entries_name[] = "Vlomdar";

namespace {

// An empty vector may have a null pointer, which the C entries must not be given, not even with the length 0.
Bytes list_of(const Keys &keys)
{
    Bytes list = bytes_of(keys);
    list.reserve(1);
    return list;
}

bool same(const std::uint8_t *bytes, std::size_t length, const Bytes &expected)
{
    return length == expected.size() && std::equal(expected.begin(), expected.end(), bytes);
}

struct SketchCall {
    std::uint32_t plan;
    Bytes list;
    Bytes expected;
    std::uint8_t message[VLOMDAR_LONGEST_MESSAGE];
    std::uint64_t returned;

    SketchCall(std::uint32_t plan, const Keys &keys, const Bytes &expected)
        : plan(plan), list(list_of(keys)), expected(expected)
    {
    }

    void work() { returned = vlomdar_sketch(plan, list.data(), list.size(), message, sizeof message); }

    bool right() const
    {
        return vlomdar_number(returned) == VLOMDAR_DONE && same(message, vlomdar_length(returned), expected);
    }
};

struct ReconcileCall {
    Bytes message;
    Bytes home;
    Bytes expected_theirs;
    Bytes expected_ours;
    std::uint8_t theirs[VLOMDAR_MOST_SAMPLES * VLOMDAR_KEY_BYTES];
    std::uint8_t ours[VLOMDAR_MOST_SAMPLES * VLOMDAR_KEY_BYTES];
    std::uint64_t returned;

    ReconcileCall(const Bytes &message, const Sides &sides)
        : message(message), home(list_of(sides.home)), expected_theirs(bytes_of(sides.theirs)),
          expected_ours(bytes_of(sides.ours))
    {
    }

    void work()
    {
        returned = vlomdar_reconcile(message.data(), message.size(), home.data(), home.size(), theirs, sizeof theirs,
                                     ours, sizeof ours);
    }

    bool right() const
    {
        return vlomdar_number(returned) == VLOMDAR_DONE &&
               same(theirs, VLOMDAR_KEY_BYTES * vlomdar_theirs(returned), expected_theirs) &&
               same(ours, VLOMDAR_KEY_BYTES * vlomdar_ours(returned), expected_ours);
    }
};

using Change = std::uint64_t(const std::uint8_t *, std::size_t, std::uint8_t *, std::size_t);

struct UpdateCall {
    Change *change;
    Bytes list;
    Bytes before;
    Bytes after;
    std::uint8_t message[VLOMDAR_LONGEST_MESSAGE];
    std::uint64_t returned;

    UpdateCall(Change *change, const Keys &keys, const Bytes &before, const Bytes &after)
        : change(change), list(list_of(keys)), before(before), after(after)
    {
    }

    void work()
    {
        std::memcpy(message, before.data(), before.size());
        returned = change(list.data(), list.size(), message, before.size());
    }

    bool right() const { return returned == 0 && same(message, before.size(), after); }
};

} // namespace

Contestant entry_sketch(std::uint32_t plan, const Keys &keys, const Bytes &expected)
{
    return contestant(entries_name, std::make_shared<SketchCall>(plan, keys, expected));
}

Contestant entry_reconcile(const Bytes &message, const Sides &sides)
{
    return contestant(entries_name, std::make_shared<ReconcileCall>(message, sides));
}

Contestant entry_add(const Keys &keys, const Bytes &before, const Bytes &after)
{
    return contestant(entries_name, std::make_shared<UpdateCall>(vlomdar_bench_add, keys, before, after));
}

Contestant entry_remove(const Keys &keys, const Bytes &before, const Bytes &after)
{
    return contestant(entries_name, std::make_shared<UpdateCall>(vlomdar_bench_remove, keys, before, after));
}
