#include "lists.h"

#include <algorithm>
#include <cstring>

Bytes bytes_of(const Keys &keys)
{
    Bytes list(keys.size() * VLOMDAR_KEY_BYTES);
    for (std::size_t i = 0; i < keys.size(); i++)
        vlomdar_put_key(list.data(), i, keys[i]);
    return list;
}

// The archive is for x86-64, where the lowest byte of a number comes first in memory too.
static std::uint32_t key_at(const std::uint8_t *bytes, std::size_t index)
{
    std::uint32_t key;
    std::memcpy(&key, bytes + VLOMDAR_KEY_BYTES * index, sizeof key);
    return key;
}

// As numbers with a sign the keys of a legal list ascend from 0 or more to the limit or less, and a list that does so
// is legal. So each key is only held against the one before it, and without a branch, so that the compiler takes
// several keys at once.
bool take(const Bytes &bytes, List &list)
{
    list.count = bytes.size() / VLOMDAR_KEY_BYTES;
    list.runs = 0;
    if (bytes.size() % VLOMDAR_KEY_BYTES != 0 || VLOMDAR_LIST_LIMIT < list.count)
        return false;
    if (list.count == 0)
        return true;
    const std::uint8_t *from = bytes.data();
    list.keys[0] = key_at(from, 0);
    std::uint32_t unordered = 0, breaks = 0;
    for (std::size_t i = 1; i < list.count; i++) {
        std::uint32_t before = key_at(from, i - 1), key = key_at(from, i);
        list.keys[i] = key;
        unordered |= std::int32_t(key) <= std::int32_t(before);
        breaks += key != before + 1;
    }
    list.runs = breaks + 1;
    return unordered == 0 && list.keys[0] <= VLOMDAR_KEY_LIMIT && list.keys[list.count - 1] <= VLOMDAR_KEY_LIMIT;
}

void give(const Side &side, std::uint8_t *bytes) { std::memcpy(bytes, side.keys, VLOMDAR_KEY_BYTES * side.count); }

// Halves the list without a branch on a key, which would be guessed wrong every other time.
static bool holds(const List &list, std::uint32_t key)
{
    const std::uint32_t *from = list.keys;
    for (std::size_t left = list.count; 1 < left; left -= left / 2)
        from += from[left / 2] <= key ? left / 2 : 0;
    return 0 < list.count && *from == key;
}

bool settle(const List &home, Difference &found)
{
    std::sort(found.theirs.keys, found.theirs.keys + found.theirs.count);
    std::sort(found.ours.keys, found.ours.keys + found.ours.count);
    bool right = true;
    for (std::size_t i = 0; i < found.theirs.count; i++)
        right &= found.theirs.keys[i] <= VLOMDAR_KEY_LIMIT && !holds(home, found.theirs.keys[i]);
    for (std::size_t i = 0; i < found.ours.count; i++)
        right &= holds(home, found.ours.keys[i]);
    return right;
}

// So many keys at once are looked at for the end of a run.
constexpr std::size_t stride = 8;

// Adds the runs that end at a key from `from` to `to` - 1. Every key is written where the next end would stand, and
// stays if it is one.
static void add_ends(const List &list, std::size_t from, std::size_t to, Runs &runs)
{
    std::size_t count = runs.count;
    for (std::size_t i = from; i < to; i++) {
        runs.last[count] = list.keys[i];
        runs.first[count + 1] = list.keys[i + 1];
        count += list.keys[i + 1] != list.keys[i] + 1;
    }
    runs.count = count;
}

// The keys ascend, so those from one to another are consecutive where the two are as far apart as their places.
void find_runs(const List &list, Runs &runs)
{
    runs.count = 0;
    if (list.count == 0)
        return;
    runs.first[0] = list.keys[0];
    std::size_t i = 0;
    for (; i + stride < list.count; i += stride)
        if (list.keys[i + stride] != list.keys[i] + stride)
            add_ends(list, i, i + stride, runs);
    add_ends(list, i, list.count - 1, runs);
    runs.last[runs.count++] = list.keys[list.count - 1];
}
