// The C entries as contestants. Bytes go in and bytes come out.
#ifndef BENCH_ENTRIES_H
#define BENCH_ENTRIES_H

#include "race.h"
#include "sets.h"

#include <cstdint>

extern const char entries_name[];

Contestant entry_sketch(std::uint32_t plan, const Keys &keys, const Bytes &expected);
Contestant entry_reconcile(const Bytes &message, const Sides &sides);
Contestant entry_add(const Keys &keys, const Bytes &before, const Bytes &after);
Contestant entry_remove(const Keys &keys, const Bytes &before, const Bytes &after);

#endif
