// The definition at its plainest: what every sketch is held against.
#ifndef BENCH_DEFINED_H
#define BENCH_DEFINED_H

#include "lists.h"

// The message of a list under a plan: products taken one by one, bits put one by one.
Bytes defined_message(std::uint32_t plan, const Keys &keys);

#endif
