// Times: every contestant does the same work in turn, many times over, and its least time counts. On a machine that
// others use too the least time is the one that says what the work costs.
#ifndef BENCH_RACE_H
#define BENCH_RACE_H

#include <functional>
#include <memory>
#include <string>
#include <vector>

struct Contestant {
    std::string name;
    std::function<void()> work;  // what is timed
    std::function<bool()> right; // whether the last work's answer was right; not timed
};

// A contestant from what it reads and leaves, which outlives the work, since the answer is looked at after the clock
// has stopped.
template <typename Call> Contestant contestant(const char *name, std::shared_ptr<Call> call)
{
    return {name, [call] { call->work(); }, [call] { return call->right(); }};
}

// The least time of one work of each contestant, in microseconds. A wrong answer ends the program with status 1 and
// is named.
std::vector<double> race(const std::string &what, const std::vector<Contestant> &contestants);

#endif
