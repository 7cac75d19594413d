#include "race.h"

#include <algorithm>
#include <cstdio>
#include <cstdlib>
#include <ctime>
#include <limits>

namespace {

// Microseconds. A work that is shorter is done several times between two looks at the clock, which itself takes up to
// one of them.
constexpr double shortest = 50.0;

// So many microseconds a race takes for each contestant, and so many rounds it has at least.
constexpr double patience = 100000.0;
constexpr int least_rounds = 15;

// The processor time of this thread in microseconds: while others have the processor the clock stands still.
double now()
{
    timespec time;
    clock_gettime(CLOCK_THREAD_CPUTIME_ID, &time);
    return double(time.tv_sec) * 1e6 + double(time.tv_nsec) * 1e-3;
}

// The time of one work, taken over `times` of them.
double timed(const Contestant &contestant, int times)
{
    double start = now();
    for (int i = 0; i < times; i++)
        contestant.work();
    return (now() - start) / times;
}

void demand_right(const std::string &what, const Contestant &contestant)
{
    if (contestant.right())
        return;
    std::fflush(stdout);
    std::fprintf(stderr, "wrong answer: %s, %s\n", what.c_str(), contestant.name.c_str());
    std::exit(1);
}

} // namespace

std::vector<double> race(const std::string &what, const std::vector<Contestant> &contestants)
{
    std::vector<double> least(contestants.size(), std::numeric_limits<double>::infinity());
    std::vector<int> times(contestants.size(), 1);
    double end = now() + patience * double(contestants.size());
    for (int round = 0; round < least_rounds || now() < end; round++)
        for (std::size_t i = 0; i < contestants.size(); i++) {
            least[i] = std::min(least[i], timed(contestants[i], times[i]));
            times[i] = std::max(1, int(shortest / least[i]));
            demand_right(what, contestants[i]);
        }
    return least;
}
