// The C entries beside three peers and their own twin, in one process on the same sets: every answer is checked, and
// the least time of many runs is told.
//
//   bench             prints the tables
//   bench --csv FILE  and writes the times to FILE, which plot.py draws and page.py puts into tables
//
// Status 1: an answer was wrong, which is named. Nothing here fails on a time.
#include "contestants.h"
#include "entries.h"
#include "results.h"
#include "vlomdar.h"

#include <algorithm>
#include <cstdio>
#include <cstring>
#include <string>

namespace {

constexpr std::uint32_t usual_plan = 8;    // 16 samples
constexpr std::uint32_t middle_plan = 12;  // 32 samples
constexpr std::uint32_t largest_plan = 15; // 64 samples

constexpr std::size_t night_keys = 300;
constexpr Shape any_keys{0};
constexpr Shape night_runs{3};
constexpr Shape season_runs{400};

class Bench {
public:
    explicit Bench(const std::string &file) : peers(all_peers()), random(20261115), results(names(), file) {}

    void versions() const;
    void night();
    void season();
    void equal();
    void update();
    void cases();
    void over_keys();
    void over_samples();
    void worst() const { results.print_worst(); }

private:
    // The twin comes last (results.h).
    static Peers all_peers()
    {
        Peers peers;
        peers.push_back(plain_peer());
        peers.push_back(ntl_peer());
        peers.push_back(flint_peer());
        peers.push_back(twin_peer());
        return peers;
    }

    std::vector<std::string> names() const
    {
        std::vector<std::string> all{entries_name};
        for (const auto &peer : peers)
            all.push_back(peer->name());
        return all;
    }

    void sketch(std::uint32_t plan, std::size_t keys, Shape shape = any_keys);
    void reconcile(std::uint32_t plan, std::size_t longest, std::size_t theirs, std::size_t ours,
                   Shape shape = any_keys);
    void add_and_remove(std::uint32_t plan, std::size_t keys);

    Peers peers;
    Random random;
    Results results;
};

std::string described(const char *operation, std::size_t keys, Shape shape, std::size_t samples)
{
    return std::string(operation) + " of " + std::to_string(keys) + " keys (" + shape.name() + ") at " +
           std::to_string(samples) + " samples";
}

void Bench::sketch(std::uint32_t plan, std::size_t keys, Shape shape)
{
    std::size_t samples = vlomdar_samples(plan);
    std::vector<Contestant> all = sketchers(plan, make_keys(keys, shape, random), peers);
    results.add({"sketch", shape.name(), samples, keys, 0, 0, race(described("sketch", keys, shape, samples), all)});
}

// Neither side has more than `longest` keys, and one of them has as many.
void Bench::reconcile(std::uint32_t plan, std::size_t longest, std::size_t theirs, std::size_t ours, Shape shape)
{
    std::size_t home = longest - (ours < theirs ? std::min(longest, theirs) - ours : 0);
    std::size_t samples = vlomdar_samples(plan);
    std::vector<Contestant> all = reconcilers(plan, make_sides(home, theirs, ours, shape, random), peers);
    std::string what =
        described("reconcile", home, shape, samples) + ", " + std::to_string(theirs) + " + " + std::to_string(ours);
    results.add({"reconcile", shape.name(), samples, home, theirs, ours, race(what, all)});
}

void Bench::add_and_remove(std::uint32_t plan, std::size_t count)
{
    std::size_t samples = vlomdar_samples(plan);
    Keys keys = make_keys(count, any_keys, random);
    std::vector<double> adding = race(described("add", count, any_keys, samples), adders(plan, keys, peers));
    std::vector<double> removing = race(described("remove", count, any_keys, samples), removers(plan, keys, peers));
    results.add({"add", any_keys.name(), samples, count, 0, 0, adding});
    results.add({"remove", any_keys.name(), samples, count, 0, 0, removing});
}

void Bench::versions() const
{
    std::printf("Beside us:");
    for (const auto &peer : peers)
        std::printf(" %s %s%s", peer->name(), peer->version().c_str(), peer == peers.back() ? "\n" : ",");
}

// Frames that a camera numbers one after the other; two are missing at home and one at the dome.
void Bench::night()
{
    results.begin("night", "A usual night, 3 keys apart:");
    for (Shape shape : {any_keys, night_runs})
        for (std::uint32_t plan : {usual_plan, middle_plan, largest_plan})
            sketch(plan, night_keys, shape);
    for (Shape shape : {any_keys, night_runs})
        for (std::uint32_t plan : {usual_plan, middle_plan, largest_plan})
            reconcile(plan, night_keys + 1, 2, 1, shape);
}

void Bench::season()
{
    results.begin("season", "A season, 3 keys apart:");
    for (std::uint32_t plan : {usual_plan, middle_plan, largest_plan})
        sketch(plan, VLOMDAR_LIST_LIMIT, season_runs);
    for (std::uint32_t plan : {usual_plan, middle_plan, largest_plan})
        reconcile(plan, VLOMDAR_LIST_LIMIT, 2, 1, season_runs);
}

void Bench::equal()
{
    results.begin("equal", "Equal lists:");
    for (std::uint32_t plan : {usual_plan, largest_plan}) {
        reconcile(plan, night_keys, 0, 0, any_keys);
        reconcile(plan, night_keys, 0, 0, night_runs);
        reconcile(plan, VLOMDAR_LIST_LIMIT, 0, 0, any_keys);
        reconcile(plan, VLOMDAR_LIST_LIMIT, 0, 0, season_runs);
    }
}

void Bench::update()
{
    results.begin("update", "A running sketch, key after key:");
    add_and_remove(usual_plan, night_keys);
    add_and_remove(largest_plan, night_keys);
}

void Bench::cases()
{
    results.begin("cases", "The longest list:");
    sketch(usual_plan, VLOMDAR_LIST_LIMIT);
    sketch(largest_plan, VLOMDAR_LIST_LIMIT);
    reconcile(usual_plan, VLOMDAR_LIST_LIMIT, 8, 8);
    reconcile(largest_plan, VLOMDAR_LIST_LIMIT, 32, 32);
    reconcile(largest_plan, VLOMDAR_LIST_LIMIT, 64, 0);
    reconcile(largest_plan, VLOMDAR_LIST_LIMIT, 20, 20);
}

// Where a list is shorter than half the samples, all of it is the difference.
void Bench::over_keys()
{
    const std::size_t lengths[] = {0, 1, 3, 10, 30, 100, 300, 1000, 2000, 4000, 8000, VLOMDAR_LIST_LIMIT};
    results.begin("keys", "Growth with the list's length:");
    for (std::uint32_t plan : {usual_plan, largest_plan})
        for (std::size_t keys : lengths)
            sketch(plan, keys);
    for (std::uint32_t plan : {usual_plan, largest_plan})
        for (std::size_t keys : lengths) {
            std::size_t each = std::min(keys, vlomdar_samples(plan) / 2);
            reconcile(plan, keys, each, each);
        }
}

void Bench::over_samples()
{
    results.begin("samples", "Growth with the samples:");
    for (std::uint32_t plan = 0; plan <= largest_plan; plan++)
        sketch(plan, VLOMDAR_LIST_LIMIT);
    for (std::uint32_t plan = 0; plan <= largest_plan; plan++) {
        std::size_t samples = vlomdar_samples(plan);
        reconcile(plan, VLOMDAR_LIST_LIMIT, samples - samples / 2, samples / 2);
    }
}

} // namespace

int main(int count, char **arguments)
{
    bool with_file = count == 3 && std::strcmp(arguments[1], "--csv") == 0;
    if (count != 1 && !with_file) {
        std::fputs("usage: bench [--csv FILE]\n", stderr);
        return 2;
    }
    Bench bench(with_file ? arguments[2] : "");
    bench.versions();
    bench.night();
    bench.season();
    bench.equal();
    bench.update();
    bench.cases();
    bench.over_keys();
    bench.over_samples();
    bench.worst();
    return 0;
}
