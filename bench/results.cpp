#include "results.h"

#include <algorithm>
#include <cstdlib>

static std::FILE *opened(const std::string &name)
{
    if (name.empty())
        return nullptr;
    std::FILE *file = std::fopen(name.c_str(), "w");
    if (file)
        return file;
    std::fprintf(stderr, "cannot write %s\n", name.c_str());
    std::exit(2);
}

static std::string difference(const Result &result)
{
    return result.operation == "reconcile" ? std::to_string(result.theirs) + " + " + std::to_string(result.ours) : "";
}

double Result::to_best_peer() const
{
    return microseconds.front() / *std::min_element(microseconds.begin() + 1, microseconds.end() - 1);
}

double Result::to_twin() const { return microseconds.front() / microseconds.back(); }

Results::Results(const std::vector<std::string> &contestants, const std::string &name)
    : contestants(contestants), file(opened(name))
{
    if (file)
        std::fputs("table,operation,shape,samples,keys,theirs,ours,contestant,microseconds\n", file);
}

Results::~Results()
{
    if (file)
        std::fclose(file);
}

void Results::begin(const std::string &table, const std::string &title)
{
    tables.push_back({table, {0, ""}, {0, ""}});
    std::printf("\n%s\n\n| %-9s | %-6s | %7s | %6s | %10s |", title.c_str(), "", "list", "samples", "keys",
                "difference");
    for (const std::string &contestant : contestants)
        std::printf(" %11s |", contestant.c_str());
    std::printf(" %12s | %11s |\n|---|---|---|---|---|", "to best peer", "to the twin");
    for (std::size_t i = 0; i < contestants.size() + 2; i++)
        std::printf("---|");
    std::printf("\n");
}

static std::string row_name(const Result &result)
{
    std::string between = difference(result).empty() ? "" : ", " + difference(result);
    return result.operation + ", " + result.shape + ", " + std::to_string(result.samples) + " samples, " +
           std::to_string(result.keys) + " keys" + between;
}

void Results::add(const Result &result)
{
    std::printf("| %-9s | %-6s | %7zu | %6zu | %10s |", result.operation.c_str(), result.shape.c_str(), result.samples,
                result.keys, difference(result).c_str());
    for (double time : result.microseconds)
        std::printf(time < 10 ? " %8.3f µs |" : " %8.1f µs |", time);
    std::printf(" %12.2f | %11.2f |\n", result.to_best_peer(), result.to_twin());
    std::fflush(stdout);
    write(result);
    if (tables.back().to_best_peer.ratio < result.to_best_peer())
        tables.back().to_best_peer = {result.to_best_peer(), row_name(result)};
    if (tables.back().to_twin.ratio < result.to_twin())
        tables.back().to_twin = {result.to_twin(), row_name(result)};
}

void Results::write(const Result &result)
{
    for (std::size_t i = 0; file && i < contestants.size(); i++)
        std::fprintf(file, "%s,%s,%s,%zu,%zu,%zu,%zu,%s,%.4f\n", tables.back().name.c_str(), result.operation.c_str(),
                     result.shape.c_str(), result.samples, result.keys, result.theirs, result.ours,
                     contestants[i].c_str(), result.microseconds[i]);
}

void Results::print_worst() const
{
    std::printf("\nThe worst row of each table, our time to that of the fastest peer and then to the twin's:\n\n");
    for (const Table &table : tables) {
        std::printf("%-8s peer %7.2f  %s  (%s)\n", table.name.c_str(), table.to_best_peer.ratio,
                    table.to_best_peer.ratio < 1 ? "faster" : "SLOWER", table.to_best_peer.row.c_str());
        std::printf("%-8s twin %7.2f  %s  (%s)\n", "", table.to_twin.ratio,
                    table.to_twin.ratio < 1 ? "faster" : "slower", table.to_twin.row.c_str());
    }
}
