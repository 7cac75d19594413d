// What came out: tables for the reader, in Markdown, and one file of comma-separated values for the pictures.
#ifndef BENCH_RESULTS_H
#define BENCH_RESULTS_H

#include <cstddef>
#include <cstdio>
#include <string>
#include <vector>

// One piece of work, and how long each contestant took for it: first we, last the twin, between them the peers.
struct Result {
    std::string operation;
    std::string shape; // of the list
    std::size_t samples;
    std::size_t keys; // of home, or of the list that is sketched, added or removed
    std::size_t theirs;
    std::size_t ours;
    std::vector<double> microseconds;

    // Our time to the least of the peers', and to the twin's.
    double to_best_peer() const;
    double to_twin() const;
};

class Results {
public:
    // Opens the file unless its name is empty.
    Results(const std::vector<std::string> &contestants, const std::string &file);
    ~Results();
    Results(const Results &) = delete;
    Results &operator=(const Results &) = delete;

    // Begins a table. Its name is the first column of the file.
    void begin(const std::string &table, const std::string &title);
    void add(const Result &result);

    // The row of each table where we are slowest beside the fastest peer, and the one beside the twin.
    void print_worst() const;

private:
    struct Worst {
        double ratio;
        std::string row;
    };

    struct Table {
        std::string name;
        Worst to_best_peer;
        Worst to_twin;
    };

    void write(const Result &result);

    std::vector<std::string> contestants;
    std::vector<Table> tables;
    std::FILE *file;
};

#endif
