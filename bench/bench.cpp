// Times the line book, two libraries and the plain C++ on the same networks, and compares the levels of all pairs.
#include "capi.h"
#include "libraries.hpp"
#include "network.hpp"
#include "plain.hpp"
#include <algorithm>
#include <cstdio>
#include <cstdlib>
#include <ctime>
#include <functional>
#include <string>
#include <vector>

namespace {

constexpr int SITES = 64;
constexpr int LINES = 512;
constexpr int NETWORKS = 5;
// what is booked: two routes from the first site to the last
constexpr int FIRST = 0;
constexpr int SECOND = SITES - 1;
constexpr int ROUTES = 2;
// a level that some sites reach and some do not
constexpr int GROUP_LEVEL = 16;
int repetitions = 9;

[[noreturn]] void fail(const std::string& why) {
    std::fprintf(stderr, "bench: FAILED: %s\n", why.c_str());
    std::exit(1);
}

// Seconds of this thread's own processor time: other programs on the machine disturb it less than the clock's.
double now() {
    timespec t;
    clock_gettime(CLOCK_THREAD_CPUTIME_ID, &t);
    return static_cast<double>(t.tv_sec) + 1e-9 * static_cast<double>(t.tv_nsec);
}

// Keeps the compiler from leaving out work whose result nobody reads.
void keep(int value) { asm volatile("" : : "r"(value) : "memory"); }

double median(std::vector<double> times) {
    std::sort(times.begin(), times.end());
    return times[times.size() / 2];
}

// A way to do one job: `run(turns)` does it so many times. What it does once a call is measured with `least` turns, and
// taken off.
struct Way {
    std::string name;
    int least;
    int turns;
    std::function<void(int)> run;
    std::vector<double> times;
};

void time_once(Way& way) {
    const double start = now();
    way.run(way.least);
    const double middle = now();
    way.run(way.least + way.turns);
    const double end = now();
    way.times.push_back(((end - middle) - (middle - start)) / way.turns);
}

// The ways take turns, so that what slows the machine down for a while slows all of them down.
void time_all(std::vector<Way>& ways) {
    for (int i = 0; i < repetitions; ++i)
        for (Way& way : ways) time_once(way);
}

void expect_done(const char* call, std::uint32_t answer) {
    if (answer != 0) fail(std::string(call) + " answered " + std::to_string(answer));
}

std::vector<std::size_t> book_levels(std::uint32_t engine, const std::vector<std::uint8_t>& file, int turns) {
    std::vector<std::size_t> levels(SITES * SITES);
    expect_done("dowelsage_levels", dowelsage_levels(engine, file.data(), file.size(), static_cast<std::uint32_t>(turns),
                                                     levels.data(), levels.size()));
    return levels;
}

std::size_t book_bookings(std::uint32_t engine, const std::vector<std::uint8_t>& file, int turns) {
    std::size_t level = 0;
    expect_done("dowelsage_bookings", dowelsage_bookings(engine, file.data(), file.size(), FIRST, SECOND, ROUTES,
                                                         static_cast<std::uint16_t>(turns), &level));
    return level;
}

std::vector<std::uint16_t> book_groups(std::uint32_t engine, const std::vector<std::uint8_t>& file, int turns) {
    std::size_t count = 0;
    std::vector<std::uint16_t> list(SITES);
    expect_done("dowelsage_groups", dowelsage_groups(engine, file.data(), file.size(), GROUP_LEVEL,
                                                     static_cast<std::uint32_t>(turns), &count, list.data(), list.size()));
    list.push_back(static_cast<std::uint16_t>(count));
    return list;
}

// Compares the levels of all pairs with those of the plain search.
void compare(const char* name, const PlainTree& plain, const std::function<int(int, int)>& level) {
    int pairs = 0;
    for (int a = 0; a < SITES; ++a)
        for (int b = a + 1; b < SITES; ++b) {
            if (level(a, b) != plain.level(a, b) || level(b, a) != plain.level(b, a))
                fail(std::string(name) + ": the level of " + std::to_string(a) + " and " + std::to_string(b) + " is " +
                     std::to_string(level(a, b)) + ", and by the plain search " + std::to_string(plain.level(a, b)));
            ++pairs;
        }
    if (pairs != SITES * (SITES - 1) / 2) fail("not all pairs were compared");
}

void compare_all(const Network& network, const std::vector<std::uint8_t>& file) {
    PlainSearch search(network);
    PlainTree plain(SITES, search);
    std::vector<int> lowest(SITES);
    lowest.push_back(plain.groups(GROUP_LEVEL, lowest));
    if (!PlainBook(network).book_and_release(FIRST, SECOND, ROUTES)) fail("the plain search has too few routes");
    for (std::uint32_t engine = 0; engine < 2; ++engine) {
        const std::vector<std::uint16_t> list = book_groups(engine, file, 1);
        if (!std::equal(list.begin(), list.end(), lowest.begin(), lowest.end())) fail("the group lists differ");
        if (static_cast<int>(book_bookings(engine, file, 1)) != plain.level(FIRST, SECOND)) fail("a release left lines held");
        const std::vector<std::size_t> levels = book_levels(engine, file, 1);
        compare(engine == 0 ? "shortest-route engine" : "push engine", plain,
                [&levels](int a, int b) { return static_cast<int>(levels[static_cast<std::size_t>(a * SITES + b)]); });
    }
    LemonTree lemon_tree(network);
    lemon_tree.build();
    compare("LEMON", plain, [&lemon_tree](int a, int b) { return lemon_tree.level(a, b); });
    IgraphTree igraph_tree(network);
    igraph_tree.build(true);
    compare("igraph", plain, [&igraph_tree](int a, int b) { return igraph_tree.level(a, b); });
}

std::vector<Way> tree_ways(const Network& network, const std::vector<std::uint8_t>& file, LemonTree& lemon_tree,
                           IgraphTree& igraph_tree) {
    return {
        {"plain C++ search", 0, 10,
         [&network](int turns) {
             for (int i = 0; i < turns; ++i) {
                 PlainSearch search(network);
                 PlainTree tree(SITES, search);
                 keep(tree.level(0, SITES - 1));
             }
         },
         {}},
        {"shortest-route engine", 1, 10, [&file](int turns) { book_levels(0, file, turns); }, {}},
        {"push engine", 1, 2, [&file](int turns) { book_levels(1, file, turns); }, {}},
        {"LEMON GomoryHu", 0, 5,
         [&lemon_tree](int turns) {
             for (int i = 0; i < turns; ++i) lemon_tree.build();
         },
         {}},
        {"igraph gomory_hu_tree", 0, 5,
         [&igraph_tree](int turns) {
             for (int i = 0; i < turns; ++i) igraph_tree.build(false);
         },
         {}},
    };
}

std::vector<Way> booking_ways(const Network& network, const std::vector<std::uint8_t>& file) {
    return {
        {"plain C++ search", 0, 5,
         [&network](int turns) {
             PlainBook book(network);
             for (int i = 0; i < turns; ++i) keep(book.book_and_release(FIRST, SECOND, ROUTES));
         },
         {}},
        {"shortest-route engine", 0, 5, [&file](int turns) { book_bookings(0, file, turns); }, {}},
        {"push engine", 0, 1, [&file](int turns) { book_bookings(1, file, turns); }, {}},
    };
}

std::vector<Way> group_ways(const Network& network, const std::vector<std::uint8_t>& file) {
    return {
        {"plain C++ search", 0, 2000,
         [&network](int turns) {
             PlainBook book(network);
             std::vector<int> lowest(SITES);
             for (int i = 0; i < turns; ++i) {
                 keep(book.tree().groups(GROUP_LEVEL, lowest));
                 for (int place : lowest) keep(place);
             }
         },
         {}},
        {"the line book", 1, 200, [&file](int turns) { book_groups(0, file, turns); }, {}},
    };
}

// One job: the median time of each way over the networks, and its ratio to the first way.
class Table {
public:
    explicit Table(const char* job) : job_(job) {}

    void add(std::vector<Way> ways) {
        time_all(ways);
        names_.resize(ways.size());
        medians_.resize(ways.size());
        for (std::size_t i = 0; i < ways.size(); ++i) {
            names_[i] = ways[i].name;
            medians_[i].push_back(median(ways[i].times));
        }
    }

    void print() const {
        std::printf("\n%-28s %12s %12s %12s %8s\n", job_, "median us", "least us", "most us", "ratio");
        for (std::size_t i = 0; i < names_.size(); ++i) {
            const auto [least, most] = std::minmax_element(medians_[i].begin(), medians_[i].end());
            std::printf("%-28s %12.1f %12.1f %12.1f %8.2f\n", names_[i].c_str(), 1e6 * median(medians_[i]), 1e6 * *least,
                        1e6 * *most, median(medians_[i]) / median(medians_[0]));
        }
    }

private:
    const char* job_;
    std::vector<std::string> names_;
    std::vector<std::vector<double>> medians_;
};

}  // namespace

int main(int argc, char** argv) {
    if (argc > 1) repetitions = std::max(1, std::atoi(argv[1]));
    Table trees("one whole tree");
    Table bookings("booking 2 routes, release");
    Table groups("one group list");
    for (int n = 0; n < NETWORKS; ++n) {
        const Network network = random_network(SITES, LINES, static_cast<std::uint32_t>(n + 1));
        const std::vector<std::uint8_t> file = network_file(network);
        compare_all(network, file);
        LemonTree lemon_tree(network);
        IgraphTree igraph_tree(network);
        trees.add(tree_ways(network, file, lemon_tree, igraph_tree));
        bookings.add(booking_ways(network, file));
        groups.add(group_ways(network, file));
    }
    std::printf("%d networks of %d sites and %d lines. By every way all %d pairs have the same level, and the group lists at\n"
                "level %d are the same.\n",
                NETWORKS, SITES, LINES, SITES * (SITES - 1) / 2, GROUP_LEVEL);
    std::printf("A time is the median of %d repetitions of this thread's processor time; the table has the median, the least and\n"
                "the most over the networks. Opening the file is not in it.\n",
                repetitions);
    std::printf("Buffers: the line book clears its marks and its work table at every question, and the plain search its units and\n"
                "what it has seen at every question and search; neither keeps anything from one question to the next.\n");
    trees.print();
    bookings.print();
    groups.print();
}
