// The plain C++ that the line book is measured against: shortest augmenting routes by breadth-first search over adjacency
// lists, and the tree of levels by one question a place and splits along the side of each answer.
#pragma once
#include "network.hpp"
#include <algorithm>
#include <cstdint>
#include <vector>

// Unit flows over the lines that are free. A line works both ways and carries one unit at most.
class PlainSearch {
public:
    explicit PlainSearch(const Network& network)
        : network_(network), held_(network.lines.size(), false), start_(network.sites + 1), carried_(network.lines.size()),
          by_(network.sites), seen_(network.sites), queue_(network.sites) {
        list_arcs();
    }

    // The most units from a to b. The places that are seen afterwards are a side that so many free lines cross.
    int most_units(int a, int b) {
        std::fill(carried_.begin(), carried_.end(), 0);
        int units = 0;
        while (reach(a, b)) {
            send(a, b);
            ++units;
        }
        return units;
    }

    bool is_seen(int place) const { return seen_[place]; }

    // The lines of k routes from a to b, out of the units that were sent last. A route may pass a place twice where units go
    // round in a circle; the line book cuts such circles out.
    std::vector<int> take_routes(int a, int b, int k) {
        std::vector<int> taken;
        for (int route = 0; route < k; ++route) {
            for (int place = a; place != b;) {
                const Arc& arc = *std::find_if(arcs_.begin() + start_[place], arcs_.begin() + start_[place + 1],
                                               [this](const Arc& out) { return carried_[out.line] == out.way; });
                carried_[arc.line] = 0;
                taken.push_back(arc.line);
                place = arc.to;
            }
        }
        return taken;
    }

    void hold(const std::vector<int>& lines, bool held) {
        for (int line : lines) held_[line] = held;
        list_arcs();
    }

private:
    struct Arc {
        int to;
        int line;
        std::int8_t way;  // 1 from first to second, -1 the other way
    };

    // The free lines at each place, place after place.
    void list_arcs() {
        std::fill(start_.begin(), start_.end(), 0);
        for (std::size_t i = 0; i < network_.lines.size(); ++i) {
            if (held_[i]) continue;
            ++start_[network_.lines[i].first + 1];
            ++start_[network_.lines[i].second + 1];
        }
        for (int place = 0; place < network_.sites; ++place) start_[place + 1] += start_[place];
        arcs_.resize(start_[network_.sites]);
        std::vector<int> next(start_.begin(), start_.end() - 1);
        for (std::size_t i = 0; i < network_.lines.size(); ++i) {
            if (held_[i]) continue;
            const Line& line = network_.lines[i];
            arcs_[next[line.first]++] = {line.second, static_cast<int>(i), 1};
            arcs_[next[line.second]++] = {line.first, static_cast<int>(i), -1};
        }
    }

    // Searches from a until b is seen or nothing is left.
    bool reach(int a, int b) {
        std::fill(seen_.begin(), seen_.end(), 0);
        seen_[a] = 1;
        queue_[0] = a;
        for (int from = 0, end = 1; from < end; ++from) {
            const int place = queue_[from];
            for (int i = start_[place]; i < start_[place + 1]; ++i) {
                const Arc& arc = arcs_[i];
                if (seen_[arc.to] || carried_[arc.line] == arc.way) continue;
                seen_[arc.to] = 1;
                by_[arc.to] = i;
                if (arc.to == b) return true;
                queue_[end++] = arc.to;
            }
        }
        return false;
    }

    // One unit more, over the arcs by which b was reached.
    void send(int a, int b) {
        for (int place = b; place != a;) {
            const Arc& arc = arcs_[by_[place]];
            carried_[arc.line] = static_cast<std::int8_t>(carried_[arc.line] + arc.way);
            const Line& line = network_.lines[arc.line];
            place = arc.way == 1 ? line.first : line.second;
        }
    }

    const Network& network_;
    std::vector<char> held_;
    std::vector<Arc> arcs_;
    std::vector<int> start_;
    std::vector<std::int8_t> carried_;
    std::vector<int> by_;
    std::vector<char> seen_;
    std::vector<int> queue_;
};

// A tree whose lightest edges are the levels. Place 0 is the root; a place is joined after its parent.
class PlainTree {
public:
    PlainTree(int sites, PlainSearch& search) : parent_(sites, 0), weight_(sites, 0), order_(sites, 0) {
        std::vector<int> all(sites);
        for (int place = 0; place < sites; ++place) all[place] = place;
        joined_.reserve(sites);
        joined_.push_back(0);
        grow(search, 0, all);
    }

    int level(int a, int b) const {
        int least = INT32_MAX;
        while (a != b) {
            if (order_[a] < order_[b]) std::swap(a, b);
            least = std::min(least, weight_[a]);
            a = parent_[a];
        }
        return least;
    }

    // For each place the lowest place of its group at level k; the answer is how many groups there are.
    int groups(int k, std::vector<int>& lowest) const {
        std::vector<int> root(parent_.size());
        for (int place : joined_) root[place] = place != 0 && weight_[place] >= k ? root[parent_[place]] : place;
        std::vector<int> first(parent_.size(), -1);
        int count = 0;
        for (std::size_t place = 0; place < parent_.size(); ++place) {
            if (first[root[place]] < 0) {
                first[root[place]] = static_cast<int>(place);
                ++count;
            }
            lowest[place] = first[root[place]];
        }
        return count;
    }

private:
    // Joins the places, which the source is one of, to the source.
    void grow(PlainSearch& search, int source, const std::vector<int>& places) {
        if (places.size() < 2) return;
        const int next = places[0] == source ? places[1] : places[0];
        parent_[next] = source;
        weight_[next] = search.most_units(source, next);
        order_[next] = static_cast<int>(joined_.size());
        joined_.push_back(next);
        std::vector<int> near, far;
        for (int place : places) (search.is_seen(place) ? near : far).push_back(place);
        grow(search, source, near);
        grow(search, next, far);
    }

    std::vector<int> parent_;
    std::vector<int> weight_;
    std::vector<int> order_;
    std::vector<int> joined_;
};

// A network with its tree: routes are booked and released, and the tree is built anew after each.
class PlainBook {
public:
    explicit PlainBook(const Network& network) : sites_(network.sites), search_(network), tree_(network.sites, search_) {}

    // Books k routes and releases them; false where there are too few.
    bool book_and_release(int first, int second, int k) {
        if (search_.most_units(first, second) < k) return false;
        const std::vector<int> taken = search_.take_routes(first, second, k);
        change(taken, true);
        change(taken, false);
        return true;
    }

    const PlainTree& tree() const { return tree_; }

private:
    void change(const std::vector<int>& lines, bool held) {
        search_.hold(lines, held);
        tree_ = PlainTree(sites_, search_);
    }

    int sites_;
    PlainSearch search_;
    PlainTree tree_;
};
