// The tree of levels by two libraries: LEMON and igraph.
#pragma once
#include "network.hpp"
#include <algorithm>
#include <climits>
#include <igraph/igraph.h>
#include <lemon/gomory_hu.h>
#include <lemon/smart_graph.h>
#include <memory>
#include <vector>

class LemonTree {
public:
    explicit LemonTree(const Network& network) : unit_(graph_, 1) {
        for (int place = 0; place < network.sites; ++place) nodes_.push_back(graph_.addNode());
        for (const Line& line : network.lines) unit_[graph_.addEdge(nodes_[line.first], nodes_[line.second])] = 1;
    }

    void build() {
        tree_ = std::make_unique<Tree>(graph_, unit_);
        tree_->run();
    }

    int level(int a, int b) const { return tree_->minCutValue(nodes_[a], nodes_[b]); }

private:
    using Graph = lemon::SmartGraph;
    using Units = Graph::EdgeMap<int>;
    using Tree = lemon::GomoryHu<Graph, Units>;
    Graph graph_;
    Units unit_;
    std::vector<Graph::Node> nodes_;
    std::unique_ptr<Tree> tree_;
};

class IgraphTree {
public:
    explicit IgraphTree(const Network& network) : sites_(network.sites) {
        igraph_vector_int_t ends;
        igraph_vector_int_init(&ends, 0);
        for (const Line& line : network.lines) {
            igraph_vector_int_push_back(&ends, line.first);
            igraph_vector_int_push_back(&ends, line.second);
        }
        igraph_create(&graph_, &ends, network.sites, IGRAPH_UNDIRECTED);
        igraph_vector_int_destroy(&ends);
        igraph_vector_init(&weights_, 0);
    }

    ~IgraphTree() {
        igraph_vector_destroy(&weights_);
        igraph_destroy(&graph_);
    }

    IgraphTree(const IgraphTree&) = delete;
    IgraphTree& operator=(const IgraphTree&) = delete;

    // Builds the tree; `read` keeps its edges for `level`.
    void build(bool read) {
        igraph_t tree;
        igraph_gomory_hu_tree(&graph_, &tree, &weights_, nullptr);
        if (read) keep_levels(tree);
        igraph_destroy(&tree);
    }

    int level(int a, int b) const { return levels_[static_cast<std::size_t>(a * sites_ + b)]; }

private:
    // The lightest edge from each place to every other, by a walk over the tree.
    void keep_levels(const igraph_t& tree) {
        std::vector<std::vector<std::pair<int, int>>> edges(static_cast<std::size_t>(sites_));
        for (igraph_integer_t e = 0; e < igraph_ecount(&tree); ++e) {
            const int from = static_cast<int>(IGRAPH_FROM(&tree, e));
            const int to = static_cast<int>(IGRAPH_TO(&tree, e));
            const int weight = static_cast<int>(VECTOR(weights_)[e] + 0.5);
            edges[from].push_back({to, weight});
            edges[to].push_back({from, weight});
        }
        levels_.assign(static_cast<std::size_t>(sites_ * sites_), 0);
        for (int place = 0; place < sites_; ++place) walk(edges, place, place, -1, INT_MAX);
    }

    void walk(const std::vector<std::vector<std::pair<int, int>>>& edges, int start, int place, int before, int least) {
        levels_[static_cast<std::size_t>(start * sites_ + place)] = least;
        for (auto [next, weight] : edges[place])
            if (next != before) walk(edges, start, next, place, std::min(least, weight));
    }

    int sites_;
    igraph_t graph_;
    igraph_vector_t weights_;
    std::vector<int> levels_;
};
