// A network of sites and lines, and its network file.
#pragma once
#include <cstddef>
#include <cstdint>
#include <random>
#include <vector>

struct Line {
    int first;
    int second;
};

struct Network {
    int sites;
    std::vector<Line> lines;
};

// Lines between two different sites, by chance but always the same of a seed.
inline Network random_network(int sites, int lines, std::uint32_t seed) {
    std::mt19937 dice(seed);
    Network network{sites, {}};
    while (static_cast<int>(network.lines.size()) < lines) {
        int first = static_cast<int>(dice() % static_cast<std::uint32_t>(sites));
        int second = static_cast<int>(dice() % static_cast<std::uint32_t>(sites));
        if (first != second) network.lines.push_back({first, second});
    }
    return network;
}

// The network file: place i has the site number i, and position j the line number j.
inline std::vector<std::uint8_t> network_file(const Network& network) {
    std::vector<std::uint8_t> bytes = {0x4c, 0x4e, 0x45, 0x54, 1, 2};
    auto put = [&bytes](std::size_t number) {
        bytes.push_back(static_cast<std::uint8_t>(number & 255));
        bytes.push_back(static_cast<std::uint8_t>(number >> 8));
    };
    const std::size_t site_bytes = 8 * static_cast<std::size_t>(network.sites);
    put(14);
    put(site_bytes);
    put(14 + site_bytes);
    put(6 * network.lines.size());
    for (int i = 0; i < network.sites; ++i) {
        put(static_cast<std::size_t>(i));
        for (int c = 0; c < 6; ++c) bytes.push_back(' ');
    }
    for (std::size_t j = 0; j < network.lines.size(); ++j) {
        put(j);
        put(static_cast<std::size_t>(network.lines[j].first));
        put(static_cast<std::size_t>(network.lines[j].second));
    }
    return bytes;
}
