#!/usr/bin/env python3
"""Writes the table of cases, stdin, and what is to come out, stdout, beside this file.

Nothing here runs the program or any of its crates. What a file is answered is worked out by hand, from the rules of the
layout, and so is what comes of taking routes out of marks. Values, sides and levels come from the definition, the
fewest free lines that part two places, by going through all sets of places; where there are too many sets, from a
search for further routes over a table of capacities, which is held to the first way on every network that is small
enough for both.
"""

import pathlib

# ---- files ----------------------------------------------------------------------------------------------------------


def number(value):
    return bytes([value % 256, value // 256])


def site(value, sign=b"SITE  "):
    return number(value) + sign


def line(value, first, second):
    return number(value) + number(first) + number(second)


def header(site_part, line_part, signature=b"LNET", edition=1, pairs=2):
    """The first 14 bytes; a part is given as its offset and its length."""
    return signature + bytes([edition, pairs]) + b"".join(map(number, (*site_part, *line_part)))


def network_file(sites, lines, before=b"", between=b"", after=b""):
    """A file with its parts in their place, and bytes around them that mean nothing."""
    site_part = b"".join(sites)
    line_part = b"".join(lines)
    start = 14 + len(before)
    lines_at = start + len(site_part) + len(between)
    pairs = header((start, len(site_part)), (lines_at, len(line_part)))
    return pairs + before + site_part + between + line_part + after


def with_bytes(file, place, new):
    return file[:place] + bytes(new) + file[place + len(new):]


def with_parts(file, site_part, line_part):
    """The same file under a header that puts its parts elsewhere."""
    return header(site_part, line_part) + file[14:]


def opened(sites, lines):
    return f"opened: {sites} sites, {lines} lines"


def denied(check, place):
    layer = {8: "record", 9: "network"}.get(check, "file")
    return f"denied {check}, {layer}: byte {place}"


# sites 10 at byte 14 and 20 at byte 22, line 1 between them at byte 30
PAIR = bytes.fromhex("4C4E4554 0102 0E001000 1E000600 0A0048494C4C2020 1400424159202020 01000A001400")
LONE = network_file([site(10)], [])
TEN_TWENTY = [site(10), site(20)]
GOOD = line(1, 10, 20)

FILES = [
    ("pair", PAIR, opened(2, 1)),
    ("lone-site", LONE, opened(1, 0)),
    # check 2: the size
    ("empty", b"", denied(2, 0)),
    ("one-byte", PAIR[:1], denied(2, 0)),
    ("13-bytes", PAIR[:13], denied(2, 0)),
    ("14-bytes", PAIR[:14], denied(6, 6)),
    ("8192-bytes", PAIR + bytes(8192 - 36), opened(2, 1)),
    ("8193-bytes", PAIR + bytes(8193 - 36), denied(2, 0)),
    # check 3: the signature
    ("signature-0", with_bytes(PAIR, 0, b"l"), denied(3, 0)),
    ("signature-1", with_bytes(PAIR, 1, b"n"), denied(3, 0)),
    ("signature-2", with_bytes(PAIR, 2, b"e"), denied(3, 0)),
    ("signature-3", with_bytes(PAIR, 3, b"t"), denied(3, 0)),
    # checks 4 and 5: edition and number of pairs
    ("edition-0", with_bytes(PAIR, 4, [0]), denied(4, 4)),
    ("edition-2", with_bytes(PAIR, 4, [2]), denied(4, 4)),
    ("pairs-1", with_bytes(PAIR, 5, [1]), denied(5, 5)),
    ("pairs-3", with_bytes(PAIR, 5, [3]), denied(5, 5)),
    # check 6: where the parts lie
    ("cut-short", PAIR[:35], denied(6, 10)),
    ("sites-at-13", with_parts(PAIR, (13, 16), (30, 6)), denied(6, 6)),
    ("sites-at-0", with_parts(PAIR, (0, 16), (30, 6)), denied(6, 6)),
    ("sites-too-long", with_parts(PAIR, (14, 24), (38, 0)), denied(6, 6)),
    ("sites-past-end", with_parts(PAIR, (37, 8), (45, 0)), denied(6, 6)),
    ("lines-at-29", with_parts(PAIR, (14, 16), (29, 6)), denied(6, 10)),
    ("lines-first", with_parts(PAIR, (20, 16), (14, 6)), denied(6, 10)),
    ("lines-past-end", with_parts(PAIR, (14, 16), (31, 6)), denied(6, 10)),
    ("both-past-end", with_parts(PAIR, (30, 16), (40, 6)), denied(6, 6)),
    ("sites-past-65535", with_parts(PAIR, (65528, 16), (30, 6)), denied(6, 6)),
    ("lines-past-65535", with_parts(PAIR, (14, 16), (65530, 36)), denied(6, 10)),
    ("no-lines-at-0", with_parts(PAIR, (14, 16), (0, 0)), denied(6, 10)),
    ("no-lines-inside-sites", with_parts(PAIR, (14, 16), (29, 0)), denied(6, 10)),
    ("no-lines-after-sites", with_parts(PAIR, (14, 16), (30, 0)), opened(2, 0)),
    ("no-lines-at-end", with_parts(PAIR, (14, 16), (36, 0)), opened(2, 0)),
    ("no-lines-past-end", with_parts(PAIR, (14, 16), (37, 0)), denied(6, 10)),
    # check 7: the lengths
    ("no-sites", with_parts(PAIR, (14, 0), (30, 6)), denied(7, 8)),
    ("no-sites-14-bytes", header((14, 0), (14, 0)), denied(7, 8)),
    ("site-length-12", with_parts(PAIR, (14, 12), (30, 6)), denied(7, 8)),
    ("64-sites", network_file([site(n) for n in range(64)], []), opened(64, 0)),
    ("65-sites", network_file([site(n) for n in range(65)], []), denied(7, 8)),
    ("line-length-5", with_parts(PAIR, (14, 16), (30, 5)), denied(7, 12)),
    ("line-length-7", with_parts(PAIR + b"?", (14, 16), (30, 7)), denied(7, 12)),
    ("512-lines", network_file(TEN_TWENTY, [line(n, 10, 20) for n in range(512)]), opened(2, 512)),
    ("513-lines", network_file(TEN_TWENTY, [line(n, 10, 20) for n in range(513)]), denied(7, 12)),
    ("both-lengths", with_parts(PAIR, (14, 12), (30, 5)), denied(7, 8)),
    # check 8: numbers that rise
    ("equal-sites", network_file([site(10), site(10)], []), denied(8, 22)),
    ("falling-sites", network_file([site(20), site(10)], [GOOD]), denied(8, 22)),
    ("third-site-falls", network_file([site(10), site(20), site(15)], []), denied(8, 30)),
    ("two-sites-fall", network_file([site(10), site(9), site(8)], []), denied(8, 22)),
    ("site-0-first", network_file([site(0), site(1)], [line(1, 0, 1)]), opened(2, 1)),
    ("site-0-twice", network_file([site(0), site(0)], []), denied(8, 22)),
    ("low-byte-falls", network_file([site(255), site(256)], [line(1, 256, 255)]), opened(2, 1)),
    ("high-byte-falls", network_file([site(256), site(255)], [line(1, 256, 255)]), denied(8, 22)),
    ("highest-numbers", network_file([site(65534), site(65535)], [line(65535, 65535, 65534)]), opened(2, 1)),
    ("equal-lines", network_file(TEN_TWENTY, [GOOD, GOOD]), denied(8, 36)),
    ("falling-lines", network_file(TEN_TWENTY, [line(2, 10, 20), GOOD]), denied(8, 36)),
    ("third-line-falls", network_file(TEN_TWENTY, [GOOD, line(3, 20, 10), line(2, 10, 20)]), denied(8, 42)),
    ("line-0-first", network_file(TEN_TWENTY, [line(0, 10, 20), GOOD]), opened(2, 2)),
    ("both-parts-fall", network_file([site(20), site(10)], [GOOD, GOOD]), denied(8, 22)),
    # check 9: the ends of lines
    ("unknown-first", network_file(TEN_TWENTY, [line(1, 99, 20)]), denied(9, 30)),
    ("unknown-second", network_file(TEN_TWENTY, [line(1, 10, 99)]), denied(9, 30)),
    ("unknown-twice", network_file(TEN_TWENTY, [line(1, 99, 99)]), denied(9, 30)),
    ("one-site-twice", network_file(TEN_TWENTY, [line(1, 20, 20)]), denied(9, 30)),
    ("second-line-bad", network_file(TEN_TWENTY, [GOOD, line(2, 10, 10)]), denied(9, 36)),
    ("two-lines-bad", network_file(TEN_TWENTY, [line(1, 99, 10), line(2, 10, 10)]), denied(9, 30)),
    ("site-outside-part", with_parts(PAIR, (14, 8), (30, 6)), denied(9, 30)),
    # bytes outside header and parts
    ("gaps", network_file(TEN_TWENTY, [GOOD], b"\xff" * 3, b"\xff" * 5, b"\xff" * 4), opened(2, 1)),
    ("bytes-after", PAIR + b"LNET", opened(2, 1)),
    ("any-call-sign", network_file([site(10, b"\x00\xff\n\t\x80?")], []), opened(1, 0)),
    # faults of different checks: the earlier check comes first, wherever its place lies
    ("size-and-signature", b"l" + PAIR[1:13], denied(2, 0)),
    ("signature-and-edition", with_bytes(PAIR, 3, b"t\0"), denied(3, 0)),
    ("edition-and-pairs", with_bytes(PAIR, 4, [2, 3]), denied(4, 4)),
    ("pairs-and-bounds", with_bytes(PAIR[:35], 5, [3]), denied(5, 5)),
    ("bounds-and-length", with_parts(PAIR, (14, 12), (31, 6)), denied(6, 10)),
    ("length-and-rising", header((14, 16), (30, 5)) + site(20) + site(10) + GOOD, denied(7, 12)),
    ("rising-and-ends", network_file(TEN_TWENTY, [line(1, 10, 99), GOOD]), denied(8, 36)),
    ("rising-sites-and-ends", network_file([site(20), site(10)], [line(1, 99, 10)]), denied(8, 22)),
]

# ---- networks -------------------------------------------------------------------------------------------------------


class Network:
    """Site numbers by place, and lines by position, each the places that it joins."""

    def __init__(self, name, sites, joins):
        self.name = name
        self.sites = sites
        self.joins = joins

    def label(self, held):
        return self.name + "-held" if held else self.name

    def bytes(self):
        lines = [line(i + 1, self.sites[a], self.sites[b]) for i, (a, b) in enumerate(self.joins)]
        return network_file([site(n) for n in self.sites], lines)

    def free(self, held):
        return [ends for i, ends in enumerate(self.joins) if i not in held]


def tens(count):
    return [10 * (place + 1) for place in range(count)]


def cluster(places):
    return [(a, b) for a in places for b in places if a < b]


def random_numbers(seed):
    """A fixed succession of numbers from 0 to 32,767."""
    while True:
        seed = (seed * 1103515245 + 12345) % 2**31
        yield seed // 2**16


def random_joins(seed, places, lines):
    """Lines between two different of the places."""
    numbers = random_numbers(seed)
    joins = []
    while len(joins) < lines:
        a, b = (places[next(numbers) % len(places)] for _ in range(2))
        if a != b:
            joins.append((a, b))
    return joins


WORKED = Network("worked", tens(4), [(0, 1), (0, 1), (1, 2), (2, 0), (2, 3)])
RELAYS = Network("relays", tens(5), [(0, 2), (2, 1), (0, 3), (3, 1), (0, 4), (4, 1)])
PARALLEL = Network("parallel", tens(2), [(0, 1), (1, 0), (0, 1), (1, 0), (0, 1)])
THICK = Network("thick", tens(2), [(0, 1), (1, 0)] * 256)
CHAIN = Network("chain", tens(6), [(0, 1), (2, 1), (2, 3), (4, 3), (4, 5)])
CLUSTERS = Network("clusters", tens(8), cluster(range(4)) + cluster(range(4, 8)) + [(0, 4), (7, 3)])
BARE = Network("bare", tens(3), [])
LONE_SITE = Network("lone", tens(1), [])
# the shortest route from 0 to 7 goes by the line between 1 and 2, which no two separate routes can use
DETOUR = Network("detour", tens(8), [(0, 1), (1, 2), (2, 7), (1, 3), (3, 4), (4, 7), (0, 5), (5, 6), (6, 2)])
RING = Network("ring", tens(64), [(place, (place + 1) % 64) for place in range(64)])
RANDOM = [Network(f"random{seed}", tens(7), random_joins(seed, range(7), 16)) for seed in range(1, 5)]
# eight blocks of eight sites with 58 lines in each, and 48 lines anywhere: 512 in all
BLOCKS = [random_joins(block, range(8 * block, 8 * block + 8), 58) for block in range(8)]
LARGE = Network("large", tens(64), sum(BLOCKS, random_joins(64, range(64), 48)))

# ---- levels ---------------------------------------------------------------------------------------------------------


def cut_by_sets(sites, free, a, b):
    """The fewest lines that leave a set of places with a and without b, and the smallest such set."""
    rest = [place for place in range(sites) if place not in (a, b)]
    sets = [{a} | {place for i, place in enumerate(rest) if choice >> i & 1} for choice in range(2 ** len(rest))]
    crossings = [sum((x in held) != (y in held) for x, y in free) for held in sets]
    least = [held for held, crossing in zip(sets, crossings) if crossing == min(crossings)]
    smallest = min(least, key=len)
    assert all(smallest <= held for held in least)
    return min(crossings), smallest


def cut_by_routes(sites, free, a, b):
    """How often one more unit can be sent from a to b over what is left of the capacity between each two places, and
    the places that can then still be reached."""
    left = [[0] * sites for _ in range(sites)]
    for x, y in free:
        left[x][y] += 1
        left[y][x] += 1
    level = 0
    while True:
        came_from = {a: a}
        wave = [a]
        while wave and b not in came_from:
            here = wave.pop(0)
            for there in range(sites):
                if left[here][there] and there not in came_from:
                    came_from[there] = here
                    wave.append(there)
        if b not in came_from:
            return level, set(came_from)
        there = b
        while there != a:
            here = came_from[there]
            left[here][there] -= 1
            left[there][here] += 1
            there = here
        level += 1


def cut_of(sites, free, a, b):
    cut = cut_by_routes(sites, free, a, b)
    if sites <= 8:
        assert cut == cut_by_sets(sites, free, a, b)
    return cut


def levels_of(network, held):
    """The level of every two places; none of a place and itself."""
    sites = len(network.sites)
    free = network.free(held)
    levels = [[None] * sites for _ in range(sites)]
    for a in range(sites):
        for b in range(a):
            levels[a][b] = levels[b][a] = cut_of(sites, free, a, b)[0]
    return levels


# ---- cases ----------------------------------------------------------------------------------------------------------

# network, first place, second place, positions of the lines held
FLOWS = [
    *((WORKED, a, b, []) for a in range(4) for b in range(4) if a != b),
    (WORKED, 0, 1, [0]),
    (WORKED, 0, 1, [0, 1]),
    (WORKED, 0, 1, [0, 1, 2, 3]),
    (WORKED, 2, 3, [0, 1, 2, 3]),
    (WORKED, 3, 2, [4]),
    (RELAYS, 0, 1, []),
    (RELAYS, 1, 0, [2]),
    (RELAYS, 2, 3, []),
    (PARALLEL, 0, 1, []),
    (PARALLEL, 1, 0, []),
    (PARALLEL, 0, 1, [1, 3]),
    (THICK, 0, 1, []),
    (THICK, 1, 0, [0, 511]),
    (CHAIN, 0, 5, []),
    (CHAIN, 4, 1, []),
    (CHAIN, 0, 5, [2]),
    (CLUSTERS, 1, 6, []),
    (CLUSTERS, 0, 3, []),
    (CLUSTERS, 1, 6, [12]),
    (CLUSTERS, 1, 6, [12, 13]),
    (BARE, 0, 2, []),
    (DETOUR, 0, 7, []),
    (DETOUR, 7, 0, []),
    (DETOUR, 0, 7, [1]),
    (RING, 0, 63, []),
    (RING, 17, 49, []),
    (RING, 17, 49, [20]),
    (LARGE, 0, 63, []),
    (LARGE, 31, 32, []),
    (LARGE, 5, 50, list(range(0, 512, 2))),
    (LARGE, 63, 1, list(range(100, 500))),
    # calls that are declined
    (WORKED, 2, 2, []),
    (WORKED, 4, 0, []),
    (WORKED, 0, 4, []),
    (WORKED, 99, 99, []),
    (BARE, 64, 1, []),
    (LARGE, 0, 64, []),
    (LONE_SITE, 0, 0, []),
]

# network, number of sites that the engine is told, lengths of marks and work table, whether the engine takes the call
ROOMS = [
    (WORKED, 4, 5, 4, True),
    (WORKED, 4, 4, 4, False),
    (WORKED, 4, 0, 4, False),
    (WORKED, 4, 5, 3, False),
    (WORKED, 4, 5, 0, False),
    # places that no line joins
    (WORKED, 64, 5, 64, True),
    (WORKED, 65, 5, 65, False),
    # line 5 lies at the place 3
    (WORKED, 3, 5, 3, False),
    (WORKED, 1, 5, 1, False),
    (WORKED, 0, 5, 0, False),
    (BARE, 3, 0, 3, True),
    (BARE, 2, 0, 2, True),
]

WALK = "routes walk"
REFUSED = "refused, nothing written"

# network, a mark for each line, first place, second place, value that they carry, routes wanted, room for numbers,
# positions of the lines held, what comes of it. In the worked network, lines 1 and 2 carry from 10 to 20, line 4 from
# 10 to 30 and line 3 on to 20: counts and lines of these three routes are seven numbers.
TAKES = [
    (WORKED, "11220", 0, 1, 3, 3, 1024, [], WALK),
    (WORKED, "11220", 0, 1, 3, 3, 7, [], WALK),
    (WORKED, "11220", 0, 1, 3, 3, 6, [], REFUSED),
    (WORKED, "11220", 0, 1, 3, 3, 0, [], REFUSED),
    (WORKED, "11220", 0, 1, 3, 2, 5, [], WALK),
    (WORKED, "11220", 0, 1, 3, 1, 3, [], WALK),
    (WORKED, "11220", 0, 1, 3, 0, 0, [], WALK),
    (WORKED, "00000", 3, 1, 0, 0, 0, [], WALK),
    (WORKED, "1122012", 0, 1, 3, 3, 7, [], WALK),
    # more than they carry
    (WORKED, "11220", 0, 1, 3, 4, 1024, [], REFUSED),
    (WORKED, "11220", 0, 1, 4, 3, 1024, [], REFUSED),
    (WORKED, "11220", 0, 1, 2, 2, 1024, [], REFUSED),
    (WORKED, "00000", 0, 1, 1, 1, 1024, [], REFUSED),
    # marks that carry nothing from the one place to the other
    (WORKED, "11220", 1, 0, 3, 3, 1024, [], REFUSED),
    (WORKED, "11220", 0, 2, 3, 3, 1024, [], REFUSED),
    (WORKED, "11210", 0, 1, 3, 3, 1024, [], REFUSED),
    (WORKED, "11221", 0, 1, 3, 3, 1024, [], REFUSED),
    (WORKED, "31220", 0, 1, 3, 3, 1024, [], REFUSED),
    (WORKED, "1122", 0, 1, 3, 3, 1024, [], REFUSED),
    (WORKED, "11220", 0, 1, 3, 3, 1024, [0], REFUSED),
    (WORKED, "11220", 0, 1, 3, 3, 1024, [4], WALK),
    # places that are one, or not in the network
    (WORKED, "00000", 2, 2, 0, 0, 1024, [], REFUSED),
    (WORKED, "00000", 4, 0, 0, 0, 1024, [], REFUSED),
    (WORKED, "00000", 0, 4, 0, 0, 1024, [], REFUSED),
    # a circle over 10, 20 and 30: apart from the route, through its first site, through its second; each time one line
    # goes from the one to the other
    (CLUSTERS, "12010010000000", 4, 5, 1, 1, 2, [], WALK),
    (CLUSTERS, "12110000000000", 0, 3, 1, 1, 2, [], WALK),
    (CLUSTERS, "12012000000000", 3, 1, 1, 1, 2, [], WALK),
    (CLUSTERS, "12010000000000", 0, 1, 0, 0, 0, [], WALK),
]

LEVELS = [
    (WORKED, []),
    (WORKED, [0, 1, 2, 3]),
    (RELAYS, []),
    (PARALLEL, []),
    (PARALLEL, [1, 3]),
    (THICK, []),
    (CHAIN, []),
    (CHAIN, [2]),
    (CLUSTERS, []),
    (CLUSTERS, [12]),
    (CLUSTERS, [12, 13]),
    (BARE, []),
    (LONE_SITE, []),
    (DETOUR, []),
    *((network, []) for network in RANDOM),
    *((network, [2, 3, 5, 7, 11, 13]) for network in RANDOM),
    (LARGE, []),
]

GROUPS = [
    *((WORKED, k, []) for k in (0, 1, 2, 3, 4, 512, 513, 2**32 - 1)),
    *((WORKED, k, [0, 1, 2, 3]) for k in (1, 2)),
    *((RELAYS, k, []) for k in (2, 3, 4)),
    *((THICK, k, []) for k in (511, 512, 513)),
    *((CHAIN, k, [2]) for k in (1, 2)),
    *((CLUSTERS, k, []) for k in (2, 3, 4, 5)),
    (BARE, 1, []),
    (LONE_SITE, 1, []),
    *((network, k, [2, 3, 5, 7, 11, 13]) for network in RANDOM for k in (2, 3)),
    (RING, 2, []),
    (RING, 2, [10]),
    (RING, 1, [10, 40]),
    *((LARGE, k, []) for k in (1, 10, 14, 17)),
    (LARGE, 6, list(range(0, 512, 2))),
]


def answers(network, value, side, found):
    """Both engines answer the smallest side, since its places are those that are still reached from the first."""
    shown = "".join(f" {network.sites[place]}" for place in sorted(side) if place < len(network.sites))
    answer = f"{value}, side of {len(side)}:{shown}"
    return f"shortest {answer}; push {answer}; {found}"


def flow_case(network, a, b, held):
    sites = len(network.sites)
    if a == b or a >= sites or b >= sites:
        answer = answers(network, 0, [], "declined")
    else:
        answer = answers(network, *cut_of(sites, network.free(held), a, b), "sides hold, routes walk")
    return [f"{network.label(held)} {a}-{b}: {answer}"]


def room_case(network, sites, marks, work, is_taken):
    if is_taken:
        answer = answers(network, *cut_of(len(network.sites), network.joins, 0, 1), "sides hold, routes walk")
    else:
        answer = answers(network, 0, [], "declined")
    return [f"{network.name} of {sites} with room {marks} {work}: {answer}"]


def take_case(network, a, b, value, k, room, held, answer):
    return [f"{network.label(held)} {a}-{b}: {k} of {value} into {room}: {answer}"]


def levels_case(network, held):
    rows = [f"{network.label(held)} levels"]
    for number, levels in zip(network.sites, levels_of(network, held)):
        shown = " ".join("-" if level is None else str(level) for level in levels)
        rows.append(f"  {number}: {shown}")
    return rows


def groups_case(network, k, held):
    levels = levels_of(network, held)
    sites = len(network.sites)
    lowest = [next(y for y in range(sites) if y == x or levels[x][y] >= k) for x in range(sites)]
    shown = " ".join(str(network.sites[place]) for place in lowest)
    return [f"{network.label(held)} at {k}: {len(set(lowest))} groups: {shown}"]


def row(kind, network, held, *rest):
    """A line of the table; its last numbers are the positions of the lines held."""
    return " ".join(str(word) for word in (kind, network.label(held), network.bytes().hex(), *rest, *held))


def main():
    table = []
    expected = []

    def put(case, lines):
        table.append(case)
        expected.extend(lines)

    for name, file, answer in FILES:
        put(f"file {name} {file.hex() or '-'}", [f"{name}: {answer}"])
    for network in (WORKED, RELAYS):
        answer = "that of the proved cases" if network is WORKED else "another"
        put(row("worked", network, []), [f"{network.name}: {answer}"])
    for network, a, b, held in FLOWS:
        put(row("flow", network, held, a, b), flow_case(network, a, b, held))
    for network, *room, is_taken in ROOMS:
        put(row("room", network, [], *room), room_case(network, *room, is_taken))
    for network, marks, *taking, held, answer in TAKES:
        put(row("take", network, held, *taking, len(marks), *marks), take_case(network, *taking, held, answer))
    for network, held in LEVELS:
        put(row("levels", network, held), levels_case(network, held))
    for network, k, held in GROUPS:
        put(row("groups", network, held, k), groups_case(network, k, held))
    here = pathlib.Path(__file__).parent
    (here / "stdin").write_text("\n".join(table) + "\n")
    (here / "stdout").write_text("\n".join(expected) + "\n")


main()
