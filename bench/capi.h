/* The calls of the crate `capi`. Each answers 0 where it was done; a number from 2 to 16 is that of a check of the line
 * book, 254 is no such engine and 255 no memory. Engine 0 is the shortest-route engine, 1 the push engine. */
#pragma once
#include <stddef.h>
#include <stdint.h>

#ifdef __cplusplus
extern "C" {
#endif

/* Builds the tree of a network file `turns` times, at least once, and writes the level of the places x and y of n at
 * x n + y. */
uint32_t dowelsage_levels(uint32_t engine, const uint8_t *bytes, size_t length, uint32_t turns, size_t *levels, size_t room);

/* Books `k` routes between two sites and releases them, `turns` times, and writes the level that the sites have then. */
uint32_t dowelsage_bookings(uint32_t engine, const uint8_t *bytes, size_t length, uint16_t first, uint16_t second, uint32_t k,
                            uint16_t turns, size_t *level);

/* Writes for each place the number of the lowest site in its group at level `k`, `turns` times and at least once, and the
 * number of groups. */
uint32_t dowelsage_groups(uint32_t engine, const uint8_t *bytes, size_t length, uint32_t k, uint32_t turns, size_t *count,
                          uint16_t *list, size_t room);

#ifdef __cplusplus
}
#endif
