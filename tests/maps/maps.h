// Dart tables by value, chance, and single sewings: what all maps are made with.
#ifndef MAPS_H
#define MAPS_H

#include <stdbool.h>
#include <stddef.h>
#include <stdint.h>

#include "../second/second.h"

// The most numbers of an accepted table, and room for tables that are somewhat too long.
enum { MOST_ENTRIES = 1020, TABLE_ROOM = 2100 };

// ---- Chance ----

struct chance {
  uint64_t state;
};

// The same numbers from the same state everywhere. At most one draw in an expression: C leaves the order of two open.
uint64_t chance_next(struct chance *chance);
uint64_t chance_below(struct chance *chance, uint64_t bound);
bool chance_one_in(struct chance *chance, uint64_t times);

// ---- Tables ----

// A dart table by value, with n and m as they are handed in: they need not fit the table.
struct map {
  uint64_t n;
  uint64_t m;
  size_t length;
  uint16_t table[TABLE_ROOM];
};

struct map map_empty(uint64_t n, uint64_t m);
// The next table in counting order, with entries up to `most`; false after the last one.
bool next_table(struct map *map, uint16_t most);
struct second_map map_lent(const struct map *map);
unsigned map_refusal(const struct map *map);

// ---- Sewings of a table whose entries are all from 0 to m ----

// Beta i of d, with beta i of 0 being 0.
uint64_t beta(const struct map *map, uint64_t i, uint64_t d);
void set_beta(struct map *map, uint64_t i, uint64_t d, uint64_t e);

// Beta 0: the least dart that beta 1 takes to d, or 0.
uint64_t dart_before(const struct map *map, uint64_t d);

// Sews both ways where i is 2 or more; former partners come loose.
void sew(struct map *map, uint64_t i, uint64_t d, uint64_t e);
void unsew(struct map *map, uint64_t i, uint64_t d);

bool compositions_hold(const struct map *map);

// Whether d is unsewn by beta i and nothing is sewn to e by it.
bool both_loose(const struct map *map, uint64_t i, uint64_t d, uint64_t e);

// Sews only if both ends are loose and every composition still holds.
bool try_sew(struct map *map, uint64_t i, uint64_t d, uint64_t e);

// A closed face of `size` darts from the first one on.
void lay_face(struct map *map, uint64_t first, uint64_t size);

// The map and its mirror image in dimension n, each dart d sewn by beta j to its mirror dart m + d. Where the map is open, a
// composition may fail.
struct map mirrored_twice(const struct map *map, uint64_t n, uint64_t j);

#endif
