// Changed maps: some that are still accepted, and tables that are refused.
#ifndef CHANGES_H
#define CHANGES_H

#include "maps.h"

// Still accepted; false where trying found none.
bool map_mirrored(const struct map *map, struct map *changed);
bool map_less_one_sewing(struct chance *chance, const struct map *map, struct map *changed);
bool map_with_loose_end_turned(struct chance *chance, const struct map *map, struct map *changed);

// The refusals that a table alone can earn: 1, 2, 3, 5, 6, 7, 8, 9.
enum { TABLE_REFUSALS = 8 };
extern const unsigned table_refusals[TABLE_REFUSALS];
struct map refused_map(struct chance *chance, unsigned number, uint64_t most_entries);
struct map twice_refused_map(struct chance *chance, uint64_t most_entries);

#endif
