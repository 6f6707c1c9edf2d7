// Marks on a map that some of its symmetries keep and the others don't.
#include <string.h>

#include "numberings.h"
#include "symmetric.h"

enum { MOST_DRAWN = 3, MARK_TRIES = 20 };

// A symmetry: to[d - 1] is where dart d goes.
struct symmetry {
  uint16_t to[MOST_ENTRIES];
};

// A match with a renumbered copy, and then back to the old numbers. It takes dart 1 to the least number of all that it could go
// to, and those are drawn.
static struct symmetry any_symmetry(struct chance *chance, const struct map *map) {
  struct symmetry symmetry;
  uint16_t names[TABLE_ROOM];
  uint16_t old[TABLE_ROOM + 1];
  shuffled_names(chance, map->m, names);
  struct map copy = map_renamed(map, names);
  second_match(map_lent(map), map_lent(&copy), symmetry.to, MOST_ENTRIES);
  for (uint64_t d = 1; d <= map->m; d++) {
    old[names[d - 1]] = (uint16_t)d;
  }
  for (uint64_t d = 1; d <= map->m; d++) {
    symmetry.to[d - 1] = old[symmetry.to[d - 1]];
  }
  return symmetry;
}

struct darts {
  size_t count;
  uint16_t darts[MOST_ENTRIES];
};

// All darts that the symmetries take the first to, by any steps. No symmetry but the one that moves nothing leaves a dart where
// it is, so these are as many as symmetries come of the given ones.
static void find_orbit(const struct symmetry *symmetries, uint64_t count, uint64_t first, struct darts *orbit) {
  bool met[MOST_ENTRIES + 1] = {false};
  met[first] = true;
  orbit->count = 1;
  orbit->darts[0] = (uint16_t)first;
  for (size_t at = 0; at < orbit->count; at++) {
    for (uint64_t k = 0; k < count; k++) {
      uint16_t next = symmetries[k].to[orbit->darts[at] - 1];
      if (!met[next]) {
        met[next] = true;
        orbit->darts[orbit->count++] = next;
      }
    }
  }
}

// Each dart comes loose, or is sewn to itself and those that it was sewn to come loose.
static bool mark_orbit(struct chance *chance, const struct map *map, const struct darts *orbit, bool all, struct map *marked) {
  uint64_t i = 1 + chance_below(chance, map->n);
  bool to_itself = chance_one_in(chance, 2);
  *marked = *map;
  for (size_t at = all ? 0 : 1; at < orbit->count; at++) {
    if (to_itself) {
      sew(marked, i, orbit->darts[at], orbit->darts[at]);
    } else {
      unsew(marked, i, orbit->darts[at]);
    }
  }
  bool changed = memcmp(marked->table, map->table, map->length * sizeof map->table[0]) != 0;
  return changed && map_refusal(marked) == 0;
}

bool map_marked(struct chance *chance, const struct map *map, struct map *marked, uint64_t *kept) {
  for (int tries = 0; tries < MARK_TRIES; tries++) {
    struct symmetry symmetries[MOST_DRAWN];
    struct darts orbit;
    uint64_t drawn = chance_below(chance, MOST_DRAWN + 1);
    for (uint64_t k = 0; k < drawn; k++) {
      symmetries[k] = any_symmetry(chance, map);
    }
    find_orbit(symmetries, drawn, 1 + chance_below(chance, map->m), &orbit);
    bool all = !chance_one_in(chance, 4);
    if (mark_orbit(chance, map, &orbit, all, marked)) {
      *kept = all ? orbit.count : 1;
      return true;
    }
  }
  return false;
}
