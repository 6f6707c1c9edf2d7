// Changes accepted maps: to others that are accepted, or by one or two faults that are found by trying.
#include "changes.h"

#include "families.h"
#include "numberings.h"

// ---- Still accepted ----

// Beta 1 runs backwards: same faces, same sizes, but often no matching.
bool map_mirrored(const struct map *map, struct map *changed) {
  *changed = *map;
  for (uint64_t d = 1; d <= map->m; d++) {
    set_beta(changed, 1, d, dart_before(map, d));
  }
  return map_refusal(changed) == 0;
}

// A sewing comes loose; or only one of a dart to itself does, and an unsewn dart is sewn to itself.
static bool map_with_one_change(struct chance *chance, const struct map *map, bool only_ends, struct map *changed) {
  for (int tries = 0; tries < 40; tries++) {
    uint64_t i = 1 + chance_below(chance, map->n);
    uint64_t d = 1 + chance_below(chance, map->m);
    bool loosened = beta(map, i, d) != 0 && (!only_ends || beta(map, i, d) == d);
    *changed = *map;
    if (loosened) {
      unsew(changed, i, d);
    }
    if ((loosened || (only_ends && try_sew(changed, i, d, d))) && map_refusal(changed) == 0) {
      return true;
    }
  }
  return false;
}

bool map_less_one_sewing(struct chance *chance, const struct map *map, struct map *changed) {
  return map_with_one_change(chance, map, false, changed);
}

bool map_with_loose_end_turned(struct chance *chance, const struct map *map, struct map *changed) {
  return map_with_one_change(chance, map, true, changed);
}

// ---- Refused ----

const unsigned table_refusals[TABLE_REFUSALS] = {1, 2, 3, 5, 6, 7, 8, 9};

// Dimensions that a narrow number would take for the map's own one are among these.
static struct map with_wrong_n(struct chance *chance, uint64_t most_entries) {
  struct map map = any_accepted_map(chance, most_entries);
  const uint64_t wrong[] = {
      0, 5, map.n + 256, map.n + 65536, map.n + ((uint64_t)1 << 32), UINT64_MAX, 6, 257, 255, map.n + ((uint64_t)1 << 63),
  };
  map.n = wrong[chance_below(chance, sizeof wrong / sizeof wrong[0])];
  if (map.n == 0 && chance_one_in(chance, 2)) {
    map.length = 0;
  }
  if (chance_one_in(chance, 6)) {
    // Dimension comes before dart count.
    map.m = chance_one_in(chance, 2) ? 0 : UINT64_MAX;
  }
  return map;
}

// The least added number k with n * k = 0 modulo 2^64, or with n * k = 1 for n = 3.
static uint64_t wrapping_addend(uint64_t n) {
  switch (n) {
  case 2:
    return (uint64_t)1 << 63;
  case 3:
    return 12297829382473034411u;
  case 4:
    return (uint64_t)1 << 62;
  default:
    return UINT64_MAX - MOST_ENTRIES;
  }
}

// Dart counts whose product with n would wrap to the table's length are among these.
static struct map with_wrong_m(struct chance *chance, uint64_t most_entries) {
  struct map map = any_accepted_map(chance, most_entries);
  const uint64_t wrong[] = {
      0,
      MOST_ENTRIES / map.n + 1,
      map.m + wrapping_addend(map.n),
      UINT64_MAX,
      map.m + ((uint64_t)1 << 32),
      map.m + 65536,
      (uint64_t)1 << 32,
      map.m + (((uint64_t)1 << 32) / (map.n == 3 ? 1 : map.n)),
      2 * MOST_ENTRIES,
      65536,
  };
  uint64_t pick = chance_below(chance, sizeof wrong / sizeof wrong[0]);
  map.m = wrong[pick];
  if (pick == 2 && map.n == 3) {
    // Three times the addend wraps to one.
    map.length++;
  }
  if (pick == 1 && chance_one_in(chance, 2)) {
    // As long as this dart count wants it, so that nothing else is wrong.
    map.length = (size_t)(map.n * map.m);
  }
  if (map.m == 0 && chance_one_in(chance, 2)) {
    map.length = 0;
  }
  return map;
}

// A table that is right but for its length; the added numbers look like unsewn darts.
static struct map with_wrong_length(struct chance *chance, uint64_t most_entries) {
  struct map map = any_accepted_map(chance, most_entries);
  size_t right = map.length;
  const size_t wrong[] = {right - 1, right + 1, 0, right + (size_t)map.m, (size_t)map.m, right + right / 2, 1, right + 255};
  do {
    map.length = wrong[chance_below(chance, sizeof wrong / sizeof wrong[0])];
  } while (map.length == right);
  if (chance_one_in(chance, 4)) {
    // A number too large would be the next refusal.
    map.table[0] = UINT16_MAX;
  }
  return map;
}

static void put_number_too_large(struct chance *chance, struct map *map) {
  const uint64_t larger[] = {map->m + 1, UINT16_MAX, map->m + 256, 32768,
                             map->m + 1 + chance_below(chance, UINT16_MAX - map->m)};
  uint64_t pick = chance_below(chance, sizeof larger / sizeof larger[0]);
  map->table[chance_below(chance, map->length)] = (uint16_t)larger[pick];
}

static void put_clash(struct chance *chance, struct map *map) {
  uint64_t d = 1 + chance_below(chance, map->m);
  uint64_t e = beta(map, 1, 1 + chance_below(chance, map->m));
  set_beta(map, 1, d, e != 0 ? e : 1 + chance_below(chance, map->m));
}

static void put_one_way_sewing(struct chance *chance, struct map *map) {
  if (map->n >= 2) {
    uint64_t i = 2 + chance_below(chance, map->n - 1);
    uint64_t d = 1 + chance_below(chance, map->m);
    set_beta(map, i, d, chance_below(chance, map->m + 1));
  }
}

static void put_other_sewing(struct chance *chance, struct map *map) {
  uint64_t i = 1 + chance_below(chance, map->n);
  uint64_t d = 1 + chance_below(chance, map->m);
  if (chance_one_in(chance, 2)) {
    unsew(map, i, d);
  } else {
    sew(map, i, d, 1 + chance_below(chance, map->m));
  }
}

// Puts a second map beside the first and mixes the darts most of the times.
static void put_second_piece(struct chance *chance, struct map *map, uint64_t most_entries) {
  uint64_t most_darts = most_entries / map->n - map->m;
  if (most_darts == 0) {
    return;
  }
  uint64_t most_added = most_darts < 12 ? most_darts : 12;
  struct map piece = accepted_map(chance, map->n, 1 + chance_below(chance, most_added));
  for (size_t at = 0; at < piece.length; at++) {
    uint16_t e = piece.table[at];
    map->table[map->length + at] = e == 0 ? 0 : (uint16_t)(e + map->m);
  }
  map->length += piece.length;
  map->m += piece.m;
  if (!chance_one_in(chance, 3)) {
    *map = map_shuffled(chance, map);
  }
}

static void put_fault(struct chance *chance, struct map *map, unsigned number, uint64_t most) {
  switch (number) {
  case 5:
    put_number_too_large(chance, map);
    break;
  case 6:
    put_clash(chance, map);
    break;
  case 7:
    put_one_way_sewing(chance, map);
    break;
  case 8:
    put_other_sewing(chance, map);
    break;
  default:
    if (chance_one_in(chance, 3)) {
      put_other_sewing(chance, map);
    } else {
      put_second_piece(chance, map, most);
    }
  }
}

// The fault that is meant is not always the one that comes out, so this goes on until it does.
static struct map with_fault(struct chance *chance, unsigned number, uint64_t most_entries) {
  uint64_t least_n = number == 7 ? 2 : number == 8 ? 3 : 1;
  uint64_t n = least_n + chance_below(chance, 5 - least_n);
  for (;;) {
    struct map map = accepted_map(chance, n, any_size(chance, n, most_entries));
    for (int tries = 0; tries < 10; tries++) {
      struct map changed = map;
      put_fault(chance, &changed, number, most_entries);
      if (map_refusal(&changed) == number) {
        return changed;
      }
    }
  }
}

struct map refused_map(struct chance *chance, unsigned number, uint64_t most_entries) {
  switch (number) {
  case 1:
    return with_wrong_n(chance, most_entries);
  case 2:
    return with_wrong_m(chance, most_entries);
  case 3:
    return with_wrong_length(chance, most_entries);
  default:
    return with_fault(chance, number, most_entries);
  }
}

// The higher number goes in first: faults of lower number leave entries that name no dart.
struct map twice_refused_map(struct chance *chance, uint64_t most_entries) {
  for (;;) {
    struct map map = any_accepted_map(chance, most_entries);
    unsigned low = 5 + (unsigned)chance_below(chance, 5);
    unsigned high = low + (unsigned)chance_below(chance, 10 - low);
    put_fault(chance, &map, high, most_entries);
    put_fault(chance, &map, low, most_entries);
    if (map_refusal(&map) != 0) {
      return map;
    }
  }
}
