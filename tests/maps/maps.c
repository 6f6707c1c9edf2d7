// Chance, tables and single sewings.
#include "maps.h"

// ---- Chance ----

uint64_t chance_next(struct chance *chance) {
  uint64_t mixed = (chance->state += 0x9e3779b97f4a7c15u);
  mixed = (mixed ^ (mixed >> 30)) * 0xbf58476d1ce4e5b9u;
  mixed = (mixed ^ (mixed >> 27)) * 0x94d049bb133111ebu;
  return mixed ^ (mixed >> 31);
}

uint64_t chance_below(struct chance *chance, uint64_t bound) {
  return chance_next(chance) % bound;
}

bool chance_one_in(struct chance *chance, uint64_t times) {
  return chance_below(chance, times) == 0;
}

// ---- Tables ----

struct map map_empty(uint64_t n, uint64_t m) {
  struct map map = {.n = n, .m = m, .length = (size_t)(n * m)};
  return map;
}

bool next_table(struct map *map, uint16_t most) {
  for (size_t at = 0; at < map->length; at++) {
    if (map->table[at] < most) {
      map->table[at]++;
      return true;
    }
    map->table[at] = 0;
  }
  return false;
}

struct second_map map_lent(const struct map *map) {
  struct second_map lent = {.n = map->n, .m = map->m, .table = map->table, .length = map->length};
  return lent;
}

unsigned map_refusal(const struct map *map) {
  return second_check(map_lent(map)).number;
}

// ---- Sewings ----

static size_t place_of(const struct map *map, uint64_t i, uint64_t d) {
  return (size_t)((d - 1) * map->n + i - 1);
}

uint64_t beta(const struct map *map, uint64_t i, uint64_t d) {
  return d == 0 ? 0 : map->table[place_of(map, i, d)];
}

void set_beta(struct map *map, uint64_t i, uint64_t d, uint64_t e) {
  map->table[place_of(map, i, d)] = (uint16_t)e;
}

uint64_t dart_before(const struct map *map, uint64_t d) {
  for (uint64_t e = 1; e <= map->m; e++) {
    if (beta(map, 1, e) == d) {
      return e;
    }
  }
  return 0;
}

void unsew(struct map *map, uint64_t i, uint64_t d) {
  uint64_t e = beta(map, i, d);
  set_beta(map, i, d, 0);
  if (i >= 2 && e != 0) {
    set_beta(map, i, e, 0);
  }
}

void sew(struct map *map, uint64_t i, uint64_t d, uint64_t e) {
  unsew(map, i, d);
  if (i >= 2) {
    unsew(map, i, e);
    set_beta(map, i, e, d);
  } else if (dart_before(map, e) != 0) {
    unsew(map, 1, dart_before(map, e));
  }
  set_beta(map, i, d, e);
}

bool compositions_hold(const struct map *map) {
  for (uint64_t i = 1; i + 2 <= map->n; i++) {
    for (uint64_t j = i + 2; j <= map->n; j++) {
      for (uint64_t d = 1; d <= map->m; d++) {
        uint64_t e = beta(map, i, beta(map, j, d));
        if (e != 0 && beta(map, i, beta(map, j, e)) != d) {
          return false;
        }
      }
    }
  }
  return true;
}

bool both_loose(const struct map *map, uint64_t i, uint64_t d, uint64_t e) {
  uint64_t far_end = i == 1 ? dart_before(map, e) : beta(map, i, e);
  return beta(map, i, d) == 0 && far_end == 0;
}

bool try_sew(struct map *map, uint64_t i, uint64_t d, uint64_t e) {
  if (!both_loose(map, i, d, e)) {
    return false;
  }
  sew(map, i, d, e);
  if (compositions_hold(map)) {
    return true;
  }
  unsew(map, i, d);
  return false;
}

void lay_face(struct map *map, uint64_t first, uint64_t size) {
  for (uint64_t k = 0; k < size; k++) {
    set_beta(map, 1, first + k, first + (k + 1) % size);
  }
}

// In the mirror image beta 1 runs backwards.
struct map mirrored_twice(const struct map *map, uint64_t n, uint64_t j) {
  uint64_t m = map->m;
  struct map twice = map_empty(n, 2 * m);
  for (uint64_t d = 1; d <= m; d++) {
    for (uint64_t i = 1; i <= map->n; i++) {
      uint64_t e = beta(map, i, d);
      set_beta(&twice, i, d, e);
      if (e != 0 && i == 1) {
        set_beta(&twice, 1, m + e, m + d);
      } else if (e != 0) {
        set_beta(&twice, i, m + d, m + e);
      }
    }
    sew(&twice, j, d, m + d);
  }
  return twice;
}
