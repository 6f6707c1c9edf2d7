// The pairs measured: twins, and strangers in which the starts of the second map run as far as they
// can. A stranger has more or fewer unsewn darts, so no matching can be.
#include "pairs.h"

#include <string.h>

// ---- Strangers ----

// The sewing that changes is the one that a word from dart 1 shows last. It changes in the first
// map of a pair, so that every start of the second which is like dart 1 runs until there.

// Sews to itself a dart that was 2-sewn to nothing. A dart that is 4-sewn would break a
// composition.
static void mark_last(struct map *map) {
  struct map_order order;
  order_from(map, 1, &order);
  for (size_t k = order.length; k > 0; k--) {
    uint64_t dart = order.darts[k - 1];
    if (beta(map, 2, dart) == 0 && (map->n < 4 || beta(map, 4, dart) == 0)) {
      sew(map, 2, dart, dart);
      return;
    }
  }
}

static void cut_last(struct map *map, uint64_t i) {
  struct map_order order;
  order_from(map, 1, &order);
  for (size_t k = order.length; k > 0; k--) {
    if (beta(map, i, order.darts[k - 1]) != 0) {
      unsew(map, i, order.darts[k - 1]);
      return;
    }
  }
}

// A ring of dimension 1 becomes a chain, with dart 1 in its middle.
static void cut_last_1(struct map *map) {
  cut_last(map, 1);
}

static void cut_last_2(struct map *map) {
  cut_last(map, 2);
}

// ---- The list ----

// Of rings and tori all starts are alike, whatever the names.
const struct pair_kind pair_kinds[] = {
    {"ring", 1, mark_last},
    {"ring-n1", 1, cut_last_1},
    {"marked-ring", 16, mark_last},
    {"open-11x11", 16, mark_last},
    {"torus-11x11", 1, cut_last_2},
    {"random-510", 16, mark_last},
    {"doubled-random-n3", 16, cut_last_2},
    {"grown-n4", 16, mark_last},
    {"case-E", 1, mark_last},
    {"case-F", 16, mark_last},
    {"small-16", 16, mark_last},
    {"small-32", 16, mark_last},
};

const size_t pair_kind_count = sizeof pair_kinds / sizeof pair_kinds[0];

const struct pair_kind *pair_kind_named(const char *map_kind) {
  for (size_t at = 0; at < pair_kind_count; at++) {
    if (strcmp(pair_kinds[at].map_kind, map_kind) == 0) {
      return &pair_kinds[at];
    }
  }
  return NULL;
}

static struct map renamed(const struct map *map, uint64_t seed) {
  struct chance chance = {seed};
  return map_inserted(&chance, map);
}

void make_pair(const struct pair_kind *pair, size_t which, enum pair_relation relation, struct map *first, struct map *second) {
  struct map made = kind_map(map_kind_named(pair->map_kind), which);
  *first = renamed(&made, 2 * which);
  *second = renamed(first, 2 * which + 1);
  if (relation == PAIR_STRANGER) {
    pair->estrange(first);
  }
}
