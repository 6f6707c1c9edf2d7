// The families of accepted maps: rings, grids, grown maps, polygons, doubles, products and others.
#include "families.h"

#include <stdlib.h>

#include "numberings.h"
#include "shapes.h"

// A map that is called accepted and is not would make every comment of the output a lie.
static void require_accepted(const struct map *map, const char *family) {
  unsigned number = map_refusal(map);
  if (number == 0) {
    return;
  }
  fprintf(stderr, "generate: %s with n %llu, m %llu is refused with %u\n", family, (unsigned long long)map->n,
          (unsigned long long)map->m, number);
  exit(3);
}

// ---- Without choices, or with few ----

// Every dart is 2-sewn to itself, so an odd dart count can be closed as well.
static bool make_self_sewn_ring(struct chance *chance, struct map *map) {
  (void)chance;
  if (map->n < 2) {
    return false;
  }
  *map = marked_ring_map(map->n, map->m, 1, 1);
  return true;
}

static uint64_t any_divisor(struct chance *chance, uint64_t number) {
  uint64_t divisor = 1 + chance_below(chance, number);
  while (number % divisor != 0) {
    divisor--;
  }
  return divisor;
}

static bool make_grid(struct chance *chance, struct map *map, bool closed) {
  if (map->n < 2 || map->m % 4 != 0) {
    return false;
  }
  uint64_t squares = map->m / 4;
  uint64_t across = any_divisor(chance, squares);
  *map = squares_map(map->n, (struct grid){across, squares / across, 0, closed});
  return true;
}

static bool make_torus_grid(struct chance *chance, struct map *map) {
  return make_grid(chance, map, true);
}

static bool make_open_grid(struct chance *chance, struct map *map) {
  return make_grid(chance, map, false);
}

// ---- Grown maps ----

// Sews the new dart to some earlier one. This always comes to an end: while maps only grow, no chain of beta 1 closes, and a
// new dart may always be put before the first dart of a chain.
static void attach(struct chance *chance, struct map *map, uint64_t newcomer) {
  for (;;) {
    uint64_t i = 1 + chance_below(chance, map->n);
    uint64_t d = 1 + chance_below(chance, newcomer - 1);
    bool in_front = chance_one_in(chance, 2);
    if (in_front ? try_sew(map, i, newcomer, d) : try_sew(map, i, d, newcomer)) {
      return;
    }
  }
}

static bool make_grown(struct chance *chance, struct map *map) {
  for (uint64_t d = 2; d <= map->m; d++) {
    attach(chance, map, d);
  }
  uint64_t extra_tries = chance_below(chance, 3 * map->m + 1);
  for (uint64_t tried = 0; tried < extra_tries; tried++) {
    uint64_t i = 1 + chance_below(chance, map->n);
    uint64_t d = 1 + chance_below(chance, map->m);
    try_sew(map, i, d, 1 + chance_below(chance, map->m));
  }
  return true;
}

// ---- Polygons ----

// A run of beta 1: the darts in order, from its first one where it has an end.
struct face {
  size_t size;
  bool closed;
  uint16_t darts[MOST_ENTRIES];
};

static void find_face(const struct map *map, uint64_t d, struct face *face) {
  uint64_t first = d;
  for (uint64_t e = dart_before(map, d); e != 0 && e != d; e = dart_before(map, e)) {
    first = e;
  }
  face->size = 0;
  uint64_t last = first;
  for (uint64_t e = first; e != 0 && (face->size == 0 || e != first); e = beta(map, 1, e)) {
    face->darts[face->size++] = (uint16_t)e;
    last = e;
  }
  face->closed = beta(map, 1, last) == first;
}

static bool glue(struct map *map, uint64_t j, const struct face *one, const struct face *other, size_t turn) {
  struct map glued = *map;
  for (size_t k = 0; k < one->size; k++) {
    uint64_t d = one->darts[k];
    uint64_t e = other->darts[(turn + one->size - k) % one->size];
    // A face glued upon itself meets every pair twice.
    bool done = beta(&glued, j, d) == e;
    if (!done && !both_loose(&glued, j, d, e)) {
      return false;
    }
    sew(&glued, j, d, e);
  }
  if (!compositions_hold(&glued)) {
    return false;
  }
  *map = glued;
  return true;
}

// Sews some pairs of equal faces by beta j, each run against the other, where the rules allow it.
static void glue_faces(struct chance *chance, struct map *map, uint64_t j) {
  uint64_t tries = chance_below(chance, map->m + 1);
  for (uint64_t tried = 0; tried < tries; tried++) {
    struct face one;
    struct face other;
    find_face(map, 1 + chance_below(chance, map->m), &one);
    find_face(map, 1 + chance_below(chance, map->m), &other);
    if (one.size == other.size && one.closed == other.closed) {
      size_t turn = one.closed ? (size_t)chance_below(chance, one.size) : one.size - 1;
      glue(map, j, &one, &other, turn);
    }
  }
}

// Darts of the polygons laid so far that are not 2-sewn yet.
struct loose_darts {
  size_t count;
  uint16_t darts[MOST_ENTRIES];
};

static uint16_t take_loose(struct chance *chance, struct loose_darts *loose) {
  size_t at = (size_t)chance_below(chance, loose->count);
  uint16_t dart = loose->darts[at];
  loose->darts[at] = loose->darts[--loose->count];
  return dart;
}

// A single dart may not use up the last loose one while more polygons are to come.
static uint64_t polygon_size(struct chance *chance, uint64_t left, size_t loose_count) {
  uint64_t size = 1 + chance_below(chance, 8);
  if (loose_count == 1 && size == 1) {
    size = 2;
  }
  return size < left ? size : left;
}

static void lay_polygon(struct map *map, struct loose_darts *loose, uint64_t first, uint64_t size, bool closed) {
  for (uint64_t d = first; d < first + size; d++) {
    if (d + 1 < first + size) {
      sew(map, 1, d, d + 1);
    } else if (closed) {
      sew(map, 1, d, first);
    }
    loose->darts[loose->count++] = (uint16_t)d;
  }
}

// Takes one dart of the new polygon, which are the last ones of the list, and one of the others.
static void join_polygon(struct chance *chance, struct map *map, struct loose_darts *loose, size_t before) {
  size_t at = before + (size_t)chance_below(chance, loose->count - before);
  uint16_t own = loose->darts[at];
  size_t other_at = (size_t)chance_below(chance, before);
  sew(map, 2, own, loose->darts[other_at]);
  loose->darts[at] = loose->darts[--loose->count];
  loose->darts[other_at] = loose->darts[--loose->count];
}

// Style 0 leaves nothing open but perhaps one dart, style 1 sews about half, 2 some to themselves.
static void close_up(struct chance *chance, struct map *map, struct loose_darts *loose) {
  uint64_t style = chance_below(chance, 3);
  while (loose->count > 0) {
    uint16_t d = take_loose(chance, loose);
    if (style == 2 && chance_one_in(chance, 3)) {
      sew(map, 2, d, d);
    } else if (loose->count > 0 && (style == 0 || chance_one_in(chance, 2))) {
      sew(map, 2, d, take_loose(chance, loose));
    }
  }
}

static bool make_polygons(struct chance *chance, struct map *map) {
  if (map->n < 2) {
    return false;
  }
  struct loose_darts loose = {.count = 0};
  bool some_open = chance_one_in(chance, 3);
  for (uint64_t laid = 0; laid < map->m;) {
    size_t before = loose.count;
    uint64_t size = polygon_size(chance, map->m - laid, before);
    lay_polygon(map, &loose, laid + 1, size, !(some_open && chance_one_in(chance, 3)));
    if (laid > 0) {
      join_polygon(chance, map, &loose, before);
    }
    laid += size;
  }
  close_up(chance, map, &loose);
  for (uint64_t j = 3; j <= map->n; j++) {
    glue_faces(chance, map, j);
  }
  return true;
}

// ---- Doubles and products ----

// Open bases may break a composition in the mirror, so the result is tried.
static bool make_double(struct chance *chance, struct map *map) {
  if (map->n < 2 || map->m % 2 != 0) {
    return false;
  }
  uint64_t j = 2 + chance_below(chance, map->n - 1);
  struct map low = accepted_map(chance, j - 1, map->m / 2);
  *map = mirrored_twice(&low, map->n, j);
  return compositions_hold(map);
}

// Darts are pairs: a place on a ring or line of `across` places, and a number below `along`. By beta 1 the place moves,
// backwards for odd numbers. The other sewings change the number by a mask, and beta 2 may turn the line about.
struct product {
  uint64_t across;
  uint64_t along;
  bool round;
  bool turned;
  uint64_t masks[5];
};

static uint64_t product_dart(const struct product *shape, uint64_t x, uint64_t t) {
  return x * shape->along + t + 1;
}

static void lay_product_dart(struct map *map, const struct product *shape, uint64_t x, uint64_t t) {
  uint64_t d = product_dart(shape, x, t);
  bool backwards = t % 2 == 1;
  bool at_end = x == (backwards ? 0 : shape->across - 1);
  if (!at_end || shape->round) {
    uint64_t next = (backwards ? x + shape->across - 1 : x + 1) % shape->across;
    set_beta(map, 1, d, product_dart(shape, next, t));
  }
  for (uint64_t j = 2; j <= map->n; j++) {
    uint64_t place = j == 2 && shape->turned ? shape->across - 1 - x : x;
    set_beta(map, j, d, product_dart(shape, place, t ^ shape->masks[j]));
  }
}

static struct product any_product(struct chance *chance, uint64_t m) {
  struct product shape = {.along = (uint64_t)1 << chance_below(chance, 5)};
  while (m % shape.along != 0) {
    shape.along /= 2;
  }
  shape.across = m / shape.along;
  shape.round = !chance_one_in(chance, 3);
  shape.turned = chance_one_in(chance, 2);
  shape.masks[2] = chance_below(chance, shape.along);
  for (size_t j = 3; j <= 4; j++) {
    // Only odd masks turn the walking direction, which the composition with beta 1 needs.
    shape.masks[j] = chance_below(chance, shape.along) | 1;
  }
  return shape;
}

// The masks drawn may leave several pieces, so this is tried some times.
static bool make_product(struct chance *chance, struct map *map) {
  if (map->n >= 3 && map->m % 2 != 0) {
    return false;
  }
  for (int tries = 0; tries < 8; tries++) {
    struct product shape = any_product(chance, map->m);
    if (map->n <= 2 || shape.along >= 2) {
      *map = map_empty(map->n, map->m);
      for (uint64_t at = 0; at < map->m; at++) {
        lay_product_dart(map, &shape, at / shape.along, at % shape.along);
      }
      if (map_refusal(map) == 0) {
        return true;
      }
    }
  }
  return false;
}

// ---- Others ----

// Copies of a grown map in a ring, each sewn to the next one at the same two darts.
static bool make_repeated(struct chance *chance, struct map *map) {
  uint64_t part = any_divisor(chance, map->m);
  uint64_t copies = map->m / part;
  struct map base = map_empty(map->n, part);
  make_grown(chance, &base);
  for (uint64_t d = 1; d <= map->m; d++) {
    uint64_t shift = (d - 1) / part * part;
    for (uint64_t i = 1; i <= map->n; i++) {
      uint64_t e = beta(&base, i, d - shift);
      set_beta(map, i, d, e == 0 ? 0 : e + shift);
    }
  }
  uint64_t i = 1 + chance_below(chance, map->n);
  uint64_t from = 1 + chance_below(chance, part);
  uint64_t to = 1 + chance_below(chance, part);
  for (uint64_t copy = 0; copy < copies; copy++) {
    if (!try_sew(map, i, from + copy * part, to + (copy + 1) % copies * part)) {
      return false;
    }
  }
  return true;
}

// Tables drawn blindly, so that small maps of no family turn up too.
static bool make_tiny(struct chance *chance, struct map *map) {
  if (map->m > 3) {
    return false;
  }
  for (int tries = 0; tries < 4000; tries++) {
    for (size_t at = 0; at < map->length; at++) {
      bool unsewn = chance_one_in(chance, 2);
      map->table[at] = unsewn ? 0 : (uint16_t)chance_below(chance, map->m + 1);
    }
    if (map_refusal(map) == 0) {
      return true;
    }
  }
  return false;
}

// ---- All families ----

// Plain ones have a map of every n and m, and leave nothing to chance.
struct family {
  const char *name;
  struct map (*plain)(uint64_t n, uint64_t m);
  bool (*make)(struct chance *chance, struct map *map);
};

// Grown maps and polygons have the most variety: they stand here three times, to come oftener.
static const struct family families[] = {
    {"ring", ring_map, NULL},
    {"chain", chain_map, NULL},
    {"ring sewn to itself", NULL, make_self_sewn_ring},
    {"torus grid", NULL, make_torus_grid},
    {"open grid", NULL, make_open_grid},
    {"mirrored twice", NULL, make_double},
    {"product", NULL, make_product},
    {"copies in a ring", NULL, make_repeated},
    {"copies in a ring", NULL, make_repeated},
    {"tiny", NULL, make_tiny},
    {"grown", NULL, make_grown},
    {"grown", NULL, make_grown},
    {"grown", NULL, make_grown},
    {"polygons", NULL, make_polygons},
    {"polygons", NULL, make_polygons},
    {"polygons", NULL, make_polygons},
};

size_t family_count(void) {
  return sizeof families / sizeof families[0];
}

const char *family_name(size_t family) {
  return families[family].name;
}

// Works beyond the bounds of n and m too, as long as the table has room; then nothing is required.
bool family_map(struct chance *chance, size_t family, uint64_t n, uint64_t m, struct map *map) {
  bool (*make)(struct chance *, struct map *) = families[family].make;
  *map = make == NULL ? families[family].plain(n, m) : map_empty(n, m);
  if (make != NULL && !make(chance, map)) {
    return false;
  }
  if (n * m <= MOST_ENTRIES) {
    require_accepted(map, families[family].name);
  }
  return true;
}

// Small maps are the most telling ones, large ones are long to read: few are large.
uint64_t any_size(struct chance *chance, uint64_t n, uint64_t most_entries) {
  static const uint64_t usual_most[10] = {3, 6, 6, 12, 12, 24, 24, 60, 60, MOST_ENTRIES};
  uint64_t most = most_entries / n;
  uint64_t usual = usual_most[chance_below(chance, 10)];
  uint64_t size = 1 + chance_below(chance, usual < most ? usual : most);
  if (chance_one_in(chance, 3)) {
    // Grids and products need a dart count with divisors.
    size = (size + 3) / 4 * 4;
  }
  return size < most ? size : most;
}

// Rings are made for every n and m, so a family is found in the end.
struct map accepted_map(struct chance *chance, uint64_t n, uint64_t m) {
  struct map map;
  while (!family_map(chance, (size_t)chance_below(chance, family_count()), n, m, &map)) {
  }
  return chance_one_in(chance, 4) ? map : map_shuffled(chance, &map);
}

struct map any_accepted_map(struct chance *chance, uint64_t most_entries) {
  uint64_t n = 1 + chance_below(chance, 4);
  return accepted_map(chance, n, any_size(chance, n, most_entries));
}
