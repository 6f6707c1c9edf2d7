// Cases of symmetric maps in many numberings: signatures, pairs, drawers, and records to list.
#include <inttypes.h>
#include <stdio.h>

#include "../maps/symmetric.h"
#include "generate.h"
#include "generate_drawers.h"
#include "second_inside.h"

// Larger tables are long to sign where all starts tie.
enum { MANY_ENTRIES = 400 };

static bool is_large(const struct map *map) {
  return map->length > MANY_ENTRIES;
}

static void print_comment(const struct shape *shape, const char *what) {
  printf("# %s, doubled %" PRIu64 " times, n=%" PRIu64 ", m=%" PRIu64 ", %" PRIu64 " symmetries: %s\n", shape->name,
         shape->doubled, shape->map.n, shape->map.m, shape->symmetries, what);
}

// Darts of one word stand in an order of chance.
static struct map numbered(struct chance *chance, const struct map *map, bool only_shuffled) {
  struct map shuffled = map_shuffled(chance, map);
  static const enum numbering all[] = {GREATEST_FIRST, LEAST_FIRST, BY_TURNS, BY_CHANCE};
  enum numbering numbering = all[chance_below(chance, sizeof all / sizeof all[0])];
  bool by_chance = only_shuffled || numbering == BY_CHANCE;
  return by_chance ? shuffled : map_numbered(&shuffled, numbering);
}

// ---- Signatures ----

static uint64_t times_of(const struct map *map, uint64_t times) {
  return is_large(map) ? 1 + times / 8 : times;
}

static void print_sign_of(struct chance *chance, const struct map *map) {
  print_sign(chance, map, chance_one_in(chance, 4) ? OUTPUT_LONGER : OUTPUT_EXACT);
}

static void print_numberings(struct chance *chance, const struct shape *shape, uint64_t times) {
  print_comment(shape, "as it was made, then renumbered");
  if (!is_large(&shape->map)) {
    print_sign_of(chance, &shape->map);
  }
  for (uint64_t k = 0; k < times_of(&shape->map, times); k++) {
    bool one_word = shape->symmetries == shape->map.m;
    struct map renumbered = numbered(chance, &shape->map, one_word);
    print_sign_of(chance, &renumbered);
  }
}

// A double of a marked map has marks on both sides.
static void double_now_and_then(struct chance *chance, struct map *map) {
  uint64_t n = map->n + 1;
  if (n > 4 || 2 * map->m * n > MOST_ENTRIES || chance_one_in(chance, 2)) {
    return;
  }
  struct map twice = mirrored_twice(map, n, n);
  if (map_refusal(&twice) == 0) {
    *map = twice;
  }
}

static void print_marked(struct chance *chance, const struct shape *shape, uint64_t times) {
  print_comment(shape, "marked, and perhaps doubled then");
  for (uint64_t k = 0; k < times_of(&shape->map, times); k++) {
    struct map marked;
    uint64_t kept;
    if (map_marked(chance, &shape->map, &marked, &kept)) {
      double_now_and_then(chance, &marked);
      struct map renumbered = numbered(chance, &marked, is_large(&marked));
      print_sign_of(chance, &renumbered);
    }
  }
}

void print_symmetric(struct chance *chance, uint64_t numberings) {
  const struct shapes *all = all_shapes();
  for (size_t at = 0; at < all->count; at++) {
    print_numberings(chance, &all->shapes[at], numberings);
    print_marked(chance, &all->shapes[at], numberings);
  }
}

// ---- Pairs ----

static void print_match_of(struct chance *chance, const struct map *one, const struct map *other) {
  struct map first = map_shuffled(chance, one);
  struct map second = map_shuffled(chance, other);
  print_match(chance, &first, &second, OUTPUT_EXACT);
}

static void print_marked_matches(struct chance *chance, const struct map *map) {
  struct map marked;
  struct map marked_otherwise;
  uint64_t kept;
  if (map_marked(chance, map, &marked, &kept) && map_marked(chance, map, &marked_otherwise, &kept)) {
    print_match_of(chance, map, &marked);
    print_match_of(chance, &marked, &marked_otherwise);
    print_match_of(chance, &marked, &marked);
  }
}

// The shapes before this one stand for all of its size: each two meet once.
static void print_matches_of_one_size(struct chance *chance, const struct shapes *all, size_t at) {
  const struct map *map = &all->shapes[at].map;
  for (size_t before = 0; before < at; before++) {
    const struct map *other = &all->shapes[before].map;
    if (other->n == map->n && other->m == map->m) {
      print_match_of(chance, map, other);
    }
  }
}

void print_symmetric_pairs(struct chance *chance) {
  const struct shapes *all = all_shapes();
  for (size_t at = 0; at < all->count; at++) {
    const struct shape *shape = &all->shapes[at];
    const struct map *map = &shape->map;
    struct map mirrored;
    print_comment(shape, "against its mirror image; small ones against others, too");
    // A double is its own mirror image.
    if ((shape->doubled == 0 || !is_large(map)) && map_mirrored(map, &mirrored)) {
      print_match_of(chance, map, &mirrored);
    }
    if (!is_large(map)) {
      struct map renumbered = map_shuffled(chance, map);
      print_pairs_of(chance, &renumbered);
      print_marked_matches(chance, map);
      print_matches_of_one_size(chance, all, at);
    }
  }
}

// ---- Drawers ----

enum { RECORDS_OF_DRAWER = 6, MARKED_DRAWERS = 24 };

static struct drawer empty_drawer(struct chance *chance) {
  return good_drawer(chance, 0, (RECORDS_OF_DRAWER + 1) * RECORD_BYTES + 3, true);
}

// Some layouts were made in two ways, and the second one is refused with 17.
static void file_if_new(struct chance *chance, struct drawer *drawer, const struct map *map) {
  struct map renumbered = map_shuffled(chance, map);
  drawer_add(drawer, unfiled_die(chance, drawer), &renumbered);
}

// A word of the same map that is not the least: mostly the next one, so that few starts are better than dart 1. False where all
// words are equal.
static bool find_greater_word(struct chance *chance, const struct map *least, struct map *greater) {
  bool any = chance_one_in(chance, 4);
  bool found = false;
  uint64_t skipped = chance_below(chance, least->m);
  struct map word = *least;
  for (uint64_t k = 0; k < least->m && !(any && found); k++) {
    second_word(map_lent(least), 1 + (skipped + k) % least->m, word.table);
    if (second_compare_words(word.table, least->table, least->length) > 0 &&
        (!found || second_compare_words(word.table, greater->table, least->length) < 0)) {
      *greater = word;
      found = true;
    }
  }
  return found;
}

// The layout wanted is another record's, so that a search that stops at its hit is found out.
static void print_greater_words(struct chance *chance, struct drawer *drawer) {
  for (uint64_t record = 1; record <= drawer->count; record++) {
    uint8_t *bytes = drawer_record(drawer, record);
    struct map least = record_map(bytes);
    struct map greater;
    struct map wanted = filed_map(chance, drawer, 1 + record % drawer->count);
    if (!is_large(&least) && find_greater_word(chance, &least, &greater)) {
      put_record(bytes, record_die(bytes), map_lent(&greater));
      printf("# record %" PRIu64 " has a word that is not the least\n", record);
      print_call(FIND, 0, &wanted, drawer);
      put_record(bytes, record_die(bytes), map_lent(&least));
    }
  }
}

static void print_drawer_of_shapes(struct chance *chance, const struct shapes *all, size_t first) {
  struct drawer drawer = empty_drawer(chance);
  for (size_t at = first; at < first + RECORDS_OF_DRAWER && at < all->count; at++) {
    file_if_new(chance, &drawer, &all->shapes[at].map);
  }
  struct map filed = filed_map(chance, &drawer, 1 + chance_below(chance, drawer.count));
  struct map other = map_shuffled(chance, &all->shapes[chance_below(chance, all->count)].map);
  uint32_t die = unfiled_die(chance, &drawer);
  printf("# %" PRIu64 " symmetric layouts: one of them, then perhaps another\n", drawer.count);
  print_call(FIND, die, &filed, &drawer);
  print_call(ADD, die, &filed, &drawer);
  print_call(ADD, die, &other, &drawer);
  print_greater_words(chance, &drawer);
  drawer_free(&drawer);
}

static void print_drawer_of_marked(struct chance *chance, const struct shapes *all) {
  struct drawer drawer = empty_drawer(chance);
  while (drawer.count < RECORDS_OF_DRAWER) {
    const struct map *map = &all->shapes[chance_below(chance, all->count)].map;
    struct map marked;
    uint64_t kept;
    if (!is_large(map) && map_marked(chance, map, &marked, &kept)) {
      file_if_new(chance, &drawer, &marked);
    }
  }
  struct map filed = filed_map(chance, &drawer, drawer.count);
  printf("# layouts with marks\n");
  print_calls(DRAWER_CALLS, unfiled_die(chance, &drawer), &filed, &drawer);
  print_greater_words(chance, &drawer);
  drawer_free(&drawer);
}

void print_symmetric_drawers(struct chance *chance) {
  const struct shapes *all = all_shapes();
  for (size_t first = 0; first < all->count; first += RECORDS_OF_DRAWER) {
    print_drawer_of_shapes(chance, all, first);
  }
  for (int drawers = 0; drawers < MARKED_DRAWERS; drawers++) {
    print_drawer_of_marked(chance, all);
  }
}

// ---- Records ----

void write_symmetric_records(struct chance *chance) {
  const struct shapes *all = all_shapes();
  for (size_t at = 0; at < all->count; at++) {
    uint8_t record[RECORD_BYTES];
    struct map renumbered = map_shuffled(chance, &all->shapes[at].map);
    put_record(record, (uint32_t)(at + 1), map_lent(&renumbered));
    fwrite(record, 1, RECORD_BYTES, stdout);
  }
}
