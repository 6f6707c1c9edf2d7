// Cases of two maps of chosen sizes: the largest ones, and all of the smallest against each other.
#include <inttypes.h>
#include <stdio.h>
#include <stdlib.h>
#include <string.h>

#include "generate.h"

// ---- The largest sizes ----

static const struct size largest_sizes[] = {{1, 1020}, {2, 510}, {3, 340}, {4, 255}};

// Which side is the changed one is left to chance. The list is right but for the changed sewing.
static void print_near_twins(struct chance *chance, const struct map *map, uint16_t *to) {
  struct map changed;
  // Some maps are closed and would fall apart.
  if (!map_less_one_sewing(chance, map, &changed) && !map_with_loose_end_turned(chance, map, &changed)) {
    return;
  }
  bool first_changed = chance_one_in(chance, 2);
  const struct map *first = first_changed ? &changed : map;
  struct map second = map_renamed(first_changed ? map : &changed, to);
  print_match(chance, first, &second, OUTPUT_EXACT);
  print_judge(first, &second, to, (size_t)map->m);
}

// A right list, one in which the last dart goes where dart 1 does, and one with its ends swapped.
static void print_lists(const struct map *map, const struct map *twin, uint16_t *to) {
  size_t m = (size_t)map->m;
  uint16_t first_image = to[0];
  uint16_t last_image = to[m - 1];
  print_judge(map, twin, to, m);
  to[m - 1] = first_image;
  print_judge(map, twin, to, m);
  to[0] = last_image;
  print_judge(map, twin, to, m);
}

void print_pairs_of(struct chance *chance, const struct map *map) {
  uint16_t to[TABLE_ROOM];
  shuffled_names(chance, map->m, to);
  struct map twin = map_renamed(map, to);
  struct map stranger = accepted_map(chance, map->n, map->m);
  print_match(chance, map, &twin, OUTPUT_LONGER);
  print_match(chance, map, &stranger, OUTPUT_EXACT);
  print_near_twins(chance, map, to);
  print_lists(map, &twin, to);
}

// A family that is to come oftener stands several times in a row.
static bool stands_again(size_t family) {
  return family > 0 && strcmp(family_name(family), family_name(family - 1)) == 0;
}

void print_large_pairs(struct chance *chance) {
  for (size_t at = 0; at < sizeof largest_sizes / sizeof largest_sizes[0]; at++) {
    struct size size = largest_sizes[at];
    for (size_t family = 0; family < family_count(); family++) {
      struct map map;
      if (stands_again(family) || !family_map(chance, family, size.n, size.m, &map)) {
        continue;
      }
      printf("# n=%" PRIu64 ", m=%" PRIu64 ": %s, against a copy, another map and a near twin\n", size.n, size.m,
             family_name(family));
      // Dart 1 is anywhere then, and not always at an end.
      map = map_shuffled(chance, &map);
      print_pairs_of(chance, &map);
    }
  }
}

// ---- The smallest sizes ----

static const struct size smallest_sizes[] = {{1, 1}, {1, 2}, {1, 3}, {2, 1}, {2, 2}, {3, 1}};

enum { MOST_SMALL_MAPS = 100 };

struct small_maps {
  size_t count;
  struct map maps[MOST_SMALL_MAPS];
};

static void add_accepted_maps(struct small_maps *small, struct size size) {
  struct map map = map_empty(size.n, size.m);
  do {
    if (map_refusal(&map) == 0) {
      if (small->count == MOST_SMALL_MAPS) {
        fprintf(stderr, "generate: more small maps than there is room for\n");
        exit(3);
      }
      small->maps[small->count++] = map;
    }
  } while (next_table(&map, (uint16_t)size.m));
}

// Every list of m numbers from 0 to m, counted through as the table of a map with one sewing.
static void print_every_list(const struct map *first, const struct map *second) {
  struct map list = map_empty(1, first->m);
  do {
    print_judge(first, second, list.table, list.length);
  } while (next_table(&list, (uint16_t)first->m));
}

void print_tiny_pairs(struct chance *chance) {
  static struct small_maps small;
  for (size_t at = 0; at < sizeof smallest_sizes / sizeof smallest_sizes[0]; at++) {
    add_accepted_maps(&small, smallest_sizes[at]);
  }
  printf("# every two of %zu small maps, and for each two of one size every list\n", small.count);
  for (size_t one = 0; one < small.count; one++) {
    for (size_t other = 0; other < small.count; other++) {
      const struct map *first = &small.maps[one];
      const struct map *second = &small.maps[other];
      print_match(chance, first, second, OUTPUT_LONGER);
      if (first->n == second->n && first->m == second->m) {
        print_every_list(first, second);
      }
    }
  }
}
