// Prints test cases, or records for the lister: generate SEED KIND [COUNT]. The arguments alone decide every byte.
#include "generate.h"

#include <inttypes.h>
#include <stdio.h>
#include <stdlib.h>
#include <string.h>

// What is printed of each map, its check or its signature or both; which it is, the kind decides. Outputs have a chance of
// their own, so that the maps of one seed are the same ones for both calls.
enum { CHECKS = 1, SIGNS = 2 };
static unsigned printed;
static struct chance outputs;

static void print_calls_on(const struct map *map, enum output_length length) {
  if ((printed & CHECKS) != 0) {
    print_check(map);
  }
  if ((printed & SIGNS) != 0) {
    print_sign(&outputs, map, length);
  }
}

static void print_any(const struct map *map) {
  print_calls_on(map, any_output_length(&outputs));
}

// ---- A mixture ----

// Weights of the groups: accepted maps by dimension, each refusal, two faults at once.
enum { MIXTURE_TOTAL = 40, TWO_FAULTS_WEIGHT = 3 };
static const uint64_t accepted_weights[4] = {2, 4, 4, 4};
static const uint64_t refused_weights[TABLE_REFUSALS] = {2, 3, 3, 3, 3, 3, 3, 3};

static void print_accepted(struct chance *chance, uint64_t n, uint64_t cases, uint64_t most_entries) {
  printf("# accepted, n=%" PRIu64 ": a map, then the same map renumbered\n", n);
  struct map map = map_empty(1, 1);
  for (uint64_t k = 0; k < cases; k++) {
    map = k % 2 == 0 ? accepted_map(chance, n, any_size(chance, n, most_entries)) : map_shuffled(chance, &map);
    print_any(&map);
  }
}

static void print_mixture_of(struct chance *chance, uint64_t count, uint64_t most_entries) {
  struct shares shares = {.count = count, .total = MIXTURE_TOTAL};
  for (uint64_t n = 1; n <= 4; n++) {
    print_accepted(chance, n, next_share(&shares, accepted_weights[n - 1]), most_entries);
  }
  for (size_t group = 0; group < TABLE_REFUSALS; group++) {
    printf("# fault %u\n", table_refusals[group]);
    for (uint64_t cases = next_share(&shares, refused_weights[group]); cases > 0; cases--) {
      struct map map = refused_map(chance, table_refusals[group], most_entries);
      print_any(&map);
    }
  }
  printf("# two faults from 5 to 9\n");
  for (uint64_t cases = next_share(&shares, TWO_FAULTS_WEIGHT); cases > 0; cases--) {
    struct map map = twice_refused_map(chance, most_entries);
    print_any(&map);
  }
}

static void print_mixture(struct chance *chance, uint64_t count) {
  print_mixture_of(chance, count, MOST_ENTRIES);
}

// ---- Chosen sizes ----

// The largest sizes, the first ones beyond them, and the largest that have grids and products.
static const struct size large_sizes[] = {
    {1, 1020}, {1, 1021}, {2, 255}, {2, 256}, {2, 504}, {2, 508}, {2, 510}, {2, 511},
    {3, 336},  {3, 340},  {3, 341}, {4, 240}, {4, 252}, {4, 255}, {4, 256},
};

static void print_large(struct chance *chance) {
  for (size_t at = 0; at < sizeof large_sizes / sizeof large_sizes[0]; at++) {
    struct size size = large_sizes[at];
    for (size_t family = 0; family < family_count(); family++) {
      struct map map;
      if (!family_map(chance, family, size.n, size.m, &map)) {
        continue;
      }
      printf("# n=%" PRIu64 ", m=%" PRIu64 ": %s, then renumbered\n", size.n, size.m, family_name(family));
      print_calls_on(&map, OUTPUT_EXACT);
      map = map_shuffled(chance, &map);
      print_calls_on(&map, chance_one_in(chance, 8) ? OUTPUT_SHORT : OUTPUT_LONGER);
    }
  }
}

// Sizes small enough for every table of them, and the largest entry that the tables have.
struct tiny_size {
  struct size size;
  uint16_t most;
};

static const struct tiny_size tiny_sizes[] = {
    {{1, 1}, 3}, {{1, 2}, 4}, {{1, 3}, 4}, {{1, 4}, 4}, {{2, 1}, 2}, {{2, 2}, 3},
    {{2, 3}, 3}, {{3, 1}, 2}, {{3, 2}, 2}, {{4, 1}, 2}, {{4, 2}, 2},
};

static void print_tiny(struct chance *chance) {
  (void)chance;
  for (size_t at = 0; at < sizeof tiny_sizes / sizeof tiny_sizes[0]; at++) {
    struct size size = tiny_sizes[at].size;
    uint16_t most = tiny_sizes[at].most;
    printf("# every table with n=%" PRIu64 ", m=%" PRIu64 " and entries up to %u\n", size.n, size.m, (unsigned)most);
    struct map map = map_empty(size.n, size.m);
    do {
      print_calls_on(&map, OUTPUT_EXACT);
    } while (next_table(&map, most));
  }
}

// ---- The bench ----

// A case of the list that the maps of the bench begin with.
struct named_map {
  const char *name;
  uint64_t n;
  uint64_t m;
  uint16_t table[36];
};

enum { CASE_C = 2, CASE_D = 3, CASE_E = 4, CASE_F = 5, CASE_G = 6, FIGURE_1 = 13 };

static const struct named_map named_maps[] = {
    {"A: accepted", 1, 1, {0}},
    {"B: accepted", 1, 1, {1}},
    {"C: accepted", 1, 2, {2, 0}},
    {"D: accepted", 2, 1, {0, 1}},
    {"E: accepted", 2, 3, {2, 0, 3, 0, 1, 0}},
    {"F: accepted", 2, 7, {2, 0, 3, 0, 4, 5, 1, 0, 6, 3, 7, 0, 5, 0}},
    {"G: accepted", 2, 7, {3, 0, 1, 0, 2, 4, 6, 3, 4, 0, 7, 0, 5, 0}},
    {"H: 5 at 1", 2, 2, {3, 0, 1, 0}},
    {"I: 6 at 2", 1, 2, {1, 1}},
    {"J: 7 at 2", 2, 2, {0, 2, 0, 0}},
    {"K: 9 at 2", 1, 2, {1, 2}},
    {"L: 8 at 3", 3, 3, {0, 0, 2, 3, 0, 1, 0, 0, 0}},
    {"M: accepted", 3, 3, {0, 0, 2, 0, 0, 1, 2, 0, 0}},
    {"figure 1 of the paper: accepted", 2, 18, {2,  15, 3, 14, 4,  18, 5,  17, 6,  10, 7,  9, 1,  8,  9,  7, 10, 6,
                                                11, 5,  8, 12, 13, 11, 14, 16, 15, 2,  12, 1, 17, 13, 18, 4, 16, 3}},
    {"n of 0: 1 at 0", 0, 2, {0}},
    {"n of 5: 1 at 0", 5, 2, {2, 0, 0, 0, 0, 0, 0, 0, 0, 0}},
};

static struct map named_map(size_t which) {
  const struct named_map *named = &named_maps[which];
  struct map map = map_empty(named->n, named->m);
  memcpy(map.table, named->table, map.length * sizeof map.table[0]);
  return map;
}

// Sizes of the bench list, each with a map whose names are mixed.
static const struct size bench_sizes[] = {
    {2, 255}, {2, 256}, {2, 510}, {2, 511}, {4, 255}, {4, 256}, {1, 1020}, {3, 340},
};

enum { BENCH_MIXTURE = 320, BENCH_MATCHES = 200, BENCH_ENTRIES = 600 };

static struct map any_map_of(struct chance *chance, struct size size) {
  struct map map;
  while (!family_map(chance, chance_below(chance, family_count()), size.n, size.m, &map)) {
  }
  return map_shuffled(chance, &map);
}

static void print_bench(struct chance *chance) {
  for (size_t which = 0; which < sizeof named_maps / sizeof named_maps[0]; which++) {
    printf("# %s\n", named_maps[which].name);
    struct map map = named_map(which);
    print_calls_on(&map, which == CASE_F ? OUTPUT_LONGER : OUTPUT_EXACT);
  }
  for (size_t at = 0; at < sizeof bench_sizes / sizeof bench_sizes[0]; at++) {
    struct size size = bench_sizes[at];
    printf("# n=%" PRIu64 ", m=%" PRIu64 ": %s\n", size.n, size.m, size.n * size.m <= MOST_ENTRIES ? "accepted" : "2 at 0");
    struct map map = any_map_of(chance, size);
    print_calls_on(&map, OUTPUT_EXACT);
  }
  print_mixture_of(chance, BENCH_MIXTURE, BENCH_ENTRIES);
}

static void print_named_match(struct chance *chance, const char *comment, struct map first, struct map second) {
  printf("# %s\n", comment);
  print_match(chance, &first, &second, OUTPUT_EXACT);
}

static void print_bench_matches(struct chance *chance) {
  struct map e = named_map(CASE_E);
  struct map figure = named_map(FIGURE_1);
  struct map e_other_way = map_empty(2, 3);
  const uint16_t other_way[6] = {3, 0, 1, 0, 2, 0};
  memcpy(e_other_way.table, other_way, sizeof other_way);
  print_named_match(chance, "C against D: 10", named_map(CASE_C), named_map(CASE_D));
  print_named_match(chance, "D against C: 10", named_map(CASE_D), named_map(CASE_C));
  print_named_match(chance, "E against its other numbering: shows 1 3 2", e, e_other_way);
  print_named_match(chance, "E against itself", e, e);
  print_named_match(chance, "F against G", named_map(CASE_F), named_map(CASE_G));
  print_named_match(chance, "G against F", named_map(CASE_G), named_map(CASE_F));
  print_named_match(chance, "figure 1 renumbered", figure, map_shuffled(chance, &figure));
  for (size_t at = 0; at < sizeof bench_sizes / sizeof bench_sizes[0]; at++) {
    struct map map = any_map_of(chance, bench_sizes[at]);
    print_named_match(chance, "one of the large sizes, renumbered", map, map_shuffled(chance, &map));
  }
  print_match_cases(chance, BENCH_MATCHES, BENCH_ENTRIES);
}

// ---- Kinds ----

static void print_matches(struct chance *chance, uint64_t count) {
  print_match_cases(chance, count, MOST_ENTRIES);
}

// What prints a kind wants a count, or does not.
struct kind {
  const char *name;
  unsigned printed;
  void (*print_all)(struct chance *chance);
  void (*print)(struct chance *chance, uint64_t count);
};

static const struct kind kinds[] = {
    {"check", CHECKS, .print = print_mixture},
    {"sign", SIGNS, .print = print_mixture},
    {"match", .print = print_matches},
    {"judge", .print = print_judge_cases},
    {"drawer", .print = print_drawer_cases},
    {"each-drawer", .print_all = print_each_drawer},
    {"large", CHECKS | SIGNS, .print_all = print_large},
    {"large-pairs", .print_all = print_large_pairs},
    {"tiny", CHECKS | SIGNS, .print_all = print_tiny},
    {"tiny-pairs", .print_all = print_tiny_pairs},
    {"symmetric", .print = print_symmetric},
    {"symmetric-pairs", .print_all = print_symmetric_pairs},
    {"symmetric-drawers", .print_all = print_symmetric_drawers},
    {"symmetric-records", .print_all = write_symmetric_records},
    {"records", .print = write_records},
    {"bench", CHECKS, .print_all = print_bench},
    {"bench-sign", SIGNS, .print_all = print_bench},
    {"bench-match", .print_all = print_bench_matches},
};

enum { KINDS = sizeof kinds / sizeof kinds[0] };

static bool print_kind(const char *name, uint64_t seed, uint64_t count) {
  struct chance chance = {.state = seed};
  outputs.state = ~seed;
  for (const struct kind *kind = kinds; kind < kinds + KINDS; kind++) {
    if (strcmp(name, kind->name) == 0) {
      printed = kind->printed;
      if (kind->print != NULL) {
        kind->print(&chance, count);
      } else {
        kind->print_all(&chance);
      }
      return true;
    }
  }
  return false;
}

// Decimal digits only, and at most as many as always fit 64 bits.
static bool read_number(const char *text, uint64_t *number) {
  size_t digits = strspn(text, "0123456789");
  *number = strtoull(text, NULL, 10);
  return digits > 0 && digits < 20 && text[digits] == '\0';
}

int main(int argc, char **argv) {
  uint64_t seed = 0;
  uint64_t count = 200;
  bool understood = (argc == 3 || argc == 4) && read_number(argv[1], &seed);
  if (understood && argc == 4) {
    understood = read_number(argv[3], &count) && count <= 1000000;
  }
  if (!understood || !print_kind(argv[2], seed, count)) {
    fprintf(stderr, "usage: generate SEED KIND [COUNT], COUNT up to 1000000, KIND one of");
    for (size_t at = 0; at < KINDS; at++) {
      fprintf(stderr, "%s%s", at % 8 == 0 ? "\n" : " ", kinds[at].name);
    }
    fprintf(stderr, "\n");
    return 2;
  }
  return fflush(stdout) == 0 && !ferror(stdout) ? 0 : 1;
}
