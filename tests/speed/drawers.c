// Writes a drawer of COUNT records and one record more, all of different dies and layouts, to
// standard output: drawers KIND COUNT. The same bytes in every run.
#include "drawers.h"

#include <stdio.h>
#include <stdlib.h>
#include <string.h>

#include "../../include/duftheim.h"
#include "kinds.h"

struct drawer_kind {
  const char *name;
  // The map with that number.
  struct map (*draw)(uint64_t drawn);
};

// ---- The maps ----

static struct map signature_of(const struct map *map) {
  struct map word = map_empty(map->n, map->m);
  struct duftheim_signed answer = duftheim_signature(map->n, map->m, map->table, map->length, word.table, word.length);
  if (answer.number != 0) {
    fprintf(stderr, "drawers: a map gives %u\n", answer.number);
    exit(3);
  }
  return word;
}

// Spreads sizes evenly, over the first 64 records as over all. Of `count` sizes each is met once in
// as many numbers: the step has no divisor with the count, and is near its golden section.
static size_t spread(uint64_t drawn, size_t count, size_t step) {
  return (size_t)(drawn * step % count);
}

// A kind that is measured by itself too, in another size.
static struct map draw_sized(const char *name, size_t m, uint64_t drawn) {
  struct map_kind kind = *map_kind_named(name);
  kind.m = m;
  kind.seed = 1000 + drawn;
  return kind_map(&kind, 0);
}

// Random planar maps, n = 2, of 3 to 510 darts: 258 in the mean.
static struct map draw_random(uint64_t drawn) {
  return draw_sized("random-510", 3 + spread(drawn, 508, 315), drawn);
}

// By turns n = 1 to 4, each of sizes up to its greatest: chains, random planar maps, doubled ones,
// whose darts are a multiple of 4, and random maps.
static struct map draw_mixed(uint64_t drawn) {
  uint64_t turn = drawn / 4;
  switch (drawn % 4) {
  case 0:
    return draw_sized("chain-n1", 1 + spread(turn, 1020, 631), drawn);
  case 1:
    return draw_sized("random-510", 3 + spread(turn, 508, 315), drawn);
  case 2:
    return draw_sized("doubled-random-n3", 8 + 4 * spread(turn, 84, 53), drawn);
  default:
    return draw_sized("grown-n4", 3 + spread(turn, 253, 156), drawn);
  }
}

// Random planar maps, n = 2, of 7 to 32 darts, where comparing records with each other shows most.
static struct map draw_small(uint64_t drawn) {
  return draw_sized("random-32", 7 + spread(drawn, 26, 17), drawn);
}

// One random map of 510 darts in many versions, so that words part late: the number says which of
// the last darts that are 2-sewn to nothing are sewn to themselves.
static struct map draw_versions(uint64_t drawn) {
  struct map other_names = kind_map(map_kind_named("random-c"), 0);
  struct map map = signature_of(&other_names);
  for (uint64_t dart = map.m; dart >= 1 && drawn != 0; dart--) {
    if (beta(&map, 2, dart) == 0) {
      set_beta(&map, 2, dart, drawn % 2 == 0 ? 0 : dart);
      drawn /= 2;
    }
  }
  return map;
}

// Rings, of which all starts yield the same word: n = 1 and 1,020 darts down to 1, and then n = 2.
static struct map draw_rings(uint64_t drawn) {
  return drawn < 1020 ? draw_sized("ring-n1", 1020 - drawn, drawn) : draw_sized("ring", 1530 - drawn, drawn);
}

// Rings of n = 2 and of 510 darts or a few less, with one mark or two: no two starts yield the same
// word, and yet they part late.
static struct map draw_marked(uint64_t drawn) {
  struct map map = draw_sized("marked-ring", 510 - drawn / 16, drawn);
  uint64_t dart = 1 + drawn % 16;
  set_beta(&map, 2, dart, dart);
  return map;
}

static const struct drawer_kind drawer_kinds[] = {
    {"random", draw_random},     {"mixed", draw_mixed}, {"small", draw_small},
    {"versions", draw_versions}, {"rings", draw_rings}, {"marked", draw_marked},
};

static const struct drawer_kind *drawer_kind_named(const char *name) {
  for (size_t at = 0; at < sizeof drawer_kinds / sizeof drawer_kinds[0]; at++) {
    if (strcmp(drawer_kinds[at].name, name) == 0) {
      return &drawer_kinds[at];
    }
  }
  return NULL;
}

// ---- The drawer ----

static uint8_t bytes[DRAWER_FILE_BYTES];

// Dies that fill all four bytes, all different, since the factor is odd. A layout that stands
// already is drawn again, from the next number.
static void fill_drawer(const struct drawer_kind *kind, size_t records) {
  size_t filed = 0;
  for (uint64_t drawn = 0; filed < records; drawn++) {
    struct map map = kind->draw(drawn);
    struct map word = signature_of(&map);
    uint8_t *record = record_at(bytes, filed + 1);
    put_record(record, (uint32_t)(filed + 1) * 2654435761u, map_lent(&word));
    filed += !layout_stands(bytes, filed, record);
  }
}

static int complain(void) {
  fprintf(stderr, "usage: drawers KIND COUNT, COUNT 1 to 1024\n");
  return 2;
}

int main(int argc, char **argv) {
  if (argc != 3) {
    return complain();
  }
  size_t records = strtoul(argv[2], NULL, 10) + 1;
  const struct drawer_kind *kind = drawer_kind_named(argv[1]);
  if (kind == NULL || records < 2 || records > DRAWER_FILE_RECORDS) {
    return complain();
  }
  fill_drawer(kind, records);
  size_t length = records * RECORD_BYTES;
  return fwrite(bytes, 1, length, stdout) == length ? 0 : 3;
}
