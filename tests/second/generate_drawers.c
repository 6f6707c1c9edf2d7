// Builds drawers record by record, spoils single records, and gives counts that are wrong.
#include "generate_drawers.h"

#include <stdlib.h>
#include <string.h>

#include "../maps/changes.h"
#include "../maps/families.h"
#include "../maps/numberings.h"

uint8_t *drawer_record(const struct drawer *drawer, uint64_t record) {
  return record_at(drawer->bytes, record);
}

static void fail(const char *what, unsigned number) {
  fprintf(stderr, "generate: %s gives %u\n", what, number);
  exit(3);
}

// One byte more than asked for, since no bytes at all may come back as no memory.
static struct drawer blank_drawer(struct chance *chance, size_t length, bool garbage) {
  struct drawer drawer = {.count = 0, .length = length, .bytes = calloc(length + 1, 1)};
  if (drawer.bytes == NULL) {
    fputs("generate: no memory\n", stderr);
    exit(3);
  }
  for (size_t at = 0; garbage && at < length; at++) {
    drawer.bytes[at] = (uint8_t)chance_next(chance);
  }
  return drawer;
}

void drawer_free(struct drawer *drawer) {
  free(drawer->bytes);
  drawer->bytes = NULL;
}

// Dies are small, or fill all four bytes, or are the largest.
static uint32_t any_die(struct chance *chance) {
  if (chance_one_in(chance, 16)) {
    return UINT32_MAX;
  }
  uint64_t bound = chance_one_in(chance, 2) ? 600 : UINT32_MAX;
  return (uint32_t)(1 + chance_below(chance, bound));
}

// Maps whose words share their numbers, or differ only in zeros at the end, and have another n.
static struct map alike_map(struct chance *chance) {
  uint64_t n = 1 + chance_below(chance, 4);
  if (n == 1 && chance_one_in(chance, 2)) {
    struct map two_in_a_row = map_empty(1, 2);
    two_in_a_row.table[1] = 1;
    return two_in_a_row;
  }
  struct map one_dart = map_empty(n, 1);
  uint64_t sewn = chance_below(chance, 3);
  if (sewn < n) {
    one_dart.table[sewn] = 1;
  }
  return one_dart;
}

static struct map any_filed_map(struct chance *chance) {
  if (chance_one_in(chance, 4)) {
    return alike_map(chance);
  }
  return any_accepted_map(chance, chance_one_in(chance, 10) ? MOST_ENTRIES : 40);
}

unsigned drawer_add(struct drawer *drawer, uint32_t die, const struct map *map) {
  struct second_filed filed = second_add(die, map_lent(map), drawer->count, drawer->bytes, drawer->length);
  drawer->count += filed.number == 0;
  return filed.number;
}

struct drawer good_drawer(struct chance *chance, uint64_t count, size_t spare, bool garbage) {
  struct drawer drawer = blank_drawer(chance, count * RECORD_BYTES + spare, garbage);
  while (drawer.count < count) {
    struct map map = any_filed_map(chance);
    unsigned number = drawer_add(&drawer, any_die(chance), &map);
    if (number != 0 && number != 16 && number != 17) {
      fail("filing in a good drawer", number);
    }
  }
  return drawer;
}

static struct map signature_of(const struct map *map) {
  struct map word = map_empty(map->n, map->m);
  struct second_signed answer = second_sign(map_lent(map), word.table, word.length);
  if (answer.number != 0) {
    fail("the signature of an accepted map", answer.number);
  }
  return word;
}

// Maps of five to seven darts are many enough to fill a drawer and short to print.
struct drawer packed_drawer(struct chance *chance, uint64_t count, size_t spare) {
  struct drawer drawer = blank_drawer(chance, count * RECORD_BYTES + spare, false);
  while (drawer.count < count) {
    struct map map = accepted_map(chance, 2, 5 + chance_below(chance, 3));
    struct map word = signature_of(&map);
    uint8_t record[RECORD_BYTES];
    put_record(record, (uint32_t)(3 * drawer.count + 7), map_lent(&word));
    if (!layout_stands(drawer.bytes, drawer.count, record)) {
      drawer.count++;
      memcpy(drawer_record(&drawer, drawer.count), record, RECORD_BYTES);
    }
  }
  unsigned number = second_drawer(drawer.count, drawer.bytes, drawer.length).number;
  if (number != 0) {
    fail("a packed drawer", number);
  }
  return drawer;
}

struct map filed_map(struct chance *chance, const struct drawer *drawer, uint64_t record) {
  struct map map = record_map(drawer_record(drawer, record));
  return map_shuffled(chance, &map);
}

struct map unfiled_map(struct chance *chance, const struct drawer *drawer) {
  for (;;) {
    struct map map = any_filed_map(chance);
    struct map word = signature_of(&map);
    uint8_t record[RECORD_BYTES];
    put_record(record, 1, map_lent(&word));
    if (!layout_stands(drawer->bytes, drawer->count, record)) {
      return map;
    }
  }
}

static bool die_stands(const struct drawer *drawer, uint32_t die) {
  for (uint64_t record = 1; record <= drawer->count; record++) {
    if (record_die(drawer_record(drawer, record)) == die) {
      return true;
    }
  }
  return false;
}

uint32_t unfiled_die(struct chance *chance, const struct drawer *drawer) {
  uint32_t die = any_die(chance);
  while (die_stands(drawer, die)) {
    die = any_die(chance);
  }
  return die;
}

// ---- Faults ----

const char *const spoil_names[SPOIL_COUNT] = {
    "die 0",
    "n out of bounds",
    "m of 0",
    "m too large",
    "zero byte set",
    "first filling byte set",
    "last filling byte set",
    "some filling byte set",
    "word not accepted",
    "word accepted but not its own signature",
    "word read with another n or m",
    "die repeated",
    "layout repeated",
};

void spoil_zero(struct chance *chance, uint8_t *byte) {
  *byte = (uint8_t)(1 + chance_below(chance, 255));
}

bool filling_places(struct chance *chance, size_t numbers, size_t places[3]) {
  size_t first = RECORD_WORD_AT + 2 * numbers;
  if (first >= RECORD_BYTES) {
    return false;
  }
  places[0] = first;
  places[1] = RECORD_BYTES - 1;
  places[2] = first + (size_t)chance_below(chance, RECORD_BYTES - first);
  return true;
}

static void spoil_sizes(struct chance *chance, uint8_t *record) {
  uint64_t entries = record_map(record).length;
  if (chance_one_in(chance, 2)) {
    put_16(record + RECORD_M_AT, (uint64_t)get_16(record + RECORD_M_AT) + (chance_one_in(chance, 2) ? 1 : UINT64_MAX));
    return;
  }
  uint64_t n = 1 + chance_below(chance, 4);
  if (entries % n == 0) {
    record[RECORD_N_AT] = (uint8_t)n;
    put_16(record + RECORD_M_AT, entries / n);
  }
}

// Some faults do not come out each time, and a repeated one never in record 1.
static void spoil_once(struct chance *chance, struct drawer *drawer, uint64_t record, enum spoil spoil) {
  static const uint8_t wrong_n[] = {0, 5, 255, 6, 128};
  uint8_t *own = drawer_record(drawer, record);
  struct map map = record_map(own);
  size_t places[3];
  switch (spoil) {
  case SPOIL_DIE_ZERO:
    put_die(own, 0);
    break;
  case SPOIL_N_OUT_OF_BOUNDS:
    own[RECORD_N_AT] = wrong_n[chance_below(chance, sizeof wrong_n)];
    break;
  case SPOIL_M_ZERO:
    put_16(own + RECORD_M_AT, 0);
    break;
  case SPOIL_M_TOO_LARGE:
    put_16(own + RECORD_M_AT, chance_one_in(chance, 2) ? UINT16_MAX : MOST_ENTRIES / map.n + 1);
    break;
  case SPOIL_ZERO_BYTE:
    spoil_zero(chance, own + RECORD_ZERO_AT);
    break;
  case SPOIL_WORD_REFUSED:
    map = refused_map(chance, 5 + (unsigned)chance_below(chance, 5), 60);
    put_record(own, record_die(own), map_lent(&map));
    break;
  case SPOIL_WORD_RENUMBERED:
    map = map_shuffled(chance, &map);
    put_record(own, record_die(own), map_lent(&map));
    break;
  case SPOIL_SIZES:
    spoil_sizes(chance, own);
    break;
  case SPOIL_DIE_REPEATED:
  case SPOIL_LAYOUT_REPEATED:
    if (record >= 2) {
      const uint8_t *earlier = drawer_record(drawer, 1 + chance_below(chance, record - 1));
      bool die = spoil == SPOIL_DIE_REPEATED;
      memcpy(own + (die ? 0 : RECORD_N_AT), earlier + (die ? 0 : RECORD_N_AT), die ? RECORD_N_AT : RECORD_BYTES - RECORD_N_AT);
    }
    break;
  default:
    if (filling_places(chance, map.length, places)) {
      spoil_zero(chance, own + places[spoil - SPOIL_FIRST_FILLING]);
    }
  }
}

bool spoil_record(struct chance *chance, struct drawer *drawer, uint64_t record, enum spoil spoil) {
  uint8_t kept[RECORD_BYTES];
  uint8_t *own = drawer_record(drawer, record);
  memcpy(kept, own, RECORD_BYTES);
  for (int tries = 0; tries < 20; tries++) {
    spoil_once(chance, drawer, record, spoil);
    struct second_verdict verdict = second_drawer(record, drawer->bytes, drawer->length);
    if (verdict.number == 14) {
      return true;
    }
    memcpy(own, kept, RECORD_BYTES);
  }
  return false;
}

uint64_t bad_count(uint64_t turn, const struct drawer *drawer) {
  const uint64_t bad[BAD_COUNTS] = {
      drawer->length / RECORD_BYTES + 1,
      MOST_RECORDS + 1,
      (uint64_t)1 << 53,
      ((uint64_t)1 << 53) + 1,
      UINT64_MAX,
      drawer->count + ((uint64_t)1 << 32),
      drawer->count + 65536,
      ((uint64_t)1 << 63) + drawer->count,
      MOST_RECORDS,
      UINT64_MAX / RECORD_BYTES,
      ((uint64_t)1 << 21) + drawer->count,
  };
  return bad[turn % BAD_COUNTS];
}
