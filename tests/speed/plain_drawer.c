// The drawer's check, search and filing of document 01 in plain C: each record is judged by itself,
// then its die and its layout are compared with every record before it.
#include <stdbool.h>

#include "plain_first_row.h"
#include "plain_orbits.h"

enum { MOST_RECORDS = 1024, RECORD_BYTES = 2048 };

// Where the parts of a record stand; the die number is in front.
enum { N_AT = 4, ZERO_AT = 5, M_AT = 6, WORD_AT = 8 };

// ---- Numbers in bytes ----

// Written byte by byte, these are one load or one store where the machine's little end is first.

static uint32_t number_2(const uint8_t *at) {
  return at[0] | (uint32_t)at[1] << 8;
}

static uint32_t number_4(const uint8_t *at) {
  return number_2(at) | number_2(at + 2) << 16;
}

static void put_2(uint8_t *at, uint32_t number) {
  at[0] = (uint8_t)number;
  at[1] = (uint8_t)(number >> 8);
}

static void put_4(uint8_t *at, uint32_t number) {
  put_2(at, number);
  put_2(at + 2, number >> 16);
}

// ---- One record ----

enum order { LESSER, EQUAL, GREATER };

// Labels from one start and compares its word with the table; left at the first number that
// differs.
static enum order compare_with_table(const struct map *map, const uint16_t *beta0, size_t start, struct labelling *labelling) {
  size_t n = map->n;
  visit(labelling, start);
  // The map is connected, so the queue never runs dry before all m darts are served.
  for (size_t k = 0; k < map->m; k++) {
    size_t dart = labelling->queue[k];
    visit(labelling, beta0[dart - 1]);
    for (size_t i = 0; i < n; i++) {
      size_t label = visit(labelling, map->table[(dart - 1) * n + i]);
      size_t own = map->table[k * n + i];
      if (label != own) {
        return label < own ? LESSER : GREATER;
      }
    }
  }
  return EQUAL;
}

// A start that ties with dart 1, where each dart's label is its number, shows a matching of the map
// with itself, from label to dart.
static void tie(struct orbits *orbits, const uint16_t *queue, size_t m) {
  for (size_t k = 0; k < m; k++) {
    join(orbits, k + 1, queue[k]);
  }
}

// The table of an accepted map is its own signature where dart 1 yields it and none a lesser word.
static bool is_own_signature(const struct map *map, const uint16_t *beta0, struct labelling *labelling) {
  struct orbits orbits;
  begin_orbits(&orbits, map->m);
  size_t first_rank = rank(map, beta0, 1);
  for (size_t start = 1; start <= map->m; start++) {
    if (!is_top(&orbits, start) || rank(map, beta0, start) > first_rank) {
      // A lesser dart yields its word and was tried, or the first row of dart 1 is lesser.
      continue;
    }
    forget(labelling);
    enum order order = compare_with_table(map, beta0, start, labelling);
    if (order == LESSER || (order == GREATER && start == 1)) {
      return false;
    }
    if (order == EQUAL && start != 1) {
      tie(&orbits, labelling->queue, map->m);
    }
  }
  return true;
}

static bool filling_is_zero(const uint8_t *record, size_t from) {
  static const uint8_t zeros[RECORD_BYTES];
  return memcmp(record + from, zeros, RECORD_BYTES - from) == 0;
}

// All that makes a record bad but the records before it.
static bool is_good_alone(const uint8_t *record) {
  size_t n = record[N_AT];
  size_t m = number_2(record + M_AT);
  size_t length = n * m;
  if (n < 1 || n > MOST_SEWINGS || m == 0 || length > MOST_NUMBERS) {
    return false;
  }
  if (number_4(record) == 0 || record[ZERO_AT] != 0 || !filling_is_zero(record, WORD_AT + 2 * length)) {
    return false;
  }
  uint16_t word[MOST_NUMBERS];
  for (size_t at = 0; at < length; at++) {
    word[at] = (uint16_t)number_2(record + WORD_AT + 2 * at);
  }
  struct map map = {n, m, word};
  uint16_t beta0[MOST_NUMBERS];
  struct labelling labelling;
  return judge(map, length, 0, 0, beta0, &labelling).number == 0 && is_own_signature(&map, beta0, &labelling);
}

// ---- Records beside each other ----

// Wants the zero byte of both to be 0: then n and m are four bytes that can be compared at once.
static bool same_layout(const uint8_t *one, const uint8_t *other) {
  return number_4(one + N_AT) == number_4(other + N_AT) &&
         memcmp(one + WORD_AT, other + WORD_AT, 2 * one[N_AT] * number_2(one + M_AT)) == 0;
}

// The first of `count` records that has the die number, or 0.
static size_t record_with_die(const uint8_t *bytes, size_t count, uint32_t die) {
  for (size_t record = 1; record <= count; record++) {
    if (number_4(bytes + (record - 1) * RECORD_BYTES) == die) {
      return record;
    }
  }
  return 0;
}

// The first of `count` records that has the layout of a given one, or 0.
static size_t record_with_layout(const uint8_t *bytes, size_t count, const uint8_t *wanted) {
  for (size_t record = 1; record <= count; record++) {
    if (same_layout(bytes + (record - 1) * RECORD_BYTES, wanted)) {
      return record;
    }
  }
  return 0;
}

// Whether a record has the die number or the layout of one before it.
static bool repeats(const uint8_t *bytes, const uint8_t *record) {
  uint32_t die = number_4(record);
  for (const uint8_t *earlier = bytes; earlier < record; earlier += RECORD_BYTES) {
    if (number_4(earlier) == die || same_layout(earlier, record)) {
      return true;
    }
  }
  return false;
}

// The record of a die and of the map's signature; nothing is written where the map is refused.
static struct duftheim_verdict make_record(uint32_t die, size_t n, size_t m, const uint16_t *table, size_t table_length,
                                           uint8_t *record) {
  uint16_t word[MOST_NUMBERS];
  struct duftheim_signed answer = duftheim_signature(n, m, table, table_length, word, MOST_NUMBERS);
  if (answer.number != 0) {
    return refused(answer.number, answer.place);
  }
  memset(record, 0, RECORD_BYTES);
  put_4(record, die);
  record[N_AT] = (uint8_t)n;
  put_2(record + M_AT, (uint32_t)m);
  for (size_t at = 0; at < n * m; at++) {
    put_2(record + WORD_AT + 2 * at, word[at]);
  }
  return accepted();
}

// ---- The calls ----

struct duftheim_verdict duftheim_drawer_check(size_t count, const uint8_t *bytes, size_t bytes_length) {
  if (count > MOST_RECORDS || count * RECORD_BYTES > bytes_length) {
    return refused(13, 0);
  }
  for (size_t record = 1; record <= count; record++) {
    const uint8_t *here = bytes + (record - 1) * RECORD_BYTES;
    if (!is_good_alone(here) || repeats(bytes, here)) {
      return refused(14, record);
    }
  }
  return accepted();
}

static struct duftheim_found not_found(struct duftheim_verdict why) {
  return (struct duftheim_found){why.number, why.place, 0, 0};
}

struct duftheim_found duftheim_search(size_t n, size_t m, const uint16_t *table, size_t table_length, size_t count,
                                      const uint8_t *bytes, size_t bytes_length) {
  uint8_t wanted[RECORD_BYTES];
  struct duftheim_verdict verdict = make_record(0, n, m, table, table_length, wanted);
  if (verdict.number != 0) {
    return not_found(verdict);
  }
  verdict = duftheim_drawer_check(count, bytes, bytes_length);
  if (verdict.number != 0) {
    return not_found(verdict);
  }
  size_t record = record_with_layout(bytes, count, wanted);
  if (record == 0) {
    return not_found(refused(15, 0));
  }
  return (struct duftheim_found){0, 0, number_4(bytes + (record - 1) * RECORD_BYTES), record};
}

// 16 to 18: what stands against a record as the next one of a good drawer.
static struct duftheim_verdict judge_next(uint32_t die, const uint8_t *filed, size_t count, const uint8_t *bytes,
                                          size_t bytes_length) {
  if (die == 0) {
    return refused(16, 0);
  }
  size_t record = record_with_die(bytes, count, die);
  if (record != 0) {
    return refused(16, record);
  }
  record = record_with_layout(bytes, count, filed);
  if (record != 0) {
    return refused(17, record);
  }
  if (count == MOST_RECORDS || (count + 1) * RECORD_BYTES > bytes_length) {
    return refused(18, 0);
  }
  return accepted();
}

static struct duftheim_filed not_filed(struct duftheim_verdict why) {
  return (struct duftheim_filed){why.number, why.place, 0};
}

struct duftheim_filed duftheim_file(uint32_t die, size_t n, size_t m, const uint16_t *table, size_t table_length, size_t count,
                                    uint8_t *bytes, size_t bytes_length) {
  uint8_t filed[RECORD_BYTES];
  struct duftheim_verdict verdict = make_record(die, n, m, table, table_length, filed);
  if (verdict.number != 0) {
    return not_filed(verdict);
  }
  verdict = duftheim_drawer_check(count, bytes, bytes_length);
  if (verdict.number != 0) {
    return not_filed(verdict);
  }
  verdict = judge_next(die, filed, count, bytes, bytes_length);
  if (verdict.number != 0) {
    return not_filed(verdict);
  }
  memcpy(bytes + count * RECORD_BYTES, filed, RECORD_BYTES);
  return (struct duftheim_filed){0, 0, count + 1};
}
