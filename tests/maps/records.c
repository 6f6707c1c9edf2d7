// Writes and reads records of a drawer.
#include "records.h"

#include <string.h>

void put_16(uint8_t *at, uint64_t number) {
  at[0] = (uint8_t)number;
  at[1] = (uint8_t)(number >> 8);
}

uint16_t get_16(const uint8_t *at) {
  return (uint16_t)(at[0] | at[1] << 8);
}

void put_die(uint8_t *record, uint32_t die) {
  put_16(record, die);
  put_16(record + 2, die >> 16);
}

uint32_t record_die(const uint8_t *record) {
  return get_16(record) | (uint32_t)get_16(record + 2) << 16;
}

void put_record(uint8_t *record, uint32_t die, struct second_map map) {
  memset(record, 0, RECORD_BYTES);
  put_die(record, die);
  record[RECORD_N_AT] = (uint8_t)map.n;
  put_16(record + RECORD_M_AT, map.m);
  for (size_t at = 0; at < map.length && at < MOST_ENTRIES; at++) {
    put_16(record + RECORD_WORD_AT + 2 * at, map.table[at]);
  }
}

struct map record_map(const uint8_t *record) {
  struct map map = map_empty(record[RECORD_N_AT], get_16(record + RECORD_M_AT));
  for (size_t at = 0; at < map.length && at < MOST_ENTRIES; at++) {
    map.table[at] = get_16(record + RECORD_WORD_AT + 2 * at);
  }
  return map;
}

uint8_t *record_at(uint8_t *drawer, uint64_t record) {
  return drawer + (record - 1) * RECORD_BYTES;
}

// A record is its layout from n on.
bool layout_stands(uint8_t *drawer, uint64_t count, const uint8_t *record) {
  for (uint64_t other = 1; other <= count; other++) {
    if (memcmp(record_at(drawer, other) + RECORD_N_AT, record + RECORD_N_AT, RECORD_BYTES - RECORD_N_AT) == 0) {
      return true;
    }
  }
  return false;
}
