// Records for the layout lister: good ones with any dart table, and refused ones of each number.
#include <stdio.h>

#include "generate.h"
#include "generate_drawers.h"

// Six kinds of each round are good; the last one has two faults, so that their order matters.
enum lister_kind {
  LISTED_N = 6,
  LISTED_M,
  LISTED_DIE,
  LISTED_ZERO_BYTE,
  LISTED_FILLING,
  LISTED_TABLE_5,
  LISTED_TABLE_9 = LISTED_TABLE_5 + 4,
  LISTED_TWO_FAULTS,
  LISTED_KINDS
};

static struct map lister_map(struct chance *chance, uint64_t kind) {
  uint64_t most_entries = chance_one_in(chance, 3) ? MOST_ENTRIES : 60;
  if (kind >= LISTED_TABLE_5 && kind <= LISTED_TABLE_9) {
    return refused_map(chance, (unsigned)(kind - LISTED_TABLE_5 + 5), most_entries);
  }
  if (kind == LISTED_TWO_FAULTS) {
    return twice_refused_map(chance, most_entries);
  }
  return any_accepted_map(chance, most_entries);
}

// A table of 1,020 numbers leaves no filling; then nothing is set there.
static void set_fault(struct chance *chance, uint8_t *record, const struct map *map, uint64_t kind) {
  static const uint8_t wrong_n[] = {0, 5, 255, 6};
  size_t places[3];
  switch (kind) {
  case LISTED_N:
    record[RECORD_N_AT] = wrong_n[chance_below(chance, sizeof wrong_n)];
    break;
  case LISTED_M:
    put_16(record + RECORD_M_AT, (const uint64_t[]){0, MOST_ENTRIES / map->n + 1, UINT16_MAX}[chance_below(chance, 3)]);
    break;
  case LISTED_DIE:
    put_die(record, 0);
    break;
  case LISTED_ZERO_BYTE:
    spoil_zero(chance, record + RECORD_ZERO_AT);
    break;
  case LISTED_FILLING:
    if (filling_places(chance, map->length, places)) {
      size_t place = places[chance_below(chance, 3)];
      spoil_zero(chance, record + place);
    }
    break;
  case LISTED_TWO_FAULTS:
    // In front of the fault of the table one of the head or the filling, or two.
    if (chance_one_in(chance, 4)) {
      set_fault(chance, record, map, LISTED_N);
    } else if (chance_one_in(chance, 3)) {
      set_fault(chance, record, map, LISTED_M);
    }
    set_fault(chance, record, map, LISTED_DIE + chance_below(chance, 3));
    break;
  default:
    break;
  }
}

static void fill_lister_record(struct chance *chance, uint8_t *record, uint64_t kind) {
  uint64_t die_bound = chance_one_in(chance, 2) ? 999 : UINT32_MAX;
  struct map map = lister_map(chance, kind);
  put_record(record, (uint32_t)(1 + chance_below(chance, die_bound)), map_lent(&map));
  set_fault(chance, record, &map, kind);
}

void write_records(struct chance *chance, uint64_t count) {
  uint8_t record[RECORD_BYTES];
  for (uint64_t k = 0; k < count; k++) {
    // Now and then the record before stands twice: earlier records aren't compared.
    if (k == 0 || !chance_one_in(chance, 12)) {
      fill_lister_record(chance, record, k % LISTED_KINDS);
    }
    fwrite(record, 1, RECORD_BYTES, stdout);
  }
  fill_lister_record(chance, record, 0);
  fwrite(record, 1, (size_t)(1 + chance_below(chance, RECORD_BYTES - 1)), stdout);
}
