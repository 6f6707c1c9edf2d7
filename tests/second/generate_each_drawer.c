// Drawers of each kind in turn, not by chance: sizes, faults, counts and lengths of the lent bytes.
#include <inttypes.h>
#include <stdio.h>

#include "generate.h"
#include "generate_drawers.h"

// A size that all drawers below have but the smallest and the full ones: first, middle and last record differ, and there are
// records between them.
enum { SOME_RECORDS = 7, MIDDLE_RECORD = 4 };

static struct drawer some_drawer(struct chance *chance) {
  return good_drawer(chance, SOME_RECORDS, RECORD_BYTES + 3, true);
}

// With the first and the last layout, and with one that is not filed.
static void print_size(struct chance *chance, uint64_t count) {
  struct drawer drawer = good_drawer(chance, count, RECORD_BYTES + 3, true);
  uint32_t die = unfiled_die(chance, &drawer);
  struct map unfiled = unfiled_map(chance, &drawer);
  printf("# a good drawer of %" PRIu64 " records\n", count);
  print_calls(DRAWER_CALLS, die, &unfiled, &drawer);
  if (count > 0) {
    struct map first = filed_map(chance, &drawer, 1);
    struct map last = filed_map(chance, &drawer, count);
    print_calls(DRAWER_CALLS, die, &first, &drawer);
    print_calls(DRAWER_CALLS, die, &last, &drawer);
    print_call(ADD, record_die(drawer_record(&drawer, 1)), &unfiled, &drawer);
    print_call(ADD, record_die(drawer_record(&drawer, count)), &unfiled, &drawer);
  }
  drawer_free(&drawer);
}

// The layout is one before the fault where there is one, so that a search that stops at its hit is found out, and then one
// behind it.
static void print_fault(struct chance *chance, enum spoil spoil, uint64_t bad) {
  for (int tries = 0; tries < 20; tries++) {
    struct drawer drawer = some_drawer(chance);
    struct map before = filed_map(chance, &drawer, bad == 1 ? MIDDLE_RECORD : 1);
    struct map behind = filed_map(chance, &drawer, bad == SOME_RECORDS ? 1 : SOME_RECORDS);
    uint32_t die = unfiled_die(chance, &drawer);
    bool spoiled = spoil_record(chance, &drawer, bad, spoil);
    if (spoiled) {
      printf("# record %" PRIu64 " of %d spoiled: %s\n", bad, SOME_RECORDS, spoil_names[spoil]);
      print_calls(DRAWER_CALLS, die, &before, &drawer);
      print_call(FIND, die, &behind, &drawer);
    }
    drawer_free(&drawer);
    if (spoiled) {
      return;
    }
  }
  // Nothing stands before the first record that it could repeat.
  printf("# record %" PRIu64 " cannot be spoiled: %s\n", bad, spoil_names[spoil]);
}

// The fault is in the last record of a full drawer, and the layout is in the first.
static void print_full_fault(struct chance *chance, struct drawer *drawer, enum spoil spoil) {
  struct map first = filed_map(chance, drawer, 1);
  struct map last = record_map(drawer_record(drawer, MOST_RECORDS));
  uint32_t last_die = record_die(drawer_record(drawer, MOST_RECORDS));
  if (spoil_record(chance, drawer, MOST_RECORDS, spoil)) {
    printf("# the last of 1,024 records spoiled: %s\n", spoil_names[spoil]);
    print_call(DRAWER, 0, &first, drawer);
    print_call(FIND, 0, &first, drawer);
  }
  put_record(drawer_record(drawer, MOST_RECORDS), last_die, map_lent(&last));
}

static void print_full_drawer(struct chance *chance) {
  struct drawer drawer = packed_drawer(chance, MOST_RECORDS, RECORD_BYTES);
  struct map unfiled = unfiled_map(chance, &drawer);
  struct map first = filed_map(chance, &drawer, 1);
  struct map last = filed_map(chance, &drawer, MOST_RECORDS);
  uint32_t die = unfiled_die(chance, &drawer);
  printf("# a good drawer of 1,024 records\n");
  print_calls(DRAWER_CALLS, die, &last, &drawer);
  print_call(FIND, die, &first, &drawer);
  print_call(FIND, die, &unfiled, &drawer);
  print_call(ADD, die, &unfiled, &drawer);
  print_full_fault(chance, &drawer, SPOIL_LAST_FILLING);
  print_full_fault(chance, &drawer, SPOIL_DIE_REPEATED);
  print_full_fault(chance, &drawer, SPOIL_LAYOUT_REPEATED);
  // Room for the 1,024th record, and then a byte less than that.
  drawer.count = MOST_RECORDS - 1;
  drawer.length = MOST_RECORDS * RECORD_BYTES;
  print_call(ADD, die, &unfiled, &drawer);
  drawer.length--;
  print_call(ADD, die, &unfiled, &drawer);
  drawer_free(&drawer);
}

static void print_counts(struct chance *chance) {
  printf("# counts that are above 1,024 or want more bytes than are lent\n");
  struct drawer drawer = some_drawer(chance);
  struct map map = filed_map(chance, &drawer, 1);
  uint32_t die = unfiled_die(chance, &drawer);
  for (uint64_t turn = 0; turn < BAD_COUNTS; turn++) {
    struct drawer miscounted = drawer;
    miscounted.count = bad_count(turn, &drawer);
    print_calls(DRAWER_CALLS, die, &map, &miscounted);
  }
  drawer_free(&drawer);
}

// Too short for the counted records; then without room for one more, and with just enough.
static void print_lengths(struct chance *chance) {
  static const size_t lengths[] = {
      0,
      1,
      RECORD_BYTES - 1,
      RECORD_BYTES,
      SOME_RECORDS * RECORD_BYTES - 1,
      SOME_RECORDS * RECORD_BYTES,
      (SOME_RECORDS + 1) * RECORD_BYTES - 1,
      (SOME_RECORDS + 1) * RECORD_BYTES,
  };
  struct drawer drawer = some_drawer(chance);
  struct map unfiled = unfiled_map(chance, &drawer);
  uint32_t die = unfiled_die(chance, &drawer);
  for (size_t at = 0; at < sizeof lengths / sizeof lengths[0]; at++) {
    struct drawer shorter = drawer;
    shorter.length = lengths[at];
    printf("# %d records in %zu bytes\n", SOME_RECORDS, lengths[at]);
    print_calls(DRAWER_CALLS, die, &unfiled, &shorter);
    shorter.count = 0;
    printf("# no records in %zu bytes\n", lengths[at]);
    print_calls(DRAWER_CALLS, die, &unfiled, &shorter);
  }
  drawer_free(&drawer);
}

void print_each_drawer(struct chance *chance) {
  static const uint64_t sizes[] = {0, 1, 2, 12};
  for (size_t at = 0; at < sizeof sizes / sizeof sizes[0]; at++) {
    print_size(chance, sizes[at]);
  }
  for (int spoil = 0; spoil < SPOIL_COUNT; spoil++) {
    print_fault(chance, (enum spoil)spoil, 1);
    print_fault(chance, (enum spoil)spoil, MIDDLE_RECORD);
    print_fault(chance, (enum spoil)spoil, SOME_RECORDS);
  }
  print_counts(chance);
  print_lengths(chance);
  print_full_drawer(chance);
}
