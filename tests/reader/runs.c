// Runs of calls on one drawer, from an empty one: filing, search with the record's own bytes, and
// the check, at random, refused calls among them. Each answer and every byte that a call leaves
// must be what a plain list of dies and layouts says, which is kept here.
#include <inttypes.h>
#include <stdio.h>
#include <string.h>

#include "../../include/duftheim.h"
#include "../cases/ask.h"
#include "../maps/changes.h"
#include "../maps/families.h"
#include "../second/generate_drawers.h"
#include "expect.h"

_Static_assert(RECORD_BYTES == DUFTHEIM_RECORD_SIZE, "records are as long as the header says");
_Static_assert((int)MOST_RECORDS == DUFTHEIM_MOST_RECORDS, "as many as the header says");

// A layout is its n, its m and its signature.
struct entry {
  uint32_t die;
  struct map layout;
};

enum { MOST_BYTES = (MOST_RECORDS + 1) * RECORD_BYTES + 5 };

// The run under way: the plain list, the drawer that the library is lent, and what its bytes should be.
static struct {
  struct entry list[MOST_RECORDS];
  size_t count;
  size_t length;
  size_t bad; // The record that is spoiled just now, or 0.
  uint8_t drawer[MOST_BYTES];
  uint8_t right[MOST_BYTES];
} run;

static struct chance chance = {.state = 20011};
static uint64_t runs;
static struct given given[CALLS];

// ---- The plain list ----

// Wants an accepted map.
static struct map layout_of(struct second_map map) {
  struct map layout = map_empty(map.n, map.m);
  second_sign(map, layout.table, layout.length);
  return layout;
}

static bool same_layouts(const struct map *one, const struct map *other) {
  return one->n == other->n && one->m == other->m && same_numbers(one->table, other->table, one->length);
}

// The record with the layout, or with the die, among the first ones; or 0.
static size_t record_of(uint64_t count, const struct map *layout) {
  for (size_t record = 1; record <= count; record++) {
    if (same_layouts(&run.list[record - 1].layout, layout)) {
      return record;
    }
  }
  return 0;
}

static size_t record_of_die(uint64_t count, uint32_t die) {
  for (size_t record = 1; record <= count; record++) {
    if (run.list[record - 1].die == die) {
      return record;
    }
  }
  return 0;
}

static void put_entry(uint8_t *at, size_t record) {
  const struct entry *entry = &run.list[record - 1];
  put_record(at, entry->die, map_lent(&entry->layout));
}

static void add_to_list(uint32_t die, const struct map *layout) {
  struct entry *entry = &run.list[run.count++];
  entry->die = die;
  entry->layout = *layout;
  put_record(record_at(run.right, run.count), die, map_lent(layout));
}

// ---- What is right ----

static struct answer refused(uint64_t number, uint64_t place) {
  return (struct answer){.numbers = {number, place}};
}

static struct answer right_of_drawer(const struct test_case *asked) {
  if (asked->count > MOST_RECORDS || asked->count > asked->drawer.length / RECORD_BYTES) {
    return refused(13, 0);
  }
  return run.bad != 0 && run.bad <= asked->count ? refused(14, run.bad) : refused(0, 0);
}

// The map is judged, where there is one, then the drawer, and then come 15 to 18.
static struct answer right_answer(const struct test_case *asked) {
  struct second_verdict of_map = second_check(asked->first);
  if (asked->call != DRAWER && of_map.number != 0) {
    return refused(of_map.number, of_map.place);
  }
  struct answer of_drawer = right_of_drawer(asked);
  if (asked->call == DRAWER || of_drawer.numbers[0] != 0) {
    return of_drawer;
  }
  struct map layout = layout_of(asked->first);
  size_t record = record_of(asked->count, &layout);
  if (asked->call == FIND) {
    return record == 0 ? refused(15, 0) : (struct answer){.numbers = {0, 0, run.list[record - 1].die, record}};
  }
  size_t with_die = record_of_die(asked->count, asked->die);
  if (asked->die == 0 || with_die != 0) {
    return refused(16, with_die);
  }
  if (record != 0) {
    return refused(17, record);
  }
  bool full = asked->count == MOST_RECORDS || asked->drawer.length / RECORD_BYTES == asked->count;
  return full ? refused(18, 0) : (struct answer){.numbers = {0, 0, asked->count + 1}};
}

// ---- Asking ----

static void expect_own_bytes(struct second_map map, size_t record) {
  const uint8_t *bytes = duftheim_record_bytes(run.drawer, record);
  if (record == 0) {
    expect(bytes == NULL, map, "a refusal hands back a record");
    return;
  }
  uint8_t own[RECORD_BYTES];
  put_entry(own, record);
  expect(bytes == record_at(run.drawer, record) && memcmp(bytes, own, RECORD_BYTES) == 0, map, "not the record's own bytes");
}

// How the drawer is lent in one call.
struct lent {
  uint64_t count;
  size_t length;
};

static void ask(enum call call, uint32_t die, const struct map *map, struct lent lent) {
  static const char *const otherwise[CALLS] = {[DRAWER] = "the check judges the drawer otherwise",
                                               [FIND] = "search answers otherwise",
                                               [ADD] = "filing answers otherwise"};
  struct test_case asked = {
      .call = call, .die = die, .first = map_lent(map), .count = lent.count, .drawer = {run.drawer, lent.length}};
  struct answer right = right_answer(&asked);
  count_case();
  struct answer answer = ask_library(&asked);
  bool same = memcmp(answer.numbers, right.numbers, sizeof right.numbers) == 0;
  expect(same, asked.first, otherwise[call]);
  if (same && call == FIND) {
    expect_own_bytes(asked.first, (size_t)answer.numbers[3]);
  }
  if (right.numbers[0] == 0 && call == ADD) {
    struct map layout = layout_of(asked.first);
    add_to_list(die, &layout);
  }
  expect(memcmp(run.drawer, run.right, run.length) == 0, asked.first,
         "a byte is changed that should not be, or not changed that should be");
  count_given(&given[call], (unsigned)right.numbers[0]);
}

// ---- What is asked ----

static size_t any_record(void) {
  return 1 + (size_t)chance_below(&chance, run.count);
}

static struct map any_map(uint64_t most_entries) {
  if (chance_one_in(&chance, 8)) {
    return refused_map(&chance, table_refusals[chance_below(&chance, TABLE_REFUSALS)], 60);
  }
  if (run.count > 0 && chance_one_in(&chance, 3)) {
    return map_shuffled(&chance, &run.list[any_record() - 1].layout);
  }
  return any_accepted_map(&chance, chance_one_in(&chance, 12) ? MOST_ENTRIES : most_entries);
}

// Small numbers, so that some are filed already, and numbers of four bytes.
static uint32_t any_die(void) {
  if (chance_one_in(&chance, 10)) {
    return 0;
  }
  if (run.count > 0 && chance_one_in(&chance, 6)) {
    return run.list[any_record() - 1].die;
  }
  uint64_t bytes_less = chance_below(&chance, 4);
  return (uint32_t)chance_next(&chance) >> 8 * bytes_less;
}

static struct drawer right_drawer(void) {
  return (struct drawer){run.count, run.length, run.right};
}

// Mostly the drawer as it is. A lower count is for calls that write nothing: filing would leave a
// drawer that the list knows nothing of.
static struct lent any_lent(bool writes) {
  struct drawer drawer = right_drawer();
  struct lent lent = {run.count, run.length};
  uint64_t way = chance_below(&chance, 16);
  if (way == 0) {
    lent.count = bad_count(chance_below(&chance, BAD_COUNTS), &drawer);
  } else if (way == 1) {
    lent.length = run.count * RECORD_BYTES;
  } else if (way == 2) {
    lent.length = (size_t)chance_below(&chance, run.length + 1);
  } else if (way == 3 && !writes) {
    lent.count = chance_below(&chance, run.count + 1);
  }
  return lent;
}

static void ask_any(uint64_t most_entries) {
  static const enum call asked[8] = {DRAWER, FIND, FIND, FIND, ADD, ADD, ADD, ADD};
  enum call call = asked[chance_below(&chance, 8)];
  struct lent lent = any_lent(call == ADD);
  struct map map = any_map(most_entries);
  ask(call, any_die(), &map, lent);
}

// One call on a drawer with a bad record, which is then mended.
static void ask_spoiled(uint64_t most_entries) {
  struct drawer drawer = right_drawer();
  size_t bad = any_record();
  uint8_t *record = record_at(run.right, bad);
  while (!spoil_record(&chance, &drawer, bad, (enum spoil)chance_below(&chance, SPOIL_COUNT))) {
    // Not every record can be spoiled in every way.
  }
  memcpy(record_at(run.drawer, bad), record, RECORD_BYTES);
  run.bad = bad;
  ask_any(most_entries);
  put_entry(record, bad);
  memcpy(record_at(run.drawer, bad), record, RECORD_BYTES);
  run.bad = 0;
}

// ---- Runs ----

// The bytes are whatever they are before anything is filed.
static void start_run(size_t length) {
  run.count = 0;
  run.length = length;
  for (size_t at = 0; at < length; at++) {
    run.right[at] = (uint8_t)chance_next(&chance);
  }
  memcpy(run.drawer, run.right, length);
  runs++;
}

static void run_from_empty(size_t length, uint64_t calls, uint64_t most_entries) {
  start_run(length);
  for (uint64_t call = 0; call < calls; call++) {
    if (run.count > 0 && chance_one_in(&chance, 10)) {
      ask_spoiled(most_entries);
    } else {
      ask_any(most_entries);
    }
  }
}

// Maps of five to seven darts are many enough to fill a drawer.
static struct map small_unfiled_map(void) {
  for (;;) {
    struct map map = accepted_map(&chance, 2, 5 + chance_below(&chance, 3));
    struct map layout = layout_of(map_lent(&map));
    if (record_of(run.count, &layout) == 0) {
      return map;
    }
  }
}

// Filing a thousand layouts would take the library long, so most are put in by hand; the last ones
// are filed, and one too many. There is room for it: only the count stands against it.
static void run_to_full(void) {
  enum { BY_HAND = MOST_RECORDS - 3 };
  start_run(MOST_BYTES);
  struct lent lent = {0, run.length};
  uint32_t die = 1000;
  while (run.count < BY_HAND) {
    struct map map = small_unfiled_map();
    struct map layout = layout_of(map_lent(&map));
    add_to_list(die++, &layout);
  }
  memcpy(run.drawer, run.right, BY_HAND * RECORD_BYTES);
  for (int time = 0; time < 4; time++) {
    struct map map = small_unfiled_map();
    lent.count = run.count;
    ask(ADD, die++, &map, lent);
    lent.count = run.count;
    ask(FIND, 0, &map, lent);
  }
  expect(run.count == MOST_RECORDS, map_lent(&run.list[0].layout), "the drawer is not full");
  for (int time = 0; time < 4; time++) {
    ask_any(40);
  }
  ask_spoiled(40);
}

int main(void) {
  for (size_t records = 0; records <= 12; records++) {
    for (int time = 0; time < 8; time++) {
      run_from_empty(records * RECORD_BYTES + (size_t)chance_below(&chance, RECORD_BYTES), 60, 40);
    }
  }
  run_from_empty(64 * RECORD_BYTES, 250, 24);
  run_to_full();
  printf("%" PRIu64 " calls in %" PRIu64 " runs\n", cases_counted(), runs);
  bool all = all_given("check", &given[DRAWER], "x............xx");
  all = all_given("search", &given[FIND], "xxxx.xxxxx...xxx") && all;
  all = all_given("filing", &given[ADD], "xxxx.xxxxx...xx.xxx") && all;
  return finish() != 0 || !all ? 1 : 0;
}
