// Cases of the drawer check, search, the record handed back and filing.
#include <inttypes.h>
#include <stdio.h>

#include "generate.h"
#include "generate_drawers.h"

void print_call(enum call call, uint32_t die, const struct map *map, const struct drawer *drawer) {
  print_case(&(struct test_case){
      .call = call, .die = die, .first = map_lent(map), .count = drawer->count, .drawer = {drawer->bytes, drawer->length}});
}

static const enum call drawer_calls[DRAWER_CALLS] = {DRAWER, FIND, RECORD, ADD};

uint64_t print_calls(uint64_t most, uint32_t die, const struct map *map, const struct drawer *drawer) {
  uint64_t printed = 0;
  for (; printed < DRAWER_CALLS && printed < most; printed++) {
    print_call(drawer_calls[printed], die, map, drawer);
  }
  return printed;
}

static size_t any_spare(struct chance *chance) {
  static const size_t spares[] = {0, 1, RECORD_BYTES - 1, RECORD_BYTES, RECORD_BYTES + 5, 2 * RECORD_BYTES};
  return spares[chance_below(chance, sizeof spares / sizeof spares[0])];
}

static struct drawer any_good_drawer(struct chance *chance, uint64_t least) {
  uint64_t most = chance_one_in(chance, 4) ? 12 : 5;
  uint64_t count = least + chance_below(chance, most - least + 1);
  size_t spare = any_spare(chance);
  return good_drawer(chance, count, spare, chance_one_in(chance, 2));
}

static void print_good(struct chance *chance, uint64_t cases) {
  printf("# good drawers: filed and unfiled layouts\n");
  for (uint64_t k = 0; k < cases;) {
    struct drawer drawer = any_good_drawer(chance, k == 0 ? 0 : 1);
    struct map unfiled = unfiled_map(chance, &drawer);
    struct map filed = unfiled;
    if (drawer.count > 0) {
      filed = filed_map(chance, &drawer, 1 + chance_below(chance, drawer.count));
    }
    uint32_t die = unfiled_die(chance, &drawer);
    // The calls that write nothing with one layout, then filing, search and record with the other.
    static const enum call turns[] = {DRAWER, FIND, RECORD, ADD, FIND, RECORD};
    for (uint64_t turn = 0; turn < 6 && k < cases; turn++, k++) {
      print_call(turns[turn], die, turn < 3 ? &filed : &unfiled, &drawer);
    }
    drawer_free(&drawer);
  }
}

// Cases C and D have one word, 0 1: one of them is filed, or both, and the other one is wanted.
static void print_alike(struct chance *chance, uint64_t cases) {
  printf("# two layouts of one word and different n\n");
  struct map two_darts = {.n = 1, .m = 2, .length = 2, .table = {2, 0}};
  struct map one_dart = {.n = 2, .m = 1, .length = 2, .table = {0, 1}};
  uint64_t which = chance_below(chance, 3);
  for (uint64_t k = 0; k < cases; which++) {
    struct drawer drawer = good_drawer(chance, 0, 4 * RECORD_BYTES, chance_one_in(chance, 2));
    const struct map *filed = which % 2 == 0 ? &two_darts : &one_dart;
    const struct map *wanted = which % 2 == 0 ? &one_dart : &two_darts;
    drawer_add(&drawer, unfiled_die(chance, &drawer), filed);
    if (which % 3 == 2) {
      drawer_add(&drawer, unfiled_die(chance, &drawer), wanted);
    }
    uint32_t die = unfiled_die(chance, &drawer);
    k += print_calls(cases - k, die, wanted, &drawer);
    drawer_free(&drawer);
  }
}

// Records behind the count are bytes like any others: not found, not compared, written over.
static void print_behind_count(struct chance *chance, uint64_t cases) {
  printf("# good drawers with filed records behind the count\n");
  for (uint64_t k = 0; k < cases;) {
    struct drawer drawer = any_good_drawer(chance, 2);
    uint64_t behind = drawer.count;
    struct map map = filed_map(chance, &drawer, behind);
    uint32_t die = record_die(drawer_record(&drawer, behind));
    drawer.count = chance_below(chance, behind);
    k += print_calls(cases - k, die, &map, &drawer);
    drawer_free(&drawer);
  }
}

// A drawer with one bad record, and the map of a layout that was filed before or behind it.
static struct drawer spoiled_drawer(struct chance *chance, enum spoil spoil, struct map *wanted) {
  for (;;) {
    struct drawer drawer = any_good_drawer(chance, 2);
    uint64_t bad = 1 + chance_below(chance, drawer.count);
    uint64_t hit = 1 + chance_below(chance, drawer.count);
    *wanted = filed_map(chance, &drawer, hit);
    if (spoil_record(chance, &drawer, bad, spoil)) {
      printf("# record %" PRIu64 " of %" PRIu64 " spoiled: %s; the layout was in record %" PRIu64 "\n", bad, drawer.count,
             spoil_names[spoil], hit);
      return drawer;
    }
    drawer_free(&drawer);
  }
}

static void print_spoiled(struct chance *chance, uint64_t cases) {
  uint64_t spoil = chance_below(chance, SPOIL_COUNT);
  for (uint64_t k = 0; k < cases; spoil++) {
    struct map wanted;
    struct drawer drawer = spoiled_drawer(chance, spoil % SPOIL_COUNT, &wanted);
    if (chance_one_in(chance, 5)) {
      uint64_t other = 1 + chance_below(chance, drawer.count);
      put_die(drawer_record(&drawer, other), 0);
      printf("# and record %" PRIu64 " spoiled: die 0\n", other);
    }
    uint32_t die = chance_one_in(chance, 3) ? 0 : unfiled_die(chance, &drawer);
    k += print_calls(cases - k, die, &wanted, &drawer);
    drawer_free(&drawer);
  }
}

static void print_bad_counts(struct chance *chance, uint64_t cases) {
  printf("# counts that are above 1,024 or want more bytes than are lent\n");
  uint64_t which = chance_below(chance, BAD_COUNTS);
  for (uint64_t k = 0; k < cases; which++) {
    struct drawer drawer = any_good_drawer(chance, 1);
    struct map map = filed_map(chance, &drawer, 1);
    if (chance_one_in(chance, 3)) {
      spoil_record(chance, &drawer, drawer.count, SPOIL_ZERO_BYTE);
    }
    if (chance_one_in(chance, 4)) {
      // One byte less than the counted records have.
      drawer.length = drawer.count * RECORD_BYTES - 1;
    } else {
      drawer.count = bad_count(which, &drawer);
    }
    uint32_t die = (uint32_t)chance_below(chance, 3);
    k += print_calls(cases - k, die, &map, &drawer);
    drawer_free(&drawer);
  }
}

// The map is judged before the drawer, so the drawer is good, bad or wrongly counted.
static void print_refused_maps(struct chance *chance, uint64_t cases) {
  printf("# the map refused\n");
  uint64_t which = chance_below(chance, TABLE_REFUSALS);
  for (uint64_t k = 0; k < cases; which++) {
    struct drawer drawer = any_good_drawer(chance, 1);
    struct map map = refused_map(chance, table_refusals[which % TABLE_REFUSALS], 60);
    if (chance_one_in(chance, 4)) {
      spoil_record(chance, &drawer, 1, SPOIL_DIE_ZERO);
    } else if (chance_one_in(chance, 4)) {
      drawer.count = UINT64_MAX;
    }
    uint32_t die = (uint32_t)chance_below(chance, 3);
    // Filing and search by turns, the record of a refused map now and then.
    static const enum call turns[] = {ADD, FIND, ADD, FIND, RECORD};
    for (uint64_t call = 0; call < 2 && k < cases; call++, k++) {
      print_call(turns[k % 5], die, &map, &drawer);
    }
    drawer_free(&drawer);
  }
}

// What is wrong with a filing besides the room that there is.
enum { DIE_ZERO = 1, DIE_FILED = 2, LAYOUT_FILED = 4, EMPTY = 8, BAD_RECORD = 16 };

struct filing {
  const char *comment;
  unsigned what;
  size_t spare;
};

enum { WITH_ROOM = RECORD_BYTES, NO_ROOM = 0, NEARLY_ROOM = RECORD_BYTES - 1 };

static const struct filing filings[] = {
    {"die 0", DIE_ZERO, WITH_ROOM},
    {"die filed", DIE_FILED, WITH_ROOM},
    {"layout filed under another die and numbering", LAYOUT_FILED, WITH_ROOM},
    {"die filed and layout filed", DIE_FILED | LAYOUT_FILED, 2 * WITH_ROOM + 9},
    {"die 0 and layout filed", DIE_ZERO | LAYOUT_FILED, WITH_ROOM},
    {"no room", 0, NO_ROOM},
    {"one byte less than room", 0, NEARLY_ROOM},
    {"no room, die 0", DIE_ZERO, NO_ROOM},
    {"no room, die filed", DIE_FILED, NO_ROOM},
    {"no room, layout filed", LAYOUT_FILED, NEARLY_ROOM},
    {"no room, a bad record", BAD_RECORD, NO_ROOM},
    {"empty, no bytes at all", EMPTY, NO_ROOM},
    {"empty, one byte less than room", EMPTY, NEARLY_ROOM},
    {"empty, exactly room", EMPTY, WITH_ROOM},
    {"empty, more than room", EMPTY, WITH_ROOM + 700},
    {"exactly room", 0, WITH_ROOM},
    {"more than room", 0, 2 * WITH_ROOM + 1},
};

static void print_filing(struct chance *chance, const struct filing *filing) {
  bool empty = (filing->what & EMPTY) != 0;
  uint64_t count = empty ? 0 : 2 + chance_below(chance, 6);
  struct drawer drawer = good_drawer(chance, count, filing->spare, chance_one_in(chance, 2));
  struct map map = unfiled_map(chance, &drawer);
  uint32_t die = unfiled_die(chance, &drawer);
  uint64_t record = empty ? 0 : 1 + chance_below(chance, count);
  if ((filing->what & LAYOUT_FILED) != 0) {
    map = filed_map(chance, &drawer, record);
  }
  if ((filing->what & DIE_FILED) != 0) {
    // Another record than the one with the layout.
    die = record_die(drawer_record(&drawer, record % count + 1));
  }
  if ((filing->what & BAD_RECORD) != 0) {
    spoil_record(chance, &drawer, record, SPOIL_ZERO_BYTE);
  }
  printf("# filing: %s\n", filing->comment);
  print_call(ADD, (filing->what & DIE_ZERO) != 0 ? 0 : die, &map, &drawer);
  drawer_free(&drawer);
}

static void print_filings(struct chance *chance, uint64_t cases) {
  uint64_t which = chance_below(chance, sizeof filings / sizeof filings[0]);
  for (uint64_t k = 0; k < cases; k++) {
    print_filing(chance, &filings[(which + k) % (sizeof filings / sizeof filings[0])]);
  }
}

// A call on a full drawer, lent with a count near its own, with the last record's die and layout or new ones.
struct full_call {
  enum call call;
  uint64_t count;
  bool last_die;
  bool last_layout;
};

static const struct full_call full_calls[] = {
    {ADD, MOST_RECORDS, false, false},   {ADD, MOST_RECORDS - 1, false, false}, {ADD, MOST_RECORDS, true, false},
    {ADD, MOST_RECORDS, false, true},    {FIND, MOST_RECORDS, false, true},     {DRAWER, MOST_RECORDS + 1, false, true},
    {DRAWER, MOST_RECORDS, false, true}, {RECORD, MOST_RECORDS, false, true},   {FIND, MOST_RECORDS - 1, false, true},
};

enum { FULL_CALLS = sizeof full_calls / sizeof full_calls[0] };

// Behind the 1,024 records there are the bytes of one more, so it is not room that is lacking. After all the calls comes a
// drawer whose last record has the die of the first.
static void print_full(struct chance *chance, struct drawer *drawer, uint64_t turn) {
  struct map unfiled = unfiled_map(chance, drawer);
  struct map last = filed_map(chance, drawer, MOST_RECORDS);
  uint32_t last_die = record_die(drawer_record(drawer, MOST_RECORDS));
  uint32_t new_die = unfiled_die(chance, drawer);
  if (turn % (FULL_CALLS + 1) == FULL_CALLS) {
    put_die(drawer_record(drawer, MOST_RECORDS), record_die(drawer_record(drawer, 1)));
    print_call(DRAWER, 0, &last, drawer);
    put_die(drawer_record(drawer, MOST_RECORDS), last_die);
    return;
  }
  const struct full_call *full = &full_calls[turn % (FULL_CALLS + 1)];
  drawer->count = full->count;
  print_call(full->call, full->last_die ? last_die : new_die, full->last_layout ? &last : &unfiled, drawer);
  drawer->count = MOST_RECORDS;
}

// These lines are long, so of very many only twenty are full drawers.
static void print_fulls(struct chance *chance, uint64_t cases) {
  if (cases > 20) {
    print_filings(chance, cases - 20);
    cases = 20;
  }
  if (cases == 0) {
    return;
  }
  printf("# full drawers of 1,024 records, one more record behind them\n");
  struct drawer drawer = packed_drawer(chance, MOST_RECORDS, RECORD_BYTES);
  struct map map = unfiled_map(chance, &drawer);
  uint32_t die = unfiled_die(chance, &drawer);
  put_record(drawer_record(&drawer, MOST_RECORDS + 1), die, map_lent(&map));
  for (uint64_t k = 0; k < cases; k++) {
    print_full(chance, &drawer, k);
  }
  drawer_free(&drawer);
}

// Calls one after another from an empty drawer, each lent what the last accepted filing left.
static void print_history(struct chance *chance, uint64_t cases) {
  printf("# filings and searches one after another from an empty drawer\n");
  struct drawer drawer = good_drawer(chance, 0, 7 * RECORD_BYTES + 99, true);
  for (uint64_t k = 0; k < cases; k++) {
    struct map map = unfiled_map(chance, &drawer);
    uint32_t die = unfiled_die(chance, &drawer);
    if (drawer.count > 0 && chance_one_in(chance, 4)) {
      map = filed_map(chance, &drawer, 1 + chance_below(chance, drawer.count));
    }
    if (drawer.count > 0 && chance_one_in(chance, 6)) {
      die = record_die(drawer_record(&drawer, 1 + chance_below(chance, drawer.count)));
    }
    if (chance_one_in(chance, 4)) {
      print_call(FIND, 0, &map, &drawer);
      continue;
    }
    print_call(ADD, die, &map, &drawer);
    drawer_add(&drawer, die, &map);
  }
  drawer_free(&drawer);
}

struct drawer_group {
  uint64_t weight;
  void (*print)(struct chance *chance, uint64_t cases);
};

static const struct drawer_group drawer_groups[] = {
    {20, print_good},         {12, print_alike},   {8, print_behind_count}, {56, print_spoiled}, {20, print_bad_counts},
    {34, print_refused_maps}, {26, print_filings}, {14, print_history},     {10, print_fulls},
};

enum { DRAWER_GROUPS = sizeof drawer_groups / sizeof drawer_groups[0] };

void print_drawer_cases(struct chance *chance, uint64_t count) {
  struct shares shares = {.count = count};
  for (size_t at = 0; at < DRAWER_GROUPS; at++) {
    shares.total += drawer_groups[at].weight;
  }
  for (size_t at = 0; at < DRAWER_GROUPS; at++) {
    drawer_groups[at].print(chance, next_share(&shares, drawer_groups[at].weight));
  }
}
