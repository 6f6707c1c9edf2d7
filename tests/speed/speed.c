// Makes one call ROUNDS times and prints a checksum of all answers and outputs: speed CALL KIND ROUNDS for sign, twin and
// stranger, whose calls are for each map or pair of a kind; speed CALL DRAWER COUNT ROUNDS for check, last, none and file, on so
// many records of a drawer's file. It is linked once with plain C and once with the library.
//
// With --list it prints what there is to measure: part, kind, n, darts and number of maps or pairs. With --cases and drawers it
// prints all of that, and the checks of the drawers, in the form of CASES.md.
#include <stdio.h>
#include <stdlib.h>
#include <string.h>

#include "../../include/duftheim.h"
#include "../cases/cases.h"
#include "drawers.h"
#include "pairs.h"

// What is lent, made before the first round. The output is the same at every call and is never cleared.
static struct {
  size_t n;
  size_t m;
  uint16_t tables[MOST_MAPS_OF_A_KIND][MOST_ENTRIES];
  uint16_t second_tables[MOST_MAPS_OF_A_KIND][MOST_ENTRIES];
  uint16_t out[MOST_ENTRIES];
  uint32_t die;
  size_t count;
  size_t drawer_length;
  uint8_t drawer[DRAWER_FILE_BYTES];
} lent;

// What the last call answered, 0 where it has fewer numbers.
static uint64_t number, place, third, fourth;

// ---- The calls ----

static void answered(struct duftheim_verdict verdict, uint64_t more, uint64_t yet_more) {
  number = verdict.number;
  place = verdict.place;
  third = more;
  fourth = yet_more;
}

static void sign(size_t which) {
  size_t length = lent.n * lent.m;
  struct duftheim_signed answer = duftheim_signature(lent.n, lent.m, lent.tables[which], length, lent.out, length);
  answered((struct duftheim_verdict){answer.number, answer.place}, answer.start, answer.symmetries);
}

static void match(size_t which) {
  size_t length = lent.n * lent.m;
  answered(duftheim_match(lent.n, lent.m, lent.tables[which], length, lent.n, lent.m, lent.second_tables[which], length, lent.out,
                          lent.m),
           0, 0);
}

static void check(size_t which) {
  (void)which;
  answered(duftheim_drawer_check(lent.count, lent.drawer, lent.drawer_length), 0, 0);
}

static void search(size_t which) {
  struct duftheim_found answer =
      duftheim_search(lent.n, lent.m, lent.tables[which], lent.n * lent.m, lent.count, lent.drawer, lent.drawer_length);
  answered((struct duftheim_verdict){answer.number, answer.place}, answer.die, answer.record);
}

static void file(size_t which) {
  struct duftheim_filed answer =
      duftheim_file(lent.die, lent.n, lent.m, lent.tables[which], lent.n * lent.m, lent.count, lent.drawer, lent.drawer_length);
  answered((struct duftheim_verdict){answer.number, answer.place}, answer.count, 0);
}

static const struct named_call {
  const char *name;
  void (*make)(size_t which);
  // A call that is answered otherwise would measure something else.
  uint64_t meant;
  bool on_drawer;
  // Which record's layout is looked for or filed: the last of those lent, or the one behind it.
  size_t behind;
} calls[] = {
    {"sign", sign, 0, false, 0},
    {"twin", match, 0, false, 0},
    {"stranger", match, 10, false, 0},
    {"check", check, 0, true, 0},
    {"last", search, 0, true, 0},
    {"none", search, 15, true, 1},
    {"file", file, 0, true, 1},
};

static const struct named_call *call_named(const char *name) {
  for (size_t at = 0; at < sizeof calls / sizeof calls[0]; at++) {
    if (strcmp(calls[at].name, name) == 0) {
      return &calls[at];
    }
  }
  return NULL;
}

// ---- Maps and pairs ----

// Fills what the call is made for and says how many there are; 0 where the kind has none.
static size_t lend_maps(const char *call, const struct map_kind *kind) {
  const struct pair_kind *pair = pair_kind_named(kind->name);
  bool alone = strcmp(call, "sign") == 0;
  size_t count = alone ? kind->maps : pair == NULL ? 0 : pair->pairs;
  lent.n = kind->n;
  lent.m = kind->m;
  for (size_t which = 0; which < count; which++) {
    struct map first = kind_map(kind, which);
    struct map second = map_empty(kind->n, kind->m);
    if (!alone) {
      make_pair(pair, which, strcmp(call, "twin") == 0 ? PAIR_TWIN : PAIR_STRANGER, &first, &second);
    }
    memcpy(lent.tables[which], first.table, first.length * sizeof first.table[0]);
    memcpy(lent.second_tables[which], second.table, second.length * sizeof second.table[0]);
  }
  return count;
}

static void list_kinds(void) {
  static const char *const parts[] = {[PART_SHAPES] = "shapes", [PART_SMALL] = "small", [PART_GROWTH] = "growth"};
  for (size_t at = 0; at < map_kind_count; at++) {
    const struct map_kind *kind = &map_kinds[at];
    printf("%s %s %zu %zu %zu\n", parts[kind->part], kind->name, kind->n, kind->m, kind->maps);
  }
  for (size_t at = 0; at < pair_kind_count; at++) {
    const struct map_kind *kind = map_kind_named(pair_kinds[at].map_kind);
    printf("pairs %s %zu %zu %zu\n", kind->name, kind->n, kind->m, pair_kinds[at].pairs);
  }
}

static void print_cases(const char *call, const struct map_kind *kind) {
  size_t count = lend_maps(call, kind);
  size_t length = kind->n * kind->m;
  for (size_t which = 0; which < count; which++) {
    struct test_case made = {.call = strcmp(call, "sign") == 0 ? SIGN : MATCH,
                             .first = {kind->n, kind->m, lent.tables[which], length},
                             .second = {kind->n, kind->m, lent.second_tables[which], length},
                             .list = {lent.out, length}};
    print_case(&made);
  }
}

// ---- Drawers ----

// How many records the file has; 0 where there is none.
static size_t read_drawer(const char *file_name) {
  FILE *file = fopen(file_name, "rb");
  if (file == NULL) {
    return 0;
  }
  lent.drawer_length = fread(lent.drawer, 1, sizeof lent.drawer, file);
  fclose(file);
  return lent.drawer_length / RECORD_BYTES;
}

// The layout goes under other dart numbers than the record has.
static void lend_drawer(const struct named_call *call, size_t count) {
  const uint8_t *record = record_at(lent.drawer, count + call->behind);
  struct map filed = record_map(record);
  struct chance chance = {count};
  struct map map = map_inserted(&chance, &filed);
  lent.die = record_die(record);
  lent.n = (size_t)map.n;
  lent.m = (size_t)map.m;
  memcpy(lent.tables[0], map.table, map.length * sizeof map.table[0]);
  // Room for one record more, which filing writes; no drawer has more than 1,024.
  lent.count = count;
  lent.drawer_length = (count + 1 < DRAWER_FILE_RECORDS ? count + 1 : count) * RECORD_BYTES;
}

// All records but the last are counted; that one is behind the drawer.
static bool print_drawer_case(const char *file_name) {
  size_t records = read_drawer(file_name);
  struct test_case made = {.call = DRAWER, .count = records - 1, .drawer = {lent.drawer, lent.drawer_length}};
  if (records >= 2) {
    print_case(&made);
  }
  return records >= 2;
}

// ---- Rounds ----

static uint64_t folded(uint64_t sum, uint64_t more) {
  return (sum ^ more) * 0x100000001b3u;
}

// Some ten instructions beside the call.
static uint64_t folded_answer(uint64_t sum) {
  return folded(folded(folded(folded(sum, number), place), third), fourth);
}

static bool is_meant(const struct named_call *call, const uint8_t *behind) {
  bool found = strcmp(call->name, "last") != 0 || (third == lent.die && fourth == lent.count);
  bool filed = strcmp(call->name, "file") != 0 ||
               (third == lent.count + 1 && memcmp(record_at(lent.drawer, lent.count + 1), behind, RECORD_BYTES) == 0);
  return number == call->meant && place == 0 && found && filed;
}

// Sixteen digits by hand, since the instructions of printf depend on the number printed.
static void print_checksum(uint64_t sum) {
  char line[17];
  for (size_t at = 0; at < 16; at++) {
    line[at] = "0123456789abcdef"[sum >> 60];
    sum <<= 4;
  }
  line[16] = '\n';
  fwrite(line, 1, sizeof line, stdout);
}

static int make_calls(const struct named_call *call, size_t count, unsigned long rounds) {
  uint8_t behind[RECORD_BYTES];
  uint64_t sum = 0;
  memcpy(behind, record_at(lent.drawer, lent.count + 1), RECORD_BYTES);
  // So that a record filed there shows, and its zeros too.
  memset(record_at(lent.drawer, lent.count + 1), 0xa5, RECORD_BYTES);
  for (unsigned long round = 0; round < rounds; round++) {
    for (size_t which = 0; which < count; which++) {
      call->make(which);
      sum = folded_answer(sum);
    }
  }
  // Once more with all that is written. That costs the same after any number of rounds, so it is gone from a difference of two
  // runs.
  for (size_t which = 0; which < count; which++) {
    call->make(which);
    if (!is_meant(call, behind)) {
      printf("%s is answered with %u at %u\n", call->name, (unsigned)number, (unsigned)place);
      return 1;
    }
    sum = folded_answer(sum);
    for (size_t at = 0; at < MOST_ENTRIES; at++) {
      sum = folded(sum, lent.out[at]);
    }
  }
  for (size_t at = 0; call->on_drawer && at < sizeof lent.drawer; at++) {
    sum = folded(sum, lent.drawer[at]);
  }
  print_checksum(sum);
  return 0;
}

// ---- The program ----

static int complain(void) {
  fprintf(stderr, "usage: speed sign|twin|stranger KIND ROUNDS, or speed check|last|none|file DRAWER COUNT ROUNDS,\n"
                  "or speed --list, or speed --cases [DRAWER..]\n");
  return 2;
}

static int print_all_cases(int drawers, char **file_names) {
  for (size_t at = 0; at < map_kind_count; at++) {
    print_cases("sign", &map_kinds[at]);
  }
  for (size_t at = 0; at < pair_kind_count; at++) {
    print_cases("twin", map_kind_named(pair_kinds[at].map_kind));
    print_cases("stranger", map_kind_named(pair_kinds[at].map_kind));
  }
  for (int at = 0; at < drawers; at++) {
    if (!print_drawer_case(file_names[at])) {
      return complain();
    }
  }
  return 0;
}

int main(int argc, char **argv) {
  if (argc == 2 && strcmp(argv[1], "--list") == 0) {
    list_kinds();
    return 0;
  }
  if (argc >= 2 && strcmp(argv[1], "--cases") == 0) {
    return print_all_cases(argc - 2, argv + 2);
  }
  const struct named_call *call = argc < 4 ? NULL : call_named(argv[1]);
  if (call == NULL || argc != (call->on_drawer ? 5 : 4)) {
    return complain();
  }
  unsigned long rounds = strtoul(argv[argc - 1], NULL, 10);
  const struct map_kind *kind = map_kind_named(argv[2]);
  size_t calls_a_round = 1;
  if (call->on_drawer) {
    // The file has the records lent and at least one more.
    size_t count = strtoul(argv[3], NULL, 10);
    if (count == 0 || count >= read_drawer(argv[2])) {
      return complain();
    }
    lend_drawer(call, count);
  } else {
    calls_a_round = kind == NULL ? 0 : lend_maps(argv[1], kind);
  }
  return calls_a_round == 0 || rounds == 0 ? complain() : make_calls(call, calls_a_round, rounds);
}
