// Prints small and random cases of all seven calls in the form of CASES.md, as many as asked: inputs COUNT SEED. They are nearer to
// what is right, and to what is not, than the generator's, and there is no end of them.
#include <stdio.h>
#include <stdlib.h>
#include <string.h>

#include "../maps/changes.h"
#include "../maps/families.h"
#include "../maps/numberings.h"
#include "../second/generate_drawers.h"

enum { FEW_RECORDS = 6, DRAWER_ROOM = (FEW_RECORDS + 2) * RECORD_BYTES };

static struct chance chance;

static uint64_t below(uint64_t bound) {
  return chance_below(&chance, bound);
}

static bool one_in(uint64_t times) {
  return chance_one_in(&chance, times);
}

// What a call is asked. The numbers are the list, or the output before the call.
static struct {
  enum call call;
  struct map first;
  struct map second;
  uint16_t numbers[TABLE_ROOM];
  size_t length;
  struct drawer drawer;
  uint32_t die;
} input;

// ---- Maps ----

// Few are large, since those take long.
static struct map right_map(void) {
  uint64_t n = 1 + below(4);
  if (one_in(3000)) {
    return accepted_map(&chance, n, MOST_ENTRIES / n);
  }
  return one_in(100) ? any_accepted_map(&chance, MOST_ENTRIES) : accepted_map(&chance, n, 1 + below(7));
}

static struct map nearly_right_map(void) {
  struct map map = right_map();
  size_t at = (size_t)below(map.length);
  map.table[at] = (uint16_t)below(map.m + 2);
  return map;
}

// A number of any size, small ones as likely as large ones.
static uint64_t any_number(void) {
  uint64_t number = chance_next(&chance);
  return number >> below(64);
}

// Any n, few darts, a number now and then too large, and a length near the right one.
static struct map blind_map(void) {
  uint64_t n = below(6);
  struct map map = map_empty(n, below(6));
  if (one_in(16)) {
    map.m = any_number();
  } else if (one_in(16)) {
    map.n = any_number();
  }
  uint64_t most = (map.m & UINT16_MAX) + (one_in(6) ? 1 : 0);
  if (one_in(8)) {
    map.length = (size_t)below(map.length + 3);
  }
  for (size_t at = 0; at < map.length; at++) {
    map.table[at] = one_in(2) ? 0 : (uint16_t)below(most + 1);
  }
  return map;
}

// The largest size, one dart less or one more. Those accepted take long, so most have a fault.
static struct map largest_map(void) {
  uint64_t n = 1 + below(4);
  struct map map = map_empty(n, MOST_ENTRIES / n - 1 + below(3));
  for (uint64_t dart = 1; dart < map.m; dart++) {
    map.table[(dart - 1) * n] = (uint16_t)(dart + 1);
  }
  if (!one_in(16)) {
    size_t at = (size_t)below(map.length);
    map.table[at] = (uint16_t)below(map.m + 2);
  }
  if (one_in(8)) {
    map.length += one_in(2) ? 1 : -1;
  }
  return map;
}

static struct map any_map(void) {
  uint64_t way = below(16);
  if (way < 3) {
    return blind_map();
  }
  if (way < 6) {
    return nearly_right_map();
  }
  if (way < 8) {
    return refused_map(&chance, table_refusals[below(TABLE_REFUSALS)], 24);
  }
  if (way == 8) {
    return one_in(8) ? largest_map() : twice_refused_map(&chance, 24);
  }
  return right_map();
}

// ---- Lists and outputs ----

// Often the first map under the names of the list, or near it, where that has a meaning.
static struct map any_second_map(void) {
  struct map near = input.first;
  uint64_t way = below(8);
  if (way < 2 || map_refusal(&near) != 0) {
    return any_map();
  }
  if (way == 2) {
    return one_in(2) ? near : accepted_map(&chance, near.n, near.m);
  }
  struct map changed;
  if ((way == 3 && map_mirrored(&near, &changed)) || (way == 4 && map_less_one_sewing(&chance, &near, &changed)) ||
      (way == 5 && map_with_loose_end_turned(&chance, &near, &changed))) {
    near = changed;
  }
  return map_renamed(&near, input.numbers);
}

// A list of m different darts, or a few numbers where m is out of bounds.
static void draw_list(void) {
  input.length = (size_t)(input.first.m <= MOST_ENTRIES ? input.first.m : below(8));
  shuffled_names(&chance, input.length, input.numbers);
}

static void spoil_list(void) {
  size_t one = (size_t)below(input.length + 1);
  size_t other = (size_t)below(input.length + 1);
  uint16_t number = input.numbers[one];
  uint64_t way = below(8);
  if (way == 0) {
    input.numbers[one] = input.numbers[other];
    input.numbers[other] = number;
  } else if (way == 1) {
    input.numbers[one] = (uint16_t)below(input.length + 2);
  } else if (way == 2) {
    input.length = one;
  } else if (way == 3) {
    input.length++;
  }
}

// Half of the outputs are as long as they need be.
static void draw_output(size_t needed) {
  const size_t others[] = {needed + 1, needed + (size_t)below(9), needed - (needed != 0), (size_t)below(needed + 1)};
  input.length = one_in(2) ? needed : others[below(4)];
  uint16_t mark = (uint16_t)chance_next(&chance);
  for (size_t at = 0; at < input.length; at++) {
    input.numbers[at] = (uint16_t)(mark + at);
  }
}

static void draw_numbers(void) {
  const struct map *map = &input.first;
  input.length = 0;
  if (input.call == MATCH || input.call == JUDGE) {
    draw_list();
    input.second = any_second_map();
  }
  if (input.call == JUDGE) {
    spoil_list();
  } else if (input.call == MATCH) {
    draw_output(map->m <= MOST_ENTRIES ? (size_t)map->m : map->length);
  } else if (input.call == SIGN) {
    draw_output(map->length);
  }
}

// ---- Drawers ----

static uint32_t any_die(const struct drawer *drawer) {
  if (one_in(8)) {
    return 0;
  }
  if (drawer->count > 0 && one_in(5)) {
    return record_die(drawer_record(drawer, 1 + below(drawer->count)));
  }
  return (uint32_t)any_number();
}

// Layouts and dies drawn twice are refused, so there may be fewer records than room for them.
static struct drawer small_drawer(void) {
  const size_t spares[] = {0, 1, RECORD_BYTES - 1, RECORD_BYTES, (size_t)below(2 * RECORD_BYTES)};
  uint64_t records = below(FEW_RECORDS + 1);
  size_t spare = spares[below(sizeof spares / sizeof spares[0])];
  struct drawer drawer = good_drawer(&chance, 0, records * RECORD_BYTES + spare, one_in(2));
  while (records-- > 0) {
    struct map map = right_map();
    uint32_t die = any_die(&drawer);
    struct second_filed filed = second_add(die, map_lent(&map), drawer.count, drawer.bytes, drawer.length);
    drawer.count += filed.number == 0;
  }
  return drawer;
}

static void spoil_drawer(struct drawer *drawer) {
  size_t filled = drawer->count * RECORD_BYTES;
  uint64_t way = below(10);
  if (way == 0) {
    drawer->count = bad_count(below(BAD_COUNTS), drawer);
  } else if (way == 1) {
    drawer->count = one_in(2) ? any_number() : below(FEW_RECORDS + 3);
  } else if (way == 2) {
    drawer->length = (size_t)below(drawer->length + 1);
  } else if (filled != 0 && way == 3) {
    drawer->length = filled - (size_t)below(2);
  } else if (filled != 0 && way == 4) {
    size_t at = (size_t)below(filled);
    drawer->bytes[at] = (uint8_t)chance_next(&chance);
  } else if (filled != 0 && way == 5) {
    uint64_t record = 1 + below(drawer->count);
    spoil_record(&chance, drawer, record, (enum spoil)below(SPOIL_COUNT));
  }
}

// One drawer serves some inputs, since it is long to make.
static void draw_drawer(void) {
  static uint8_t bytes[DRAWER_ROOM];
  static struct drawer good;
  input.drawer = (struct drawer){.bytes = bytes};
  if (input.call < DRAWER) {
    return;
  }
  if (good.bytes == NULL || one_in(8)) {
    drawer_free(&good);
    good = small_drawer();
  }
  input.drawer.count = good.count;
  input.drawer.length = good.length;
  memcpy(bytes, good.bytes, good.length);
  input.die = any_die(&good);
  if (good.count > 0 && one_in(4)) {
    input.first = filed_map(&chance, &good, 1 + below(good.count));
  }
  spoil_drawer(&input.drawer);
}

// ---- All inputs ----

// The record's own bytes are the header's and no call of the library.
enum { ASKED_CALLS = RECORD };

static void print_input(enum call call) {
  input.call = call;
  input.first = call >= MATCH && one_in(2) ? right_map() : any_map();
  draw_numbers();
  draw_drawer();
  struct test_case asked = {.call = call,
                            .die = input.die,
                            .first = map_lent(&input.first),
                            .second = map_lent(&input.second),
                            .list = {input.numbers, input.length},
                            .count = input.drawer.count,
                            .drawer = {input.drawer.bytes, input.drawer.length}};
  print_case(&asked);
}

static bool read_number(const char *text, uint64_t *number) {
  char *end;
  *number = strtoull(text, &end, 10);
  return *text != '\0' && *end == '\0';
}

int main(int argc, char **argv) {
  uint64_t inputs;
  if (argc != 3 || !read_number(argv[1], &inputs) || !read_number(argv[2], &chance.state)) {
    fprintf(stderr, "usage: inputs COUNT SEED, both numbers\n");
    return 2;
  }
  for (uint64_t at = 0; at < inputs; at++) {
    print_input((enum call)(at % ASKED_CALLS));
  }
  return fflush(stdout) == 0 ? 0 : 1;
}
