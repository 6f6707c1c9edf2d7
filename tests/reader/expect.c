// Counting, outputs and numberings for the programs that ask the library.
#include "expect.h"

#include <inttypes.h>
#include <string.h>

// ---- Counting ----

// One fault fails many promises, and the first few tell what it is.
enum { MOST_SHOWN = 20 };

static uint64_t cases;
static uint64_t passed;
static uint64_t failed;

void count_case(void) {
  cases++;
}

uint64_t cases_counted(void) {
  return cases;
}

void expect(bool holds, struct second_map map, const char *what) {
  if (holds) {
    passed++;
    return;
  }
  failed++;
  if (failed <= MOST_SHOWN) {
    printf("FAILED case %" PRIu64 ", n %" PRIu64 ", m %" PRIu64 ": %s\n", cases, map.n, map.m, what);
  }
}

int finish(void) {
  printf("%" PRIu64 " passed, %" PRIu64 " failed\n", passed, failed);
  return failed == 0 ? 0 : 1;
}

void count_given(struct given *given, unsigned number) {
  if (number <= MOST_NUMBER) {
    given->times[number]++;
  }
}

bool all_given(const char *call, const struct given *given, const char *wanted) {
  bool all = true;
  printf("%s:", call);
  for (size_t number = 0; number <= MOST_NUMBER; number++) {
    if (given->times[number] > 0) {
      printf(" %zu:%" PRIu64, number, given->times[number]);
    } else if (number < strlen(wanted) && wanted[number] == 'x') {
      printf(" (FAILED: no %zu)", number);
      all = false;
    }
  }
  printf("\n");
  return all;
}

// ---- Outputs ----

bool same_numbers(const uint16_t *one, const uint16_t *other, size_t length) {
  return memcmp(one, other, length * sizeof one[0]) == 0;
}

void leave_untouched(uint16_t *numbers, size_t length) {
  for (size_t at = 0; at < length; at++) {
    numbers[at] = UNTOUCHED;
  }
}

bool all_untouched(const uint16_t *numbers, size_t length) {
  for (size_t at = 0; at < length; at++) {
    if (numbers[at] != UNTOUCHED) {
      return false;
    }
  }
  return true;
}

// ---- Other numberings ----

static struct chance chance = {.state = 20000329};

uint64_t drawn_below(uint64_t bound) {
  return chance_below(&chance, bound);
}

struct map renumbered(struct second_map map, uint16_t names[TABLE_ROOM]) {
  struct map copy = map_empty(map.n, map.m);
  memcpy(copy.table, map.table, map.length * sizeof copy.table[0]);
  shuffled_names(&chance, map.m, names);
  return map_renamed(&copy, names);
}
