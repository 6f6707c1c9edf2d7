// An example of the camera's program. It signs a die, files three, finds one that lies otherwise and
// shows which dart is which, is told "not found" for a fourth, and shows two refusals.
#include <stdbool.h>
#include <stdio.h>

#include "display.h"
#include "duftheim.h"

enum { MOST_NUMBERS = 1020, RECORDS = 4 };

struct layout {
  size_t n;
  size_t m;
  uint16_t table[MOST_NUMBERS];
};

// A row for each dart: what it is 1-sewn to and 2-sewn to, 0 for nothing.
static const struct layout two_panels = {2, 7, {2, 0, 3, 0, 4, 5, 1, 0, 6, 3, 7, 0, 5, 0}};
static const struct layout two_squares = {
    2, 8, {2, 0, 3, 5, 4, 0, 1, 0, 6, 2, 7, 0, 8, 0, 5, 0}};
// Of a plain outline each dart is 1-sewn alone.
static const struct layout rectangle = {1, 4, {2, 3, 4, 1}};

// The drawer is the camera's own memory. Its count is kept beside it.
static uint8_t drawer[RECORDS * DUFTHEIM_RECORD_SIZE];
static size_t count = 0;

static size_t numbers_of(const struct layout *layout) { return layout->n * layout->m; }

static void print_rows(const char *name, const struct layout *layout, const uint16_t *numbers) {
  printf("  %-11s", name);
  for (size_t at = 0; at < numbers_of(layout); at++) {
    printf("%s%d", at % layout->n == 0 ? "  " : " ", numbers[at]);
  }
  printf("\n");
}

static void print_refusal(uint32_t number, size_t place, size_t n) {
  printf("  refused      ");
  display_refusal(stdout, number, place, n);
}

static bool show_signature(const char *title, const struct layout *layout) {
  uint16_t word[MOST_NUMBERS];
  struct duftheim_signed answer = duftheim_signature(
      layout->n, layout->m, layout->table, numbers_of(layout), word, numbers_of(layout));
  printf("%s\n", title);
  print_rows("table", layout, layout->table);
  if (answer.number != DUFTHEIM_ACCEPTED) {
    print_refusal(answer.number, answer.place, layout->n);
    return false;
  }
  print_rows("signature", layout, word);
  printf("  start        %zu, the least dart from which it can be read\n", answer.start);
  printf("  symmetries   %zu, the number of darts from which it can be read\n", answer.symmetries);
  return true;
}

// A refused filing writes nothing, and the count that was there still holds.
static bool show_filing(const char *title, uint32_t die, const struct layout *layout) {
  struct duftheim_filed answer = duftheim_file(die, layout->n, layout->m, layout->table,
                                               numbers_of(layout), count, drawer, sizeof drawer);
  printf("%s\n", title);
  if (answer.number != DUFTHEIM_ACCEPTED) {
    print_refusal(answer.number, answer.place, layout->n);
    return false;
  }
  count = answer.count;
  printf("  filed        die %u, record %zu\n", (unsigned)die, count);
  return true;
}

// The die that has the layout, or 0.
static uint32_t show_search(const char *title, const struct layout *layout) {
  struct duftheim_found answer = duftheim_search(layout->n, layout->m, layout->table,
                                                 numbers_of(layout), count, drawer, sizeof drawer);
  printf("%s\n", title);
  print_rows("table", layout, layout->table);
  if (answer.number == DUFTHEIM_NOT_FOUND) {
    printf("  not found\n");
  } else if (answer.number != DUFTHEIM_ACCEPTED) {
    print_refusal(answer.number, answer.place, layout->n);
  } else {
    const uint8_t *record = duftheim_record_bytes(drawer, answer.record);
    printf("  found        die %u, record %zu, whose n is %d and m %d\n", (unsigned)answer.die,
           answer.record, record[4], record[6] + 256 * record[7]);
  }
  return answer.die;
}

static bool show_match(const char *title, const struct layout *first, const struct layout *second) {
  uint16_t image[MOST_NUMBERS];
  struct duftheim_verdict answer =
      duftheim_match(first->n, first->m, first->table, numbers_of(first), second->n, second->m,
                     second->table, numbers_of(second), image, first->m);
  printf("%s\n", title);
  if (answer.number != DUFTHEIM_ACCEPTED) {
    size_t n = answer.number > DUFTHEIM_OF_SECOND ? second->n : first->n;
    print_refusal(answer.number, answer.place, n);
    return false;
  }
  printf("  matching   ");
  for (size_t dart = 1; dart <= first->m; dart++) {
    printf("  %zu is %d", dart, image[dart - 1]);
  }
  printf("\n");
  return true;
}

// The two panels with other names for their darts: dart d is called names[d]. Nothing stays nothing.
static struct layout renumbered_panels(void) {
  static const uint16_t names[] = {0, 4, 7, 1, 6, 3, 2, 5};
  struct layout renumbered = {two_panels.n, two_panels.m, {0}};
  for (size_t dart = 1; dart <= two_panels.m; dart++) {
    for (size_t i = 0; i < two_panels.n; i++) {
      uint16_t sewn = two_panels.table[(dart - 1) * two_panels.n + i];
      renumbered.table[(size_t)(names[dart] - 1) * two_panels.n + i] = names[sewn];
    }
  }
  return renumbered;
}

int main(void) {
  bool right = show_signature("Die 501: what each dart is 1-sewn and 2-sewn to", &two_panels);

  right &= show_filing("Filing die 501", 501, &two_panels);
  right &= show_filing("Filing die 502, two squares on a crease", 502, &two_squares);
  right &= show_filing("Filing die 503, a plain rectangle", 503, &rectangle);

  struct layout renumbered = renumbered_panels();
  right &= show_search("A die under the camera", &renumbered) == 501;
  right &= show_match("Which dart of die 501 is which of these", &two_panels, &renumbered);

  // A layout of its own, however near: dart 7 is 1-sewn to nothing.
  struct layout open_panels = two_panels;
  open_panels.table[(7 - 1) * 2] = 0;
  right &= show_search("Another die, open at dart 7", &open_panels) == 0;

  // Dart 3 is still 2-sewn to dart 5, but dart 5 is now 2-sewn to nothing.
  struct layout missed = two_panels;
  missed.table[(5 - 1) * 2 + 1] = 0;
  right &= !show_signature("Die 501 with a sewing missed", &missed);
  right &= !show_filing("Filing the die under the camera as 504", 504, &renumbered);
  return right && count == 3 ? 0 : 1;
}
