// Prints cases of maps with lent outputs, and says how many cases of a mixture are of a kind.
#include "generate.h"

enum output_length any_output_length(struct chance *chance) {
  uint64_t drawn = chance_below(chance, 8);
  return drawn == 0 ? OUTPUT_SHORT : drawn < 3 ? OUTPUT_LONGER : OUTPUT_EXACT;
}

// The markers are no labels of small maps, or all bits set, or a label that a slip could leave.
static struct list any_output(struct chance *chance, size_t needed, enum output_length length) {
  static uint16_t numbers[TABLE_ROOM];
  static const uint16_t markers[] = {9, UINT16_MAX, 4660, 1, 257};
  uint16_t marker = markers[chance_below(chance, sizeof markers / sizeof markers[0])];
  size_t lent = needed;
  if (length == OUTPUT_LONGER) {
    lent += 1 + (size_t)chance_below(chance, 6);
  } else if (length == OUTPUT_SHORT && needed > 0) {
    lent = chance_one_in(chance, 6) ? 0 : needed - 1;
  }
  for (size_t at = 0; at < lent; at++) {
    numbers[at] = marker;
  }
  return (struct list){numbers, lent};
}

void print_check(const struct map *map) {
  print_case(&(struct test_case){.call = CHECK, .first = map_lent(map)});
}

// Where n or m are out of bounds, an output as long as the table looks fitting.
void print_sign(struct chance *chance, const struct map *map, enum output_length length) {
  bool sized = map->n >= 1 && map->n <= 4 && map->m <= MOST_ENTRIES;
  size_t needed = sized ? (size_t)(map->n * map->m) : map->length;
  print_case(&(struct test_case){.call = SIGN, .first = map_lent(map), .list = any_output(chance, needed, length)});
}

void print_match(struct chance *chance, const struct map *first, const struct map *second, enum output_length length) {
  size_t needed = first->m <= MOST_ENTRIES ? (size_t)first->m : first->length;
  print_case(&(struct test_case){
      .call = MATCH, .first = map_lent(first), .second = map_lent(second), .list = any_output(chance, needed, length)});
}

void print_judge(const struct map *first, const struct map *second, uint16_t *list, size_t length) {
  print_case(&(struct test_case){.call = JUDGE, .first = map_lent(first), .second = map_lent(second), .list = {list, length}});
}

uint64_t next_share(struct shares *shares, uint64_t weight) {
  uint64_t dealt = shares->count * shares->before / shares->total;
  shares->before += weight;
  return shares->count * shares->before / shares->total - dealt;
}
