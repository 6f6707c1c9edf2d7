// The match of document 01 in plain C: the first map's word from dart 1 once, then each start of
// the second map until its word differs.
#include <stdbool.h>

#include "plain_map.h"

// The word of a map that is labelled throughout.
static void write_word(const struct map *map, const struct labelling *labelling, uint16_t *word) {
  size_t n = map->n;
  for (size_t k = 0; k < map->m; k++) {
    const uint16_t *row = map->table + (labelling->queue[k] - 1) * n;
    for (size_t i = 0; i < n; i++) {
      word[k * n + i] = labelling->labels[row[i]];
    }
  }
}

// Labels from one start and says whether its word is the one wanted; left at the first number that
// differs.
static bool has_word(const struct map *map, const uint16_t *beta0, size_t start, struct labelling *labelling,
                     const uint16_t *wanted) {
  size_t n = map->n;
  visit(labelling, start);
  // The map is connected, so the queue never runs dry before all m darts are served.
  for (size_t k = 0; k < map->m; k++) {
    size_t dart = labelling->queue[k];
    visit(labelling, beta0[dart - 1]);
    for (size_t i = 0; i < n; i++) {
      if (visit(labelling, map->table[(dart - 1) * n + i]) != wanted[k * n + i]) {
        return false;
      }
    }
  }
  return true;
}

struct duftheim_verdict duftheim_match(size_t n, size_t m, const uint16_t *table, size_t table_length, size_t second_n,
                                       size_t second_m, const uint16_t *second_table, size_t second_table_length, uint16_t *out,
                                       size_t out_length) {
  struct map first = {n, m, table};
  struct map second = {second_n, second_m, second_table};
  uint16_t beta0[MOST_NUMBERS];
  struct labelling from_first;
  struct labelling from_second;
  struct duftheim_verdict verdict = judge(first, table_length, m, out_length, beta0, &from_first);
  if (verdict.number != 0) {
    return verdict;
  }
  // The first map's labelling is all that is still asked of it, so beta 0 is the second map's now.
  verdict = judge(second, second_table_length, 0, 0, beta0, &from_second);
  if (verdict.number != 0) {
    return refused(verdict.number + 20, verdict.place);
  }
  if (n != second_n || m != second_m) {
    return refused(10, 0);
  }
  uint16_t word[MOST_NUMBERS];
  write_word(&first, &from_first, word);
  for (size_t start = 1; start <= m; start++) {
    forget(&from_second);
    if (has_word(&second, beta0, start, &from_second, word)) {
      for (size_t k = 0; k < m; k++) {
        out[from_first.queue[k] - 1] = from_second.queue[k];
      }
      return accepted();
    }
  }
  return refused(10, 0);
}
