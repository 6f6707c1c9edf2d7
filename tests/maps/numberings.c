// Renumbered maps: by chance, and by the words of the starts.
#include "numberings.h"

#include <stdlib.h>

#include "../second/second_inside.h"

void shuffled_names(struct chance *chance, uint64_t m, uint16_t *to) {
  for (uint64_t d = 1; d <= m; d++) {
    to[d - 1] = (uint16_t)d;
  }
  for (uint64_t left = m; left > 1; left--) {
    uint64_t drawn = chance_below(chance, left);
    uint16_t name = to[drawn];
    to[drawn] = to[left - 1];
    to[left - 1] = name;
  }
}

struct map map_renamed(const struct map *map, const uint16_t *to) {
  struct map renamed = map_empty(map->n, map->m);
  for (uint64_t d = 1; d <= map->m; d++) {
    for (uint64_t i = 1; i <= map->n; i++) {
      uint64_t e = beta(map, i, d);
      set_beta(&renamed, i, to[d - 1], e == 0 ? 0 : to[e - 1]);
    }
  }
  return renamed;
}

struct map map_shuffled(struct chance *chance, const struct map *map) {
  uint16_t to[TABLE_ROOM];
  shuffled_names(chance, map->m, to);
  return map_renamed(map, to);
}

struct map map_inserted(struct chance *chance, const struct map *map) {
  uint16_t to[TABLE_ROOM];
  for (uint64_t d = 0; d < map->m; d++) {
    uint64_t earlier = chance_below(chance, d + 1);
    to[d] = to[earlier];
    to[earlier] = (uint16_t)(d + 1);
  }
  return map_renamed(map, to);
}

// ---- Words ----

static void meet(struct map_order *order, uint64_t dart) {
  if (dart != 0 && order->labels[dart] == 0) {
    order->darts[order->length] = (uint16_t)dart;
    order->labels[dart] = (uint16_t)++order->length;
  }
}

void order_from(const struct map *map, uint64_t start, struct map_order *order) {
  uint16_t before[MOST_ENTRIES + 1] = {0};
  for (uint64_t d = 1; d <= map->m; d++) {
    before[beta(map, 1, d)] = (uint16_t)d;
  }
  *order = (struct map_order){.length = 0};
  meet(order, start);
  for (size_t k = 0; k < order->length; k++) {
    meet(order, before[order->darts[k]]);
    for (uint64_t i = 1; i <= map->n; i++) {
      meet(order, beta(map, i, order->darts[k]));
    }
  }
}

// ---- Numberings by words ----

struct start {
  uint16_t dart;
  size_t length;
  uint16_t word[MOST_ENTRIES];
};

static struct start starts[MOST_ENTRIES];

static int compare_words(const struct start *one, const struct start *other) {
  return second_compare_words(one->word, other->word, one->length);
}

static int compare_starts(const void *one, const void *other) {
  const struct start *left = one;
  const struct start *right = other;
  int order = compare_words(left, right);
  return order != 0 ? order : left->dart - right->dart;
}

static void sort_starts(const struct map *map) {
  for (uint64_t d = 1; d <= map->m; d++) {
    starts[d - 1].dart = (uint16_t)d;
    starts[d - 1].length = map->length;
    second_word(map_lent(map), d, starts[d - 1].word);
  }
  qsort(starts, (size_t)map->m, sizeof starts[0], compare_starts);
}

// The new names, which are given out one by one.
struct names {
  uint16_t given;
  uint16_t to[TABLE_ROOM];
};

// To the sorted starts from one place to before another.
static void give(struct names *names, size_t first, size_t end) {
  for (size_t at = first; at < end; at++) {
    names->to[starts[at].dart - 1] = ++names->given;
  }
}

// Where the starts begin that have the word of the one before `end`.
static size_t first_alike(size_t end) {
  size_t first = end - 1;
  while (first > 0 && compare_words(&starts[first - 1], &starts[end - 1]) == 0) {
    first--;
  }
  return first;
}

static void give_greatest_first(struct names *names, size_t m) {
  for (size_t end = m; end > 0; end = first_alike(end)) {
    give(names, first_alike(end), end);
  }
}

static void give_by_turns(struct names *names, size_t m) {
  for (size_t turn = 0; names->given < m; turn++) {
    for (size_t end = m; end > 0; end = first_alike(end)) {
      size_t at = first_alike(end) + turn;
      give(names, at, at < end ? at + 1 : at);
    }
  }
}

// Words fall, so that the first start of each is less than all before it. The others of a word come once the next lesser word
// is the best: that one goes farthest along with theirs, and none of them ties.
static void give_longest_runs(struct names *names, size_t m) {
  size_t end = m;
  size_t first = first_alike(end);
  give(names, first, first + 1);
  while (first > 0) {
    size_t next = first_alike(first);
    give(names, next, next + 1);
    give(names, first + 1, end);
    end = first;
    first = next;
  }
  give(names, first + 1, end);
}

struct map map_numbered(const struct map *map, enum numbering numbering) {
  struct names names = {0};
  size_t m = (size_t)map->m;
  sort_starts(map);
  switch (numbering) {
  case GREATEST_FIRST:
    give_greatest_first(&names, m);
    break;
  case BY_TURNS:
    give_by_turns(&names, m);
    break;
  case LONGEST_RUNS:
    give_longest_runs(&names, m);
    break;
  default:
    give(&names, 0, m);
  }
  return map_renamed(map, names.to);
}
