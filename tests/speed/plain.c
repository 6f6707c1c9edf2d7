// The signature of document 01 by the library's own algorithm, as C programs usually have it.
#include "plain_first_row.h"
#include "plain_orbits.h"

enum order { LESSER, EQUAL, GREATER };

// Labels from one start and compares its first rows with the best ones, number by number. Greater
// rows are given up at once; lesser ones take the best ones' place from the number where they part.
static enum order compare_from(const struct map *map, const uint16_t *beta0, size_t start, struct labelling *labelling,
                               uint16_t *best, size_t rows) {
  enum order order = EQUAL;
  size_t n = map->n;
  visit(labelling, start);
  // The map is connected, so the queue never runs dry before all m darts are served.
  for (size_t k = 0; k < rows; k++) {
    size_t dart = labelling->queue[k];
    visit(labelling, beta0[dart - 1]);
    for (size_t i = 0; i < n; i++) {
      size_t label = visit(labelling, map->table[(dart - 1) * n + i]);
      size_t known = best[k * n + i];
      if (label == known) {
        continue;
      }
      if (order == EQUAL && label > known) {
        return GREATER;
      }
      order = LESSER;
      best[k * n + i] = (uint16_t)label;
    }
  }
  return order;
}

// Labels from one start and writes its word.
static void write_from(const struct map *map, const uint16_t *beta0, size_t start, struct labelling *labelling, uint16_t *word) {
  size_t n = map->n;
  visit(labelling, start);
  for (size_t k = 0; k < map->m; k++) {
    size_t dart = labelling->queue[k];
    visit(labelling, beta0[dart - 1]);
    for (size_t i = 0; i < n; i++) {
      word[k * n + i] = (uint16_t)visit(labelling, map->table[(dart - 1) * n + i]);
    }
  }
}

// The rank of each start.
struct ranks {
  size_t least;
  uint8_t of[MOST_NUMBERS + 1];
};

static void find_ranks(const struct map *map, const uint16_t *beta0, struct ranks *ranks) {
  size_t least = SIZE_MAX;
  for (size_t start = 1; start <= map->m; start++) {
    size_t found = rank(map, beta0, start);
    ranks->of[start] = (uint8_t)found;
    least = found < least ? found : least;
  }
  ranks->least = least;
}

// The signature under way: the first rows of the best word, its least start and, once all rows are
// known, that one's queue, which leads.
struct signing {
  struct ranks ranks;
  size_t rows;
  size_t start;
  uint16_t word[MOST_NUMBERS];
  uint16_t lead[MOST_NUMBERS];
  struct orbits orbits;
};

// A lesser start is often beaten soon, so only this many rows of it are known at first.
enum { FEW_ROWS = 16 };

static void begin_signing(struct signing *signing, const struct map *map, const uint16_t *beta0) {
  begin_orbits(&signing->orbits, map->m);
  find_ranks(map, beta0, &signing->ranks);
  signing->rows = map->m < FEW_ROWS ? map->m : FEW_ROWS;
  for (size_t at = 0; at < map->n * signing->rows; at++) {
    // Above every label, so that the first start's rows are lesser.
    signing->word[at] = UINT16_MAX;
  }
}

static void take_lead(struct signing *signing, size_t start, const uint16_t *queue, size_t m) {
  signing->start = start;
  memcpy(signing->lead, queue, m * sizeof queue[0]);
}

// All rows of the best word become known.
static void spell_out(const struct map *map, const uint16_t *beta0, struct labelling *labelling, struct signing *signing) {
  forget(labelling);
  write_from(map, beta0, signing->start, labelling, signing->word);
  take_lead(signing, signing->start, labelling->queue, map->m);
  signing->rows = map->m;
}

// A start that ties shows a matching of the map with itself, from each dart of the queue that leads
// to the one of the same label. A matching carries words along.
static void tie(struct signing *signing, const uint16_t *queue, size_t m) {
  for (size_t k = 0; k < m; k++) {
    join(&signing->orbits, signing->lead[k], queue[k]);
  }
}

// How many darts yield the best word: those in the tree of its least start, which is the top.
static size_t symmetries(const struct signing *signing, size_t m) {
  size_t count = 0;
  for (size_t dart = signing->start; dart <= m; dart++) {
    if (top(&signing->orbits, dart) == signing->start) {
      count++;
    }
  }
  return count;
}

// Tries starts from one on, until the rows of one are not greater than the best; m + 1 after the
// last.
static size_t next_start(const struct map *map, const uint16_t *beta0, size_t start, struct labelling *labelling,
                         struct signing *signing, enum order *order) {
  for (; start <= map->m; start++) {
    if (!is_top(&signing->orbits, start) || signing->ranks.of[start] != signing->ranks.least) {
      // A lesser dart yields its word and was tried, or another start's first row is lesser.
      continue;
    }
    forget(labelling);
    *order = compare_from(map, beta0, start, labelling, signing->word, signing->rows);
    if (*order != GREATER) {
      break;
    }
  }
  return start;
}

// The word lands in `out`, which no refusal can follow.
static struct duftheim_signed sign(const struct map *map, const uint16_t *beta0, struct labelling *labelling, uint16_t *out) {
  size_t m = map->m;
  struct signing signing;
  begin_signing(&signing, map, beta0);
  enum order order = GREATER;
  size_t start = 0;
  while ((start = next_start(map, beta0, start + 1, labelling, &signing, &order)) <= m) {
    if (order == EQUAL && signing.rows < m) {
      spell_out(map, beta0, labelling, &signing);
      // The same start is tried again, against all rows.
      start--;
    } else if (order == EQUAL) {
      tie(&signing, labelling->queue, m);
    } else {
      take_lead(&signing, start, labelling->queue, m);
    }
  }
  if (signing.rows < m) {
    spell_out(map, beta0, labelling, &signing);
  }
  memcpy(out, signing.word, map->n * m * sizeof out[0]);
  return (struct duftheim_signed){0, 0, signing.start, symmetries(&signing, m)};
}

struct duftheim_signed duftheim_signature(size_t n, size_t m, const uint16_t *table, size_t table_length, uint16_t *out,
                                          size_t out_length) {
  struct map map = {n, m, table};
  uint16_t beta0[MOST_NUMBERS];
  struct labelling labelling;
  struct duftheim_verdict verdict = judge(map, table_length, n * m, out_length, beta0, &labelling);
  if (verdict.number != 0) {
    return (struct duftheim_signed){verdict.number, verdict.place, 0, 0};
  }
  return sign(&map, beta0, &labelling, out);
}
