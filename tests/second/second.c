// The calls of document 01 with wish 1 of document 02, written a second time, straight from their sentences.
// Rules are loops over darts, words are built whole before they are compared.
#include "second.h"
#include "second_inside.h"

#include <inttypes.h>
#include <stdbool.h>
#include <string.h>

enum {
  MOST_SEWINGS = 4,
  MOST_NUMBERS = 1020,
  MOST_RECORDS = 1024,
  RECORD_BYTES = 2048,
  ZERO_BYTE_AT = 5,
  WORD_AT = 8,
  // Above every call number.
  NOT_CALLED = 65535
};

// beta[i][d] for i from 0 to n and d from 0 to m; dart 0 is "sewn to nothing".
struct sewings {
  unsigned n;
  unsigned m;
  uint16_t beta[MOST_SEWINGS + 1][MOST_NUMBERS + 1];
};

struct signature {
  unsigned start;
  unsigned symmetries;
  uint16_t word[MOST_NUMBERS];
};

static struct second_verdict accepted(void) {
  return (struct second_verdict){0, 0};
}

static struct second_verdict refused(unsigned number, uint64_t place) {
  return (struct second_verdict){number, place};
}

// ---- Accepted maps ----

static struct second_verdict judge_bounds(uint64_t n, uint64_t m) {
  if (n < 1 || n > MOST_SEWINGS) {
    return refused(1, 0);
  }
  // Divided and not multiplied: no product can wrap, and n divides 1,020.
  if (m == 0 || m > MOST_NUMBERS / n) {
    return refused(2, 0);
  }
  return accepted();
}

// Where beta i of a dart stands in a table, counted from 1.
static unsigned place_of(uint64_t n, unsigned i, unsigned dart) {
  return (unsigned)((dart - 1) * n + i);
}

static uint16_t entry(struct second_map map, unsigned i, unsigned dart) {
  return map.table[place_of(map.n, i, dart) - 1];
}

// Each rule below answers the place of the least entry that breaks it, or 0. Places ascend by dart, and for one dart by sewing.

static unsigned place_of_high_entry(struct second_map map) {
  for (unsigned dart = 1; dart <= map.m; dart++) {
    for (unsigned i = 1; i <= map.n; i++) {
      if (entry(map, i, dart) > map.m) {
        return place_of(map.n, i, dart);
      }
    }
  }
  return 0;
}

// Of two darts that clash, the beta1 of the higher one is wrong.
static unsigned place_of_clash(const struct sewings *sewn) {
  for (unsigned dart = 1; dart <= sewn->m; dart++) {
    unsigned given = sewn->beta[1][dart];
    for (unsigned lower = 1; lower < dart; lower++) {
      // Any number of darts may be unsewn.
      if (given != 0 && sewn->beta[1][lower] == given) {
        return place_of(sewn->n, 1, dart);
      }
    }
  }
  return 0;
}

// Wrong is the entry that is sewn and gets no answer, never the unsewn one that gives none.
static unsigned place_not_answered(const struct sewings *sewn) {
  for (unsigned dart = 1; dart <= sewn->m; dart++) {
    for (unsigned i = 2; i <= sewn->n; i++) {
      unsigned other = sewn->beta[i][dart];
      if (other != 0 && sewn->beta[i][other] != dart) {
        return place_of(sewn->n, i, dart);
      }
    }
  }
  return 0;
}

static unsigned composed(const struct sewings *sewn, unsigned i, unsigned j, unsigned dart) {
  return sewn->beta[i][sewn->beta[j][dart]];
}

// The wrong entry is beta j of the dart, so the least j counts, whatever i.
static unsigned place_composed_badly(const struct sewings *sewn) {
  for (unsigned dart = 1; dart <= sewn->m; dart++) {
    for (unsigned j = 3; j <= sewn->n; j++) {
      for (unsigned i = 1; i + 2 <= j; i++) {
        unsigned other = composed(sewn, i, j, dart);
        if (other != 0 && composed(sewn, i, j, other) != dart) {
          return place_of(sewn->n, j, dart);
        }
      }
    }
  }
  return 0;
}

// The dart that stands for all darts of one piece.
static unsigned head_of(const uint16_t *head, unsigned dart) {
  while (head[dart] != dart) {
    dart = head[dart];
  }
  return dart;
}

// The lower head stays, so dart 1 is always the head of its own piece.
static void join(uint16_t *head, unsigned one, unsigned other) {
  unsigned one_head = head_of(head, one);
  unsigned other_head = head_of(head, other);
  unsigned low = one_head < other_head ? one_head : other_head;
  unsigned high = one_head < other_head ? other_head : one_head;
  head[high] = (uint16_t)low;
  // The two darts point at the head directly, which keeps later walks short.
  head[one] = (uint16_t)low;
  head[other] = (uint16_t)low;
}

// Answers the least dart, and no place in the table. Every sewing can be walked back (beta1 by beta0, the others by
// themselves), so the darts reached from dart 1 are the darts joined with it.
static unsigned dart_not_reached(const struct sewings *sewn) {
  uint16_t head[MOST_NUMBERS + 1];
  for (unsigned dart = 0; dart <= sewn->m; dart++) {
    head[dart] = (uint16_t)dart;
  }
  for (unsigned dart = 1; dart <= sewn->m; dart++) {
    for (unsigned i = 1; i <= sewn->n; i++) {
      if (sewn->beta[i][dart] != 0) {
        join(head, dart, sewn->beta[i][dart]);
      }
    }
  }
  for (unsigned dart = 1; dart <= sewn->m; dart++) {
    if (head_of(head, dart) != 1) {
      return dart;
    }
  }
  return 0;
}

// Wants a map of accepted size whose entries are all at most m. Beta0 means something only where no two darts clash: beta0(d)
// is the dart that beta1 takes to d, or 0.
static void read_sewings(struct second_map map, struct sewings *sewn) {
  memset(sewn, 0, sizeof *sewn);
  sewn->n = (unsigned)map.n;
  sewn->m = (unsigned)map.m;
  for (unsigned dart = 1; dart <= sewn->m; dart++) {
    for (unsigned i = 1; i <= sewn->n; i++) {
      sewn->beta[i][dart] = entry(map, i, dart);
    }
    sewn->beta[0][sewn->beta[1][dart]] = (uint16_t)dart;
  }
  sewn->beta[0][0] = 0;
}

// The rules of 6 to 9 in their order, each with what it answers as the place.
struct rule {
  unsigned number;
  unsigned (*broken_at)(const struct sewings *sewn);
};

static const struct rule rules[] = {
    {6, place_of_clash},
    {7, place_not_answered},
    {8, place_composed_badly},
    {9, dart_not_reached},
};

// Judges 5 to 9 of a map of accepted size; the sewings are whole where it is accepted.
static struct second_verdict judge_sewings(struct second_map map, struct sewings *sewn) {
  unsigned place = place_of_high_entry(map);
  if (place != 0) {
    return refused(5, place);
  }
  read_sewings(map, sewn);
  for (size_t at = 0; at < sizeof rules / sizeof rules[0]; at++) {
    place = rules[at].broken_at(sewn);
    if (place != 0) {
      return refused(rules[at].number, place);
    }
  }
  return accepted();
}

// Judges 1 to 9 of a map with a lent output, of which so many numbers are needed.
static struct second_verdict judge_for_output(struct second_map map, uint64_t needed, size_t out_length, struct sewings *sewn) {
  struct second_verdict bounds = judge_bounds(map.n, map.m);
  if (bounds.number != 0) {
    return bounds;
  }
  if (map.length != map.n * map.m) {
    return refused(3, 0);
  }
  if (out_length < needed) {
    return refused(4, 0);
  }
  return judge_sewings(map, sewn);
}

// The whole judgement of a map that no output goes with.
static struct second_verdict judge_map(struct second_map map, struct sewings *sewn) {
  return judge_for_output(map, 0, 0, sewn);
}

struct second_verdict second_check(struct second_map map) {
  struct sewings sewn;
  return judge_map(map, &sewn);
}

// ---- Labels, words, signature ----

// A dart calls another when the other is one of its betas. Labels are given in the order of calls: first by the label of the
// calling dart, then by the sewing it calls along; both are put in one number. This looks back from a dart to its labelled
// neighbours for the first of them to call it.
static unsigned least_call(const struct sewings *sewn, const uint16_t *labels, unsigned dart) {
  unsigned least = NOT_CALLED;
  for (unsigned i = 0; i <= sewn->n; i++) {
    // Beta0 and beta1 undo each other, every other sewing undoes itself.
    unsigned undoing = i < 2 ? 1 - i : i;
    unsigned caller_label = labels[sewn->beta[undoing][dart]];
    unsigned call = caller_label * (sewn->n + 1) + i;
    if (caller_label != 0 && call < least) {
      least = call;
    }
  }
  return least;
}

// A set of darts, all equally far from the start.
struct layer {
  unsigned length;
  uint16_t darts[MOST_NUMBERS];
};

// Gathers the neighbours of a layer not met before, each once, in no order that matters.
static void gather(const struct sewings *sewn, const struct layer *layer, bool *met, struct layer *next) {
  next->length = 0;
  for (unsigned k = 0; k < layer->length; k++) {
    for (unsigned i = 0; i <= sewn->n; i++) {
      uint16_t dart = sewn->beta[i][layer->darts[k]];
      if (!met[dart]) {
        met[dart] = true;
        next->darts[next->length++] = dart;
      }
    }
  }
}

// Puts a layer in the order of calls, by insertion.
static void sort_by_call(const struct sewings *sewn, const uint16_t *labels, struct layer *layer) {
  unsigned calls[MOST_NUMBERS];
  for (unsigned k = 0; k < layer->length; k++) {
    uint16_t dart = layer->darts[k];
    unsigned call = least_call(sewn, labels, dart);
    unsigned at = k;
    while (at > 0 && calls[at - 1] > call) {
      calls[at] = calls[at - 1];
      layer->darts[at] = layer->darts[at - 1];
      at--;
    }
    calls[at] = call;
    layer->darts[at] = dart;
  }
}

// All darts of one layer are served before any of the next, so labels are given layer by layer.
static void label_from(const struct sewings *sewn, unsigned start, uint16_t *labels) {
  bool met[MOST_NUMBERS + 1] = {false};
  struct layer layers[2];
  struct layer *layer = &layers[0];
  struct layer *next = &layers[1];
  unsigned labelled = 1;
  memset(labels, 0, (sewn->m + 1) * sizeof labels[0]);
  labels[start] = 1;
  // Dart 0 is no dart to label.
  met[0] = true;
  met[start] = true;
  layer->length = 1;
  layer->darts[0] = (uint16_t)start;
  while (layer->length > 0) {
    gather(sewn, layer, met, next);
    sort_by_call(sewn, labels, next);
    for (unsigned k = 0; k < next->length; k++) {
      labels[next->darts[k]] = (uint16_t)++labelled;
    }
    struct layer *served = layer;
    layer = next;
    next = served;
  }
}

// The dart labelled k fills the k-th row of n numbers.
static void word_from(const struct sewings *sewn, unsigned start, uint16_t *word) {
  uint16_t labels[MOST_NUMBERS + 1];
  label_from(sewn, start, labels);
  for (unsigned dart = 1; dart <= sewn->m; dart++) {
    uint16_t *row = word + (labels[dart] - 1u) * sewn->n;
    for (unsigned i = 1; i <= sewn->n; i++) {
      row[i - 1] = labels[sewn->beta[i][dart]];
    }
  }
}

int second_compare_words(const uint16_t *one, const uint16_t *other, size_t length) {
  for (size_t at = 0; at < length; at++) {
    if (one[at] != other[at]) {
      return one[at] < other[at] ? -1 : 1;
    }
  }
  return 0;
}

static void sign(const struct sewings *sewn, struct signature *signature) {
  unsigned length = sewn->n * sewn->m;
  uint16_t word[MOST_NUMBERS];
  signature->start = 1;
  signature->symmetries = 1;
  word_from(sewn, 1, signature->word);
  for (unsigned start = 2; start <= sewn->m; start++) {
    word_from(sewn, start, word);
    int order = second_compare_words(word, signature->word, length);
    if (order < 0) {
      signature->start = start;
      signature->symmetries = 1;
      memcpy(signature->word, word, length * sizeof word[0]);
    } else if (order == 0) {
      signature->symmetries++;
    }
  }
}

void second_labels(struct second_map map, uint64_t start, uint16_t *labels) {
  struct sewings sewn;
  read_sewings(map, &sewn);
  label_from(&sewn, (unsigned)start, labels);
}

void second_word(struct second_map map, uint64_t start, uint16_t *word) {
  struct sewings sewn;
  read_sewings(map, &sewn);
  word_from(&sewn, (unsigned)start, word);
}

struct second_signed second_sign(struct second_map map, uint16_t *out, size_t out_length) {
  struct sewings sewn;
  struct signature signature;
  // A map that gets as far as 4 has a table of exactly n * m numbers.
  struct second_verdict verdict = judge_for_output(map, map.length, out_length, &sewn);
  if (verdict.number != 0) {
    return (struct second_signed){verdict.number, verdict.place, 0, 0};
  }
  sign(&sewn, &signature);
  memcpy(out, signature.word, map.length * sizeof out[0]);
  return (struct second_signed){0, 0, signature.start, signature.symmetries};
}

// ---- Matching ----

// list[d - 1] is where dart d goes.
static unsigned dart_sent_badly(const uint16_t *list, unsigned m) {
  bool used[MOST_NUMBERS + 1] = {false};
  for (unsigned dart = 1; dart <= m; dart++) {
    unsigned value = list[dart - 1];
    if (value == 0 || value > m || used[value]) {
      return dart;
    }
    used[value] = true;
  }
  return 0;
}

static unsigned sent_to(const uint16_t *list, unsigned dart) {
  return dart == 0 ? 0 : list[dart - 1];
}

static unsigned dart_not_matched(const struct sewings *first, const struct sewings *second, const uint16_t *list) {
  for (unsigned dart = 1; dart <= first->m; dart++) {
    for (unsigned i = 1; i <= first->n; i++) {
      if (sent_to(list, first->beta[i][dart]) != second->beta[i][sent_to(list, dart)]) {
        return dart;
      }
    }
  }
  return 0;
}

// Judges 11 and 12 of a list of m numbers.
static struct second_verdict judge_list(const struct sewings *first, const struct sewings *second, const uint16_t *list) {
  unsigned dart = dart_sent_badly(list, first->m);
  if (dart != 0) {
    return refused(11, dart);
  }
  dart = dart_not_matched(first, second, list);
  if (dart != 0) {
    return refused(12, dart);
  }
  return accepted();
}

// Sends dart 1 to `image` and every other dart where the sewings then force it to go. A dart whose place is sewn to nothing
// stays at 0, which no judged list allows.
static void force_list(const struct sewings *first, const struct sewings *second, unsigned image, uint16_t *list) {
  uint16_t waiting[MOST_NUMBERS];
  unsigned waiting_length = 1;
  memset(list, 0, first->m * sizeof list[0]);
  list[0] = (uint16_t)image;
  waiting[0] = 1;
  while (waiting_length > 0) {
    unsigned dart = waiting[--waiting_length];
    for (unsigned i = 0; i <= first->n; i++) {
      unsigned neighbour = first->beta[i][dart];
      unsigned forced = second->beta[i][list[dart - 1]];
      if (neighbour != 0 && forced != 0 && list[neighbour - 1] == 0) {
        list[neighbour - 1] = (uint16_t)forced;
        waiting[waiting_length++] = (uint16_t)neighbour;
      }
    }
  }
}

// Judges the first map with an output of which so many numbers are needed, then the second, then 10 by their sizes.
static struct second_verdict judge_pair(struct second_map first, struct second_map second, uint64_t needed, size_t out_length,
                                        struct sewings *first_sewn, struct sewings *second_sewn) {
  struct second_verdict verdict = judge_for_output(first, needed, out_length, first_sewn);
  if (verdict.number != 0) {
    return verdict;
  }
  verdict = judge_map(second, second_sewn);
  if (verdict.number != 0) {
    return refused(verdict.number + 20, verdict.place);
  }
  bool same_size = first.n == second.n && first.m == second.m;
  return same_size ? accepted() : refused(10, 0);
}

struct second_verdict second_match(struct second_map first, struct second_map second, uint16_t *out, size_t out_length) {
  struct sewings first_sewn;
  struct sewings second_sewn;
  uint16_t list[MOST_NUMBERS];
  struct second_verdict verdict = judge_pair(first, second, first.m, out_length, &first_sewn, &second_sewn);
  if (verdict.number != 0) {
    return verdict;
  }
  for (unsigned image = 1; image <= second_sewn.m; image++) {
    force_list(&first_sewn, &second_sewn, image, list);
    if (judge_list(&first_sewn, &second_sewn, list).number == 0) {
      memcpy(out, list, first_sewn.m * sizeof out[0]);
      return accepted();
    }
  }
  return refused(10, 0);
}

struct second_verdict second_judge(struct second_map first, struct second_map second, const uint16_t *list,
                                   size_t list_length) {
  struct sewings first_sewn;
  struct sewings second_sewn;
  struct second_verdict verdict = judge_pair(first, second, 0, 0, &first_sewn, &second_sewn);
  if (verdict.number != 0) {
    return verdict;
  }
  if (list_length != first_sewn.m) {
    return refused(11, 0);
  }
  return judge_list(&first_sewn, &second_sewn, list);
}

// ---- Records ----

static uint32_t read_little(const uint8_t *bytes, unsigned length) {
  uint32_t number = 0;
  for (unsigned at = 0; at < length; at++) {
    number |= (uint32_t)bytes[at] << (8 * at);
  }
  return number;
}

static void write_little(uint8_t *bytes, unsigned length, uint32_t number) {
  for (unsigned at = 0; at < length; at++) {
    bytes[at] = (uint8_t)(number >> (8 * at));
  }
}

static uint32_t record_die(const uint8_t *record) {
  return read_little(record, 4);
}

static unsigned record_n(const uint8_t *record) {
  return record[4];
}

static unsigned record_m(const uint8_t *record) {
  return read_little(record + 6, 2);
}

// Wants n and m in bounds; the numbers land in `table`, which the map then points at.
static struct second_map record_map(const uint8_t *record, uint16_t table[MOST_NUMBERS]) {
  unsigned n = record_n(record);
  unsigned m = record_m(record);
  for (unsigned at = 0; at < n * m; at++) {
    table[at] = (uint16_t)read_little(record + WORD_AT + 2 * at, 2);
  }
  return (struct second_map){n, m, table, n * m};
}

// Wants n and m in bounds: die number, zero byte and filling are as they must be.
static bool record_frame_is_good(const uint8_t *record) {
  unsigned word_end = WORD_AT + 2 * record_n(record) * record_m(record);
  if (record_die(record) == 0 || record[ZERO_BYTE_AT] != 0) {
    return false;
  }
  for (unsigned at = word_end; at < RECORD_BYTES; at++) {
    if (record[at] != 0) {
      return false;
    }
  }
  return true;
}

// Everything about a record but the comparison with earlier ones.
static bool record_alone_is_good(const uint8_t *record) {
  uint16_t table[MOST_NUMBERS];
  struct sewings sewn;
  struct signature signature;
  if (judge_bounds(record_n(record), record_m(record)).number != 0 || !record_frame_is_good(record)) {
    return false;
  }
  struct second_map map = record_map(record, table);
  if (judge_map(map, &sewn).number != 0) {
    return false;
  }
  sign(&sewn, &signature);
  return second_compare_words(table, signature.word, sewn.n * sewn.m) == 0;
}

// Wants both records good: n, m and the word are compared, the die number is not.
static bool same_layout(const uint8_t *one, const uint8_t *other) {
  unsigned n = record_n(one);
  unsigned m = record_m(one);
  if (n != record_n(other) || m != record_m(other)) {
    return false;
  }
  return memcmp(one + WORD_AT, other + WORD_AT, 2 * n * m) == 0;
}

static void write_record(uint8_t *record, uint32_t die, const struct sewings *sewn, const struct signature *signature) {
  memset(record, 0, RECORD_BYTES);
  write_little(record, 4, die);
  write_little(record + 4, 1, sewn->n);
  write_little(record + 6, 2, sewn->m);
  for (unsigned at = 0; at < sewn->n * sewn->m; at++) {
    write_little(record + WORD_AT + 2 * at, 2, signature->word[at]);
  }
}

// ---- The drawer ----

static const uint8_t *record_at(const uint8_t *drawer, uint64_t record) {
  return drawer + (record - 1) * RECORD_BYTES;
}

// The first of `count` records with that die number, or 0.
static uint64_t record_with_die(const uint8_t *drawer, uint64_t count, uint32_t die) {
  for (uint64_t record = 1; record <= count; record++) {
    if (record_die(record_at(drawer, record)) == die) {
      return record;
    }
  }
  return 0;
}

// The first of `count` records with the layout of a record that need not be in the drawer, or 0.
static uint64_t record_with_layout(const uint8_t *drawer, uint64_t count, const uint8_t *wanted) {
  for (uint64_t record = 1; record <= count; record++) {
    if (same_layout(record_at(drawer, record), wanted)) {
      return record;
    }
  }
  return 0;
}

// Wants all earlier records good, as they are when the first bad one is looked for.
static bool record_is_bad(const uint8_t *drawer, uint64_t record) {
  const uint8_t *bytes = record_at(drawer, record);
  if (!record_alone_is_good(bytes)) {
    return true;
  }
  return record_with_die(drawer, record - 1, record_die(bytes)) != 0 || record_with_layout(drawer, record - 1, bytes) != 0;
}

struct second_verdict second_drawer(uint64_t count, const uint8_t *drawer, size_t drawer_length) {
  // The count is bounded first, so that the product is exact.
  if (count > MOST_RECORDS || count * RECORD_BYTES > drawer_length) {
    return refused(13, 0);
  }
  for (uint64_t record = 1; record <= count; record++) {
    if (record_is_bad(drawer, record)) {
      return refused(14, record);
    }
  }
  return accepted();
}

// Judges the map, then the drawer, and makes the record that filing the map would write.
static struct second_verdict judge_and_make(struct second_map map, uint32_t die, uint64_t count, const uint8_t *drawer,
                                            size_t drawer_length, uint8_t made[RECORD_BYTES]) {
  struct sewings sewn;
  struct signature signature;
  struct second_verdict verdict = judge_map(map, &sewn);
  if (verdict.number != 0) {
    return verdict;
  }
  verdict = second_drawer(count, drawer, drawer_length);
  if (verdict.number != 0) {
    return verdict;
  }
  sign(&sewn, &signature);
  write_record(made, die, &sewn, &signature);
  return accepted();
}

struct second_found second_find(struct second_map map, uint64_t count, const uint8_t *drawer, size_t drawer_length) {
  uint8_t wanted[RECORD_BYTES];
  struct second_verdict verdict = judge_and_make(map, 0, count, drawer, drawer_length, wanted);
  if (verdict.number != 0) {
    return (struct second_found){verdict.number, verdict.place, 0, 0};
  }
  uint64_t record = record_with_layout(drawer, count, wanted);
  if (record == 0) {
    return (struct second_found){15, 0, 0, 0};
  }
  return (struct second_found){0, 0, record_die(record_at(drawer, record)), record};
}

struct second_part second_record(struct second_map map, uint64_t count, const uint8_t *drawer, size_t drawer_length) {
  struct second_found found = second_find(map, count, drawer, drawer_length);
  if (found.number != 0) {
    return (struct second_part){NULL, 0};
  }
  return (struct second_part){record_at(drawer, found.record), RECORD_BYTES};
}

// Judges 16, 17 and 18 of a record made for a good drawer.
static struct second_verdict judge_filing(uint32_t die, const uint8_t *made, uint64_t count, const uint8_t *drawer,
                                          size_t drawer_length) {
  if (die == 0) {
    return refused(16, 0);
  }
  uint64_t record = record_with_die(drawer, count, die);
  if (record != 0) {
    return refused(16, record);
  }
  record = record_with_layout(drawer, count, made);
  if (record != 0) {
    return refused(17, record);
  }
  if (count == MOST_RECORDS || (count + 1) * RECORD_BYTES > drawer_length) {
    return refused(18, 0);
  }
  return accepted();
}

struct second_filed second_add(uint32_t die, struct second_map map, uint64_t count, uint8_t *drawer, size_t drawer_length) {
  uint8_t made[RECORD_BYTES];
  struct second_verdict verdict = judge_and_make(map, die, count, drawer, drawer_length, made);
  if (verdict.number == 0) {
    verdict = judge_filing(die, made, count, drawer, drawer_length);
  }
  if (verdict.number != 0) {
    return (struct second_filed){verdict.number, verdict.place, 0};
  }
  memcpy(drawer + count * RECORD_BYTES, made, RECORD_BYTES);
  return (struct second_filed){0, 0, count + 1};
}

// ---- The layout lister ----

// Judges 1 and 2, then 14, then 5 to 9.
static void list_record(const uint8_t *record, uint64_t place, FILE *out) {
  uint16_t table[MOST_NUMBERS];
  struct sewings sewn;
  struct signature signature;
  struct second_verdict verdict = judge_bounds(record_n(record), record_m(record));
  if (verdict.number == 0 && !record_frame_is_good(record)) {
    verdict = refused(14, place);
  }
  if (verdict.number == 0) {
    verdict = judge_sewings(record_map(record, table), &sewn);
  }
  fprintf(out, "%" PRIu32 " ", record_die(record));
  if (verdict.number != 0) {
    fprintf(out, "refused %u %" PRIu64 "\n", verdict.number, verdict.place);
    return;
  }
  sign(&sewn, &signature);
  fprintf(out, "%u %u %u %u\n", sewn.n, sewn.m, signature.symmetries, signature.start);
}

void second_list(FILE *in, FILE *out) {
  uint8_t record[RECORD_BYTES];
  uint64_t place = 1;
  size_t length = fread(record, 1, RECORD_BYTES, in);
  while (length == RECORD_BYTES) {
    list_record(record, place, out);
    place++;
    length = fread(record, 1, RECORD_BYTES, in);
  }
  if (length != 0) {
    fprintf(out, "short %zu\n", length);
  }
}
