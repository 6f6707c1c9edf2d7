// Checks second.c against answers worked out by hand from document 01, wish 1 of document 02 and the paper's examples. Prints
// every failure, and as last line how many checks passed and failed.
#include <inttypes.h>
#include <stdlib.h>
#include <string.h>

#include "../maps/records.h"
#include "../maps/shapes.h"
#include "../maps/symmetric.h"
#include "second_inside.h"

enum { RECORD = RECORD_BYTES, MOST = 1024 };

// A full drawer and the bytes of one record more: room for all that is lent below.
enum { FULL_BYTES = MOST_RECORDS * RECORD, ROOM = FULL_BYTES + RECORD };
static uint8_t full_drawer[ROOM];

// A list of numbers as a pointer and a length.
#define NUMBERS(...) (const uint16_t[]){__VA_ARGS__}, LENGTH_OF(__VA_ARGS__)
#define LENGTH_OF(...) (sizeof((const uint16_t[]){__VA_ARGS__}) / sizeof(uint16_t))
#define MAP(n, m, ...) ((struct second_map){(n), (m), NUMBERS(__VA_ARGS__)})
#define NOTHING NULL, 0

// A map whose table is so many zeros.
#define ZEROS(n, m, length) ((struct second_map){(n), (m), zeros, (length)})
static const uint16_t zeros[1100];

// Every answer is compared and printed as four numbers, those that a call does not have being 0.
#define ANSWER(...) ((const uint64_t[4]){__VA_ARGS__})

// ---- Counting ----

static unsigned passed;
static unsigned failed;

static void count(bool good, const char *call, const char *what) {
  if (good) {
    passed++;
  } else {
    failed++;
    printf("FAILED %s: %s\n", call, what);
  }
}

static void expect(const char *call, const char *what, const uint64_t expected[4], const uint64_t got[4]) {
  bool good = memcmp(expected, got, 4 * sizeof got[0]) == 0;
  count(good, call, what);
  for (size_t at = 0; !good && at < 4; at++) {
    printf("  expected %" PRIu64 ", got %" PRIu64 "\n", expected[at], got[at]);
  }
}

static void expect_verdict(const char *call, const char *what, unsigned number, uint64_t place, struct second_verdict got) {
  expect(call, what, ANSWER(number, place), ANSWER(got.number, got.place));
}

// Two runs of so many bytes must be the same to the end.
static void expect_same(const char *call, const char *what, const void *expected, const void *got, size_t length) {
  const uint8_t *expected_bytes = expected;
  const uint8_t *got_bytes = got;
  size_t same = 0;
  while (same < length && expected_bytes[same] == got_bytes[same]) {
    same++;
  }
  count(same == length, call, what);
  if (same < length) {
    printf("  byte %zu of %zu is another\n", same + 1, length);
  }
}

// ---- The bench cases ----

static const struct second_map case_a = {1, 1, NUMBERS(0)};
static const struct second_map case_b = {1, 1, NUMBERS(1)};
static const struct second_map case_c = {1, 2, NUMBERS(2, 0)};
static const struct second_map case_d = {2, 1, NUMBERS(0, 1)};
static const struct second_map case_e = {2, 3, NUMBERS(2, 0, 3, 0, 1, 0)};
static const struct second_map case_e_signed = {2, 3, NUMBERS(3, 0, 1, 0, 2, 0)};
static const struct second_map case_f = {2, 7, NUMBERS(2, 0, 3, 0, 4, 5, 1, 0, 6, 3, 7, 0, 5, 0)};
static const struct second_map case_g = {2, 7, NUMBERS(3, 0, 1, 0, 2, 4, 6, 3, 4, 0, 7, 0, 5, 0)};
static const struct second_map case_h = {2, 2, NUMBERS(3, 0, 1, 0)};
static const struct second_map case_i = {1, 2, NUMBERS(1, 1)};
static const struct second_map case_j = {2, 2, NUMBERS(0, 2, 0, 0)};
static const struct second_map case_k = {1, 2, NUMBERS(1, 2)};
static const struct second_map case_l = {3, 3, NUMBERS(0, 0, 2, 3, 0, 1, 0, 0, 0)};
static const struct second_map case_m = {3, 3, NUMBERS(0, 0, 2, 0, 0, 1, 2, 0, 0)};

// Two twin corners, 1 -> 2 and 3 -> 4, sewn along beta2 at 1 and 3; and the same renumbered.
static const struct second_map twins = {2, 4, NUMBERS(2, 3, 0, 0, 4, 1, 0, 0)};
static const struct second_map twins_renumbered = {2, 4, NUMBERS(0, 0, 3, 4, 0, 0, 1, 2)};

// The 18 darts of figure 1.
static const struct second_map figure_1 = {2, 18, NUMBERS(2, 15, 3, 14, 4, 18, 5, 17, 6, 10, 7, 9, 1, 8, 9, 7, 10, 6, 11, 5,
                                                          8, 12, 13, 11, 14, 16, 15, 2, 12, 1, 17, 13, 18, 4, 16, 3)};

// ---- Signatures ----

// An output before the call, no two numbers of it alike; and how a call is to leave it.
struct outputs {
  uint16_t lent[MOST];
  uint16_t expected[MOST];
};

static struct outputs outputs_with(const uint16_t *written, size_t length) {
  struct outputs outputs;
  for (size_t at = 0; at < MOST; at++) {
    outputs.lent[at] = (uint16_t)(at + 3000);
    outputs.expected[at] = at < length ? written[at] : outputs.lent[at];
  }
  return outputs;
}

// Lends so many numbers of an output. All of it must stay but the word, which is empty on refusal.
static void sign_to(const char *what, struct second_map map, size_t out_length, const uint64_t answer[4], const uint16_t *word,
                    size_t length) {
  struct outputs outputs = outputs_with(word, length);
  struct second_signed got = second_sign(map, outputs.lent, out_length);
  expect("sign", what, answer, ANSWER(got.number, got.place, got.start, got.symmetries));
  expect_same("sign", what, outputs.expected, outputs.lent, sizeof outputs.lent);
}

// The lent output is two numbers longer than needed, and then just long enough.
static void sign_gives(const char *what, struct second_map map, uint64_t start, uint64_t symmetries, const uint16_t *word,
                       size_t length) {
  expect_verdict("check", what, 0, 0, second_check(map));
  sign_to(what, map, length + 2, ANSWER(0, 0, start, symmetries), word, length);
  sign_to(what, map, length, ANSWER(0, 0, start, symmetries), word, length);
}

static void check_signatures(void) {
  sign_gives("case A", case_a, 1, 1, NUMBERS(0));
  sign_gives("case B", case_b, 1, 1, NUMBERS(1));
  sign_gives("case C", case_c, 2, 1, NUMBERS(0, 1));
  sign_gives("case D", case_d, 1, 1, NUMBERS(0, 1));
  sign_gives("case E", case_e, 1, 3, NUMBERS(3, 0, 1, 0, 2, 0));
  sign_gives("case F, the paper's example 4", case_f, 7, 1, NUMBERS(3, 0, 1, 0, 2, 4, 6, 3, 4, 0, 7, 0, 5, 0));
  sign_gives("case G", case_g, 1, 1, NUMBERS(3, 0, 1, 0, 2, 4, 6, 3, 4, 0, 7, 0, 5, 0));
  sign_gives("case M", case_m, 1, 1, NUMBERS(0, 0, 2, 0, 0, 1, 2, 0, 0));
  sign_gives("two darts unsewn by beta1 don't clash", MAP(2, 2, 0, 2, 0, 1), 1, 2, NUMBERS(0, 2, 0, 1));
  sign_gives("a chain numbered from its end is reached by beta0", MAP(1, 3, 0, 1, 2), 1, 1, NUMBERS(0, 1, 2));
  sign_gives("a chain numbered from its head", MAP(1, 3, 2, 3, 0), 3, 1, NUMBERS(0, 1, 2));
  sign_gives("twins", twins, 2, 2, NUMBERS(0, 0, 1, 3, 4, 2, 0, 0));
  sign_gives("twins whose first two starts tie and lose", MAP(2, 4, 3, 2, 4, 1, 0, 0, 0, 0), 3, 2,
             NUMBERS(0, 0, 1, 3, 4, 2, 0, 0));
  sign_gives("twins renumbered", twins_renumbered, 1, 2, NUMBERS(0, 0, 1, 3, 4, 2, 0, 0));
  expect_verdict("check", "figure 1", 0, 0, second_check(figure_1));
  // Outputs that are too short.
  sign_to("output of 5 for 6 numbers", case_e, 5, ANSWER(4, 0), NOTHING);
  sign_to("an empty output", case_e, 0, ANSWER(4, 0), NOTHING);
  sign_to("4 comes before 5", case_h, 3, ANSWER(4, 0), NOTHING);
  sign_to("an output long enough lets 5 through", case_h, 4, ANSWER(5, 1), NOTHING);
  sign_to("3 comes before 4", MAP(2, 2, 0, 0, 0), 0, ANSWER(3, 0), NOTHING);
  sign_to("2 comes before 4", (struct second_map){2, 0, NOTHING}, 0, ANSWER(2, 0), NOTHING);
}

// Labels or a word from one start. Labels stand as epsilon, a, b, .. g.
static void start_gives(const char *what, void (*write)(struct second_map, uint64_t, uint16_t *), struct second_map map,
                        uint64_t start, const uint16_t *numbers, size_t length) {
  uint16_t got[MOST];
  memset(got, 9, sizeof got);
  write(map, start, got);
  expect_same("labels or word", what, numbers, got, length * sizeof got[0]);
}

static void check_starts(void) {
  start_gives("example 2 from a", second_labels, case_f, 1, NUMBERS(0, 1, 3, 4, 2, 5, 7, 6));
  start_gives("example 2 from e", second_labels, case_f, 5, NUMBERS(0, 7, 5, 4, 6, 1, 3, 2));
  start_gives("from g, by hand", second_labels, case_f, 7, NUMBERS(0, 7, 5, 4, 6, 3, 2, 1));
  start_gives("example 3 from a", second_word, case_f, 1, NUMBERS(3, 0, 1, 0, 4, 0, 2, 5, 7, 4, 5, 0, 6, 0));
  start_gives("example 3 from e", second_word, case_f, 5, NUMBERS(3, 4, 1, 0, 2, 0, 6, 1, 4, 0, 7, 0, 5, 0));
  start_gives("example 4 from g", second_word, case_f, 7, NUMBERS(3, 0, 1, 0, 2, 4, 6, 3, 4, 0, 7, 0, 5, 0));
  // Dart 2 is served before dart 3, so its beta2 goes before the beta1 of dart 3.
  struct second_map map = MAP(2, 5, 3, 0, 1, 4, 5, 0, 0, 2, 0, 0);
  start_gives("labels: serving order before sewing", second_labels, map, 1, NUMBERS(0, 1, 2, 3, 4, 5));
  start_gives("word: serving order before sewing", second_word, map, 1, NUMBERS(3, 0, 1, 4, 5, 0, 0, 2, 0, 0));
}

// ---- Rings and chains of any size ----

// Labels go round a ring both ways at once, backwards first: even labels lie behind the start and odd ones before it. So beta1
// takes an odd label two up, until the two ways meet, and an even label two down, until the start.
static unsigned after_in_ring(unsigned label, unsigned m) {
  if (label % 2 == 0) {
    return label == 2 ? 1 : label - 2;
  }
  if (label + 2 <= m) {
    return label + 2;
  }
  if (label + 1 == m) {
    return m;
  }
  return m == 1 ? 1 : m - 1;
}

// The least word of a ring is that of every start. A chain's starts at its end, the only dart that is unsewn, and goes back
// dart by dart.
static void shape_word(bool ring, unsigned n, unsigned m, uint16_t *word) {
  memset(word, 0, n * m * sizeof word[0]);
  for (unsigned label = 1; label <= m; label++) {
    word[(label - 1) * n] = (uint16_t)(ring ? after_in_ring(label, m) : label - 1);
  }
}

static void shape_signs(const char *what, bool ring, unsigned n, unsigned m) {
  uint16_t word[MOST];
  struct map map = ring ? ring_map(n, m) : chain_map(n, m);
  shape_word(ring, n, m, word);
  sign_gives(what, map_lent(&map), ring ? 1 : m, ring ? m : 1, word, n * m);
}

static void check_sizes(void) {
  shape_signs("ring n=1 m=1", true, 1, 1);
  shape_signs("ring n=1 m=2", true, 1, 2);
  shape_signs("ring n=1 m=1020", true, 1, 1020);
  shape_signs("ring n=2 m=255", true, 2, 255);
  shape_signs("ring n=2 m=256", true, 2, 256);
  shape_signs("ring n=2 m=510", true, 2, 510);
  shape_signs("ring n=3 m=340", true, 3, 340);
  shape_signs("ring n=4 m=255", true, 4, 255);
  shape_signs("chain n=1 m=1020", false, 1, 1020);
  shape_signs("chain n=2 m=510", false, 2, 510);
  shape_signs("chain n=4 m=255", false, 4, 255);
}

// ---- Symmetries known from theory ----

static struct second_signed signed_alone(const struct map *map) {
  uint16_t out[MOST];
  return second_sign(map_lent(map), out, MOST);
}

// The symmetries that keep the marks are a part of all, so their number divides that of all; and each takes dart 1 elsewhere,
// so all of them divide the darts evenly.
static void check_marked_shape(struct chance *chance, const struct shape *shape) {
  struct map marked;
  uint64_t kept;
  if (map_marked(chance, &shape->map, &marked, &kept)) {
    uint64_t symmetries = signed_alone(&marked).symmetries;
    expect("symmetries with marks", shape->name, ANSWER(0, 0), ANSWER(symmetries % kept, marked.m % symmetries));
  }
}

static void check_shapes(void) {
  const struct shapes *all = all_shapes();
  struct chance chance = {.state = 12};
  for (size_t at = 0; at < all->count; at++) {
    const struct shape *shape = &all->shapes[at];
    struct second_signed got = signed_alone(&shape->map);
    expect("symmetries", shape->name, ANSWER(0, shape->symmetries), ANSWER(got.number, got.symmetries));
    check_marked_shape(&chance, shape);
  }
}

// ---- Match ----

// Lends so many numbers of an output. All of it must stay but the list, which is empty on refusal.
static void match_to(const char *what, struct second_map first, struct second_map second, size_t out_length,
                     const uint64_t answer[4], const uint16_t *list, size_t length) {
  struct outputs outputs = outputs_with(list, length);
  struct second_verdict got = second_match(first, second, outputs.lent, out_length);
  expect("match", what, answer, ANSWER(got.number, got.place));
  expect_same("match", what, outputs.expected, outputs.lent, sizeof outputs.lent);
}

// The lent output is one number longer than needed, and then just long enough.
static void match_gives(const char *what, struct second_map first, struct second_map second, const uint16_t *list,
                        size_t length) {
  match_to(what, first, second, length + 1, ANSWER(0, 0), list, length);
  match_to(what, first, second, length, ANSWER(0, 0), list, length);
  expect_verdict("judge what match shows", what, 0, 0, second_judge(first, second, list, length));
}

static void check_match(void) {
  match_gives("case E", case_e, case_e_signed, NUMBERS(1, 3, 2));
  match_gives("E with itself", case_e, case_e, NUMBERS(1, 2, 3));
  match_gives("F with G", case_f, case_g, NUMBERS(7, 5, 4, 6, 3, 2, 1));
  match_gives("G with F", case_g, case_f, NUMBERS(7, 6, 5, 3, 2, 4, 1));
  match_gives("C with C turned round", case_c, MAP(1, 2, 0, 1), NUMBERS(2, 1));
  match_gives("a chain reached by beta0 only", MAP(1, 3, 0, 1, 2), MAP(1, 3, 2, 3, 0), NUMBERS(3, 2, 1));
  match_gives("the lower of two images of dart 1", twins, twins_renumbered, NUMBERS(2, 3, 4, 1));
  match_gives("one dart sewn to itself", case_b, case_b, NUMBERS(1));
  match_gives("one dart unsewn", case_a, case_a, NUMBERS(1));
  // Refused.
  match_to("C against D", case_c, case_d, MOST, ANSWER(10, 0), NOTHING);
  match_to("D against C", case_d, case_c, MOST, ANSWER(10, 0), NOTHING);
  match_to("m differs", case_a, case_c, MOST, ANSWER(10, 0), NOTHING);
  match_to("n differs", case_a, case_d, MOST, ANSWER(10, 0), NOTHING);
  match_to("unsewn against sewn", case_a, case_b, MOST, ANSWER(10, 0), NOTHING);
  match_to("sewn against unsewn", case_b, case_a, MOST, ANSWER(10, 0), NOTHING);
  match_to("ring against chain", MAP(1, 3, 2, 3, 1), MAP(1, 3, 2, 3, 0), MOST, ANSWER(10, 0), NOTHING);
  match_to("beta2 unsewn in one", MAP(2, 2, 2, 1, 1, 2), MAP(2, 2, 2, 0, 1, 0), MOST, ANSWER(10, 0), NOTHING);
  match_to("beta2 to itself or across", MAP(2, 2, 2, 1, 1, 2), MAP(2, 2, 2, 2, 1, 1), MOST, ANSWER(10, 0), NOTHING);
  match_to("an output of 2 for 3 darts", case_e, case_e, 2, ANSWER(4, 0), NOTHING);
  match_to("4 comes before 5", case_h, case_e, 1, ANSWER(4, 0), NOTHING);
  match_to("an output long enough lets 5 through", case_h, case_e, 2, ANSWER(5, 1), NOTHING);
  match_to("3 comes before 4", MAP(2, 2, 0), case_e, 0, ANSWER(3, 0), NOTHING);
  match_to("4 comes before the second map", case_e, case_h, 2, ANSWER(4, 0), NOTHING);
  match_to("the first m counts, not the second: 2 of 2", case_c, case_e, 2, ANSWER(10, 0), NOTHING);
  match_to("the first m counts, not the second: 2 of 3", case_e, case_c, 2, ANSWER(4, 0), NOTHING);
  match_to("the second map comes before 10", case_a, case_h, 1, ANSWER(25, 1), NOTHING);
  match_to("the first map comes before the second", case_i, case_h, 2, ANSWER(6, 2), NOTHING);
}

// ---- Judging a handed-in list ----

static void judge_gives(const char *what, struct second_map first, struct second_map second, unsigned number, uint64_t place,
                        const uint16_t *list, size_t length) {
  expect_verdict("judge", what, number, place, second_judge(first, second, list, length));
}

static void check_judge(void) {
  judge_gives("case E's match", case_e, case_e_signed, 0, 0, NUMBERS(1, 3, 2));
  judge_gives("a match that isn't the one shown", case_e, case_e, 0, 0, NUMBERS(2, 3, 1));
  judge_gives("the higher image of dart 1", twins, twins_renumbered, 0, 0, NUMBERS(4, 1, 2, 3));
  judge_gives("m differs", case_a, case_c, 10, 0, NUMBERS(1));
  judge_gives("n differs", case_a, case_d, 10, 0, NUMBERS(1));
  judge_gives("n and m differ, n times m doesn't", case_c, case_d, 10, 0, NUMBERS(1, 2));
  judge_gives("n and m differ the other way", case_d, case_c, 10, 0, NUMBERS(1));
  judge_gives("m differs and the length too", case_e, case_c, 10, 0, NUMBERS(1, 2, 3, 4, 5));
  judge_gives("m differs and no list", case_c, case_e, 10, 0, NOTHING);
  judge_gives("too short", case_e, case_e, 11, 0, NUMBERS(1, 2));
  judge_gives("too long", case_e, case_e, 11, 0, NUMBERS(1, 2, 3, 1));
  judge_gives("the length comes before a bad value", case_e, case_e, 11, 0, NUMBERS(0, 0));
  judge_gives("an empty list", case_e, case_e, 11, 0, NOTHING);
  judge_gives("a value of 0", case_e, case_e, 11, 2, NUMBERS(1, 0, 3));
  judge_gives("a value above m", case_e, case_e, 11, 3, NUMBERS(1, 2, 4));
  judge_gives("a value of 65,535", case_e, case_e, 11, 1, NUMBERS(65535, 2, 3));
  judge_gives("a value used before", case_e, case_e, 11, 3, NUMBERS(1, 2, 1));
  judge_gives("the first bad dart of several", case_e, case_e, 11, 2, NUMBERS(2, 2, 0));
  judge_gives("11 comes before 12", case_e, case_e, 11, 3, NUMBERS(1, 3, 3));
  judge_gives("a turn the wrong way", case_e, case_e, 12, 1, NUMBERS(1, 3, 2));
  judge_gives("wrong from dart 5 on", case_f, case_f, 12, 5, NUMBERS(1, 2, 3, 4, 5, 7, 6));
  judge_gives("unsewn sent to sewn, never 10", case_a, case_b, 12, 1, NUMBERS(1));
  judge_gives("sewn sent to unsewn, never 10", case_b, case_a, 12, 1, NUMBERS(1));
  judge_gives("a chain turned round", case_c, case_c, 12, 1, NUMBERS(2, 1));
  judge_gives("beta2 sewn against unsewn", MAP(2, 2, 2, 0, 1, 0), MAP(2, 2, 2, 0, 1, 2), 12, 2, NUMBERS(1, 2));
  // Dart 1 is reached from 3 in one and from 2 in the other, which only beta0 of dart 1 would see.
  judge_gives("beta0 is not asked", MAP(1, 3, 0, 3, 1), MAP(1, 3, 0, 1, 2), 12, 2, NUMBERS(1, 2, 3));
}

// ---- The drawer's calls ----

// All bytes must stay but those of the record filed, which is NULL on refusal.
static void add_to(const char *what, uint32_t die, struct second_map map, uint64_t count, uint8_t *drawer, size_t length,
                   const uint64_t answer[4], const uint8_t *record) {
  static uint8_t expected[ROOM];
  memcpy(expected, drawer, length);
  if (record != NULL) {
    memcpy(expected + count * RECORD, record, RECORD);
  }
  struct second_filed got = second_add(die, map, count, drawer, length);
  expect("add", what, answer, ANSWER(got.number, got.place, got.count));
  expect_same("add", what, expected, drawer, length);
}

// The record filed has the word as its table.
static void add_gives(const char *what, uint32_t die, struct second_map map, uint64_t count, uint8_t *drawer, size_t length,
                      struct second_map word) {
  uint8_t record[RECORD];
  put_record(record, die, word);
  add_to(what, die, map, count, drawer, length, ANSWER(0, 0, count + 1), record);
}

// The record handed back must be that part of the drawer, or empty on refusal.
static void find_gives(const char *what, struct second_map map, uint64_t count, const uint8_t *drawer, size_t length,
                       const uint64_t answer[4]) {
  struct second_found got = second_find(map, count, drawer, length);
  struct second_part part = second_record(map, count, drawer, length);
  uint64_t record = part.length == 0 ? 0 : (uint64_t)(part.bytes - drawer) / RECORD + 1;
  uint64_t rest = part.length == 0 ? 0 : (uint64_t)(part.bytes - drawer) % RECORD;
  expect("find", what, answer, ANSWER(got.number, got.place, got.die, got.record));
  expect("record", what, ANSWER(answer[3], 0, answer[3] == 0 ? 0 : RECORD), ANSWER(record, rest, part.length));
}

static void drawer_gives(const char *what, uint64_t count, const uint8_t *drawer, size_t length, unsigned number,
                         uint64_t place) {
  expect_verdict("drawer", what, number, place, second_drawer(count, drawer, length));
}

// ---- Refused maps in every call ----

static void map_refused(const char *what, struct second_map map, unsigned number, uint64_t place) {
  uint8_t drawer[RECORD] = {0};
  expect_verdict("check", what, number, place, second_check(map));
  sign_to(what, map, MOST, ANSWER(number, place), NOTHING);
  match_to(what, map, case_e, MOST, ANSWER(number, place), NOTHING);
  match_to(what, case_e, map, MOST, ANSWER(number + 20, place), NOTHING);
  match_to(what, map, map, MOST, ANSWER(number, place), NOTHING);
  judge_gives(what, map, case_e, number, place, NUMBERS(1, 2, 3));
  judge_gives(what, case_e, map, number + 20, place, NUMBERS(1, 2, 3));
  // The count, the only record and die 0 are refused too, but only after the map.
  find_gives(what, map, 2, drawer, RECORD, ANSWER(number, place));
  find_gives(what, map, 1, drawer, RECORD, ANSWER(number, place));
  add_to(what, 0, map, 2, drawer, RECORD, ANSWER(number, place), NULL);
  add_to(what, 0, map, 1, drawer, RECORD, ANSWER(number, place), NULL);
  add_to(what, 9, map, 0, drawer, RECORD, ANSWER(number, place), NULL);
}

// Each has a single wrong entry, and that is one of dart 2: beta3 above m, beta1 of two darts taken to dart 3, beta2 not
// answered, and beta4, after which beta2 leads to dart 4, and both once more to nothing.
static const struct second_map late_high = {3, 2, NUMBERS(0, 0, 0, 0, 0, 3)};
static const struct second_map late_clash = {3, 3, NUMBERS(3, 0, 0, 3, 0, 0, 0, 0, 0)};
static const struct second_map late_unanswered = {2, 2, NUMBERS(0, 0, 0, 1)};
static const struct second_map late_composition = {4, 4, NUMBERS(0, 0, 0, 0, 0, 0, 0, 3, 0, 4, 0, 2, 0, 3, 0, 0)};

static void check_refused_maps(void) {
  map_refused("n of 0", MAP(0, 1, 0), 1, 0);
  map_refused("n of 5", MAP(5, 1, 0, 0, 0, 0, 0), 1, 0);
  map_refused("n of 257", MAP(257, 1, 0), 1, 0);
  map_refused("n of 2^32 + 1", MAP(4294967297u, 1, 0), 1, 0);
  map_refused("n of 2^64 - 1", MAP(UINT64_MAX, 1, 0), 1, 0);
  map_refused("n and m of 0", (struct second_map){0, 0, NOTHING}, 1, 0);
  map_refused("m of 0", (struct second_map){2, 0, NOTHING}, 2, 0);
  map_refused("n=1 m=1021", ZEROS(1, 1021, 1021), 2, 0);
  map_refused("n=2 m=511", ZEROS(2, 511, 1022), 2, 0);
  map_refused("n=3 m=341", ZEROS(3, 341, 1023), 2, 0);
  map_refused("n=4 m=256", ZEROS(4, 256, 1024), 2, 0);
  map_refused("m of 2^64 - 1", ZEROS(1, UINT64_MAX, 1), 2, 0);
  map_refused("twice 2^63 wraps to 0", (struct second_map){2, UINT64_C(1) << 63, NOTHING}, 2, 0);
  map_refused("four times 2^62 + 1 wraps to 4", ZEROS(4, (UINT64_C(1) << 62) + 1, 4), 2, 0);
  map_refused("2 comes before 3", ZEROS(2, 511, 1), 2, 0);
  map_refused("a table too short", MAP(2, 2, 0, 0, 0), 3, 0);
  map_refused("a table too long", MAP(2, 2, 0, 0, 0, 0, 0), 3, 0);
  map_refused("an empty table", (struct second_map){2, 2, NOTHING}, 3, 0);
  map_refused("3 comes before 5", MAP(2, 2, 9), 3, 0);
  map_refused("case H", MAP(2, 2, 3, 0, 1, 0), 5, 1);
  map_refused("an entry of 65,535", MAP(1, 2, 2, 65535), 5, 2);
  map_refused("5 in a later sewing of an earlier dart", MAP(2, 2, 0, 3, 3, 0), 5, 2);
  map_refused("5 in the last entry", late_high, 5, 6);
  map_refused("5 comes before 6", MAP(1, 3, 2, 2, 4), 5, 3);
  map_refused("case I", MAP(1, 2, 1, 1), 6, 2);
  map_refused("6 at the least of the higher darts", MAP(1, 4, 3, 2, 2, 3), 6, 3);
  map_refused("6 at neither the lower dart nor the one given", late_clash, 6, 4);
  map_refused("6 comes before 7", MAP(2, 3, 1, 2, 0, 0, 1, 0), 6, 5);
  map_refused("case J", MAP(2, 2, 0, 2, 0, 0), 7, 2);
  map_refused("7 at the entry not answered, not at the 0 that does not answer", late_unanswered, 7, 4);
  map_refused("7 in a later sewing of an earlier dart", MAP(3, 2, 0, 0, 2, 0, 1, 0), 7, 3);
  map_refused("7 where a third dart answers", MAP(2, 3, 2, 2, 3, 3, 1, 2), 7, 2);
  map_refused("7 comes before 8", MAP(3, 4, 0, 0, 2, 3, 0, 1, 0, 0, 0, 0, 3, 0), 7, 11);
  map_refused("case L", MAP(3, 3, 0, 0, 2, 3, 0, 1, 0, 0, 0), 8, 3);
  map_refused("8 of beta1 and beta4", MAP(4, 3, 0, 0, 0, 2, 3, 0, 0, 1, 0, 0, 0, 0), 8, 4);
  map_refused("8 of beta2 and beta4", late_composition, 8, 8);
  map_refused("8 at beta3 before beta4 of the same dart",
              MAP(4, 5, 0, 0, 2, 3, 4, 0, 1, 0, 5, 0, 0, 1, 0, 0, 0, 0, 0, 0, 0, 0), 8, 3);
  map_refused("8 of beta1 and beta4 before beta1 and beta3 of a later dart",
              MAP(4, 6, 0, 0, 0, 2, 3, 0, 0, 1, 0, 0, 0, 0, 0, 0, 5, 0, 6, 0, 4, 0, 0, 0, 0, 0), 8, 4);
  map_refused("8 of beta2 and beta4 before beta1 and beta3 of a later dart",
              MAP(4, 6, 0, 0, 0, 2, 0, 3, 0, 1, 0, 2, 0, 0, 0, 0, 5, 0, 6, 0, 4, 0, 0, 0, 0, 0), 8, 4);
  map_refused("8 comes before 9", MAP(3, 5, 0, 0, 0, 0, 0, 0, 0, 0, 4, 5, 0, 3, 0, 0, 0), 8, 9);
  map_refused("case K", MAP(1, 2, 1, 2), 9, 2);
  map_refused("9 at the least dart not reached", MAP(1, 4, 2, 1, 4, 3), 9, 3);
  map_refused("9 between reached darts", MAP(2, 4, 0, 4, 0, 3, 0, 2, 0, 1), 9, 2);
}

static void second_refused(const char *what, struct second_map first, struct second_map second, unsigned number,
                           uint64_t place) {
  match_to(what, first, second, MOST, ANSWER(number, place), NOTHING);
  judge_gives(what, first, second, number, place, NOTHING);
}

// A place counts in the table of the map that is refused, whatever n the other map has.
static void check_second_refused(void) {
  second_refused("25 with n of 3 against 1", case_c, late_high, 25, 6);
  second_refused("25 with n of 3 against 4", MAP(4, 1, 0, 0, 0, 0), late_high, 25, 6);
  second_refused("26 with n of 3 against 1", case_c, late_clash, 26, 4);
  second_refused("26 with n of 3 against 2", case_e, late_clash, 26, 4);
  second_refused("27 with n of 2 against 1", case_c, late_unanswered, 27, 4);
  second_refused("27 with n of 2 against 3", case_m, late_unanswered, 27, 4);
  second_refused("28 with n of 4 against 1", case_c, late_composition, 28, 8);
  second_refused("28 with n of 4 against 3", case_m, late_composition, 28, 8);
  second_refused("the first of two refused, n of 4 against 3", late_composition, late_clash, 8, 8);
}

// ---- What the base showed ----

static bool clashes(const struct map *map, uint64_t d) {
  for (uint64_t lower = 1; lower < d; lower++) {
    if (beta(map, 1, d) != 0 && beta(map, 1, lower) == beta(map, 1, d)) {
      return true;
    }
  }
  return false;
}

static bool composes_badly(const struct map *map, uint64_t j, uint64_t d) {
  for (uint64_t i = 1; i + 2 <= j; i++) {
    uint64_t e = beta(map, i, beta(map, j, d));
    if (e != 0 && beta(map, i, beta(map, j, e)) != d) {
      return true;
    }
  }
  return false;
}

// Whether beta i of d breaks the rule of a number from 5 to 8. All rules before it must be kept.
static bool entry_breaks(const struct map *map, unsigned number, uint64_t i, uint64_t d) {
  uint64_t e = beta(map, i, d);
  switch (number) {
  case 5:
    return e > map->m;
  case 6:
    return i == 1 && clashes(map, d);
  case 7:
    return i >= 2 && e != 0 && beta(map, i, e) != d;
  default:
    return composes_badly(map, i, d);
  }
}

// The first entry of a dart that breaks the rule, or 0.
static uint64_t sewing_that_breaks(const struct map *map, unsigned number, uint64_t d) {
  for (uint64_t i = 1; i <= map->n; i++) {
    if (entry_breaks(map, number, i, d)) {
      return i;
    }
  }
  return 0;
}

// What document 01 shows: the first rule broken, at the least dart that breaks it by any entry. Number 0 where none is.
static struct second_verdict shown_by_base(const struct map *map) {
  for (unsigned number = 5; number <= 8; number++) {
    for (uint64_t d = 1; d <= map->m; d++) {
      if (sewing_that_breaks(map, number, d) != 0) {
        return (struct second_verdict){number, d};
      }
    }
  }
  return (struct second_verdict){0, 0};
}

// The base's dart can be read off the place, and the rest of the place is the first entry of that dart that breaks the rule.
static bool dart_can_be_read(const struct map *map) {
  struct second_verdict base = shown_by_base(map);
  struct second_verdict got = second_check(map_lent(map));
  if (base.number == 0) {
    return got.number == 0 || got.number == 9;
  }
  return got.number == base.number && got.place >= 1 && (got.place - 1) / map->n + 1 == base.place &&
         (got.place - 1) % map->n + 1 == sewing_that_breaks(map, base.number, base.place);
}

// Every table with entries up to `most`.
static void every_dart_can_be_read(const char *what, uint64_t n, uint64_t m, uint16_t most) {
  struct map map = map_empty(n, m);
  uint64_t otherwise = 0;
  do {
    otherwise += !dart_can_be_read(&map);
  } while (next_table(&map, most));
  expect("the dart of every place", what, ANSWER(0), ANSWER(otherwise));
}

static void check_against_base(void) {
  every_dart_can_be_read("n=1 m=1", 1, 1, 2);
  every_dart_can_be_read("n=1 m=2", 1, 2, 3);
  every_dart_can_be_read("n=1 m=3", 1, 3, 4);
  every_dart_can_be_read("n=1 m=4", 1, 4, 5);
  every_dart_can_be_read("n=2 m=1", 2, 1, 2);
  every_dart_can_be_read("n=2 m=2", 2, 2, 3);
  every_dart_can_be_read("n=2 m=3", 2, 3, 4);
  every_dart_can_be_read("n=3 m=1", 3, 1, 2);
  every_dart_can_be_read("n=3 m=2", 3, 2, 3);
  every_dart_can_be_read("n=3 m=3", 3, 3, 3);
  every_dart_can_be_read("n=4 m=1", 4, 1, 2);
  every_dart_can_be_read("n=4 m=2", 4, 2, 3);
}

// ---- A drawer's life ----

enum { LIFE_RECORDS = 4, LIFE_BYTES = LIFE_RECORDS * RECORD };

// The first 24 bytes of case F as die 501, and the first 20 of case E as die 0x01020304.
static const uint8_t f_bytes[] = {245, 1, 0, 0, 2, 0, 7, 0, 3, 0, 0, 0, 1, 0, 0, 0, 2, 0, 4, 0, 6, 0, 3, 0};
static const uint8_t e_bytes[] = {4, 3, 2, 1, 2, 0, 3, 0, 3, 0, 0, 0, 1, 0, 0, 0, 2, 0, 0, 0};

static void check_life(void) {
  // Four layouts are filed in a drawer whose bytes were anything before.
  uint8_t drawer[LIFE_BYTES];
  memset(drawer, 0xAB, LIFE_BYTES);
  add_gives("F as 501", 501, case_f, 0, drawer, LIFE_BYTES, case_g);
  add_gives("E as 16,909,060", 0x01020304, case_e, 1, drawer, LIFE_BYTES, case_e_signed);
  add_gives("C as 7", 7, case_c, 2, drawer, LIFE_BYTES, MAP(1, 2, 0, 1));
  add_gives("D as the highest die", UINT32_MAX, case_d, 3, drawer, LIFE_BYTES, case_d);
  expect_same("add", "the bytes of F", f_bytes, drawer, sizeof f_bytes);
  expect_same("add", "the bytes of E", e_bytes, drawer + RECORD, sizeof e_bytes);
  // Found, or not.
  drawer_gives("four filed layouts", 4, drawer, LIFE_BYTES, 0, 0);
  drawer_gives("fewer counted than filed", 2, drawer, LIFE_BYTES, 0, 0);
  drawer_gives("an empty drawer", 0, NULL, 0, 0, 0);
  find_gives("F", case_f, 4, drawer, LIFE_BYTES, ANSWER(0, 0, 501, 1));
  find_gives("G is F", case_g, 4, drawer, LIFE_BYTES, ANSWER(0, 0, 501, 1));
  find_gives("E", case_e, 4, drawer, LIFE_BYTES, ANSWER(0, 0, 0x01020304, 2));
  find_gives("C", case_c, 4, drawer, LIFE_BYTES, ANSWER(0, 0, 7, 3));
  find_gives("D shares 0,1 with C", case_d, 4, drawer, LIFE_BYTES, ANSWER(0, 0, UINT32_MAX, 4));
  find_gives("A isn't filed", case_a, 4, drawer, LIFE_BYTES, ANSWER(15, 0));
  find_gives("D isn't counted", case_d, 3, drawer, LIFE_BYTES, ANSWER(15, 0));
  find_gives("nothing is in an empty drawer", case_a, 0, NULL, 0, ANSWER(15, 0));
  // Not filed.
  add_to("die 0", 0, case_a, 4, drawer, LIFE_BYTES, ANSWER(16, 0), NULL);
  add_to("die 0 comes before 17", 0, case_f, 4, drawer, LIFE_BYTES, ANSWER(16, 0), NULL);
  add_to("die filed", 7, case_a, 4, drawer, LIFE_BYTES, ANSWER(16, 3), NULL);
  add_to("die filed, layout filed elsewhere", 7, case_f, 4, drawer, LIFE_BYTES, ANSWER(16, 3), NULL);
  add_to("layout filed", 9, case_c, 4, drawer, LIFE_BYTES, ANSWER(17, 3), NULL);
  add_to("layout filed, numbered otherwise", 9, case_g, 4, drawer, LIFE_BYTES, ANSWER(17, 1), NULL);
  add_to("layout filed, with room left", 9, case_e, 3, drawer, LIFE_BYTES, ANSWER(17, 2), NULL);
  add_to("no room at all", 9, case_a, 4, drawer, LIFE_BYTES, ANSWER(18, 0), NULL);
  add_to("a byte short of room", 9, case_a, 3, drawer, LIFE_BYTES - 1, ANSWER(18, 0), NULL);
  add_to("no room in an empty drawer", 9, case_a, 0, drawer, RECORD - 1, ANSWER(18, 0), NULL);
  // Wrong counts.
  drawer_gives("a byte short of four records", 4, drawer, LIFE_BYTES - 1, 13, 0);
  drawer_gives("five records in four", 5, drawer, LIFE_BYTES, 13, 0);
  drawer_gives("a count of 2^53, 2,048 times wraps to 0", UINT64_C(1) << 53, drawer, LIFE_BYTES, 13, 0);
  drawer_gives("the highest count", UINT64_MAX, drawer, LIFE_BYTES, 13, 0);
  find_gives("five records in four", case_f, 5, drawer, LIFE_BYTES, ANSWER(13, 0));
  find_gives("the highest count", case_f, UINT64_MAX, drawer, LIFE_BYTES, ANSWER(13, 0));
  find_gives("the map comes before the count", case_h, 5, drawer, LIFE_BYTES, ANSWER(5, 1));
  add_to("five records in four", 9, case_a, 5, drawer, LIFE_BYTES, ANSWER(13, 0), NULL);
  add_to("the highest count", 9, case_a, UINT64_MAX, drawer, LIFE_BYTES, ANSWER(13, 0), NULL);
  add_to("13 comes before die 0", 0, case_a, 5, drawer, LIFE_BYTES, ANSWER(13, 0), NULL);
  add_to("the map comes before the count", 0, case_h, 5, drawer, LIFE_BYTES, ANSWER(5, 1), NULL);
}

static void ring_files(const char *what, unsigned n, unsigned m, uint32_t die, uint8_t *drawer, size_t length) {
  uint16_t word[MOST];
  struct map ring = ring_map(n, m);
  shape_word(true, n, m, word);
  memset(drawer, 0xAB, length);
  add_gives(what, die, map_lent(&ring), 0, drawer, length, (struct second_map){n, m, word, n * m});
  find_gives(what, map_lent(&ring), 1, drawer, length, ANSWER(0, 0, die, 1));
}

// A record whose m and labels do not fit a byte; and one whose word leaves no filling at all.
static void check_large_records(void) {
  uint8_t drawer[2 * RECORD];
  ring_files("a ring of 300", 2, 300, 77, drawer, 2 * RECORD);
  expect_same("add", "m of 300, little end first", (const uint8_t[]){44, 1}, drawer + 6, 2);
  ring_files("a ring of 1,020", 1, 1020, 78, drawer, RECORD);
}

// ---- Bad records ----

static void good_pair(uint8_t *drawer) {
  put_record(drawer, 501, case_g);
  put_record(drawer + RECORD, 7, case_e_signed);
}

// The hit is record 1, and a bad record 2 behind it still comes first.
static void pair_is_bad(const char *what, uint8_t *drawer) {
  drawer_gives(what, 2, drawer, 2 * RECORD, 14, 2);
  find_gives(what, case_f, 2, drawer, 2 * RECORD, ANSWER(14, 2));
  add_to(what, 9, case_a, 2, drawer, 2 * RECORD, ANSWER(14, 2), NULL);
  drawer_gives("the bad record isn't counted", 1, drawer, 2 * RECORD, 0, 0);
  find_gives("the bad record isn't counted", case_f, 1, drawer, 2 * RECORD, ANSWER(0, 0, 501, 1));
}

static void second_record_is_bad(const char *what, uint32_t die, struct second_map map) {
  uint8_t drawer[2 * RECORD];
  put_record(drawer, 501, case_g);
  put_record(drawer + RECORD, die, map);
  pair_is_bad(what, drawer);
}

// The second record is case E as die 7, its word ends at byte 20. A single byte of it is changed.
static void byte_is_bad(const char *what, unsigned at, uint8_t byte) {
  uint8_t drawer[2 * RECORD];
  good_pair(drawer);
  drawer_gives("two good records", 2, drawer, 2 * RECORD, 0, 0);
  drawer[RECORD + at] = byte;
  pair_is_bad(what, drawer);
}

static void check_bad_records(void) {
  byte_is_bad("die number 0", 0, 0);
  byte_is_bad("n of 0", 4, 0);
  byte_is_bad("n of 5", 4, 5);
  byte_is_bad("n of 255", 4, 255);
  byte_is_bad("n of 1, the word goes on", 4, 1);
  byte_is_bad("the zero byte", 5, 1);
  byte_is_bad("m of 0", 6, 0);
  byte_is_bad("m of 2, the word goes on", 6, 2);
  byte_is_bad("m of 259", 7, 1);
  byte_is_bad("m above 510", 7, 2);
  byte_is_bad("the first filling byte", 20, 1);
  byte_is_bad("the last filling byte", 2047, 128);
  byte_is_bad("an entry above m", 8, 4);
  byte_is_bad("the high byte of an entry", 9, 1);
  byte_is_bad("two darts taken to one", 12, 3);
  byte_is_bad("beta2 not answered", 10, 2);
  second_record_is_bad("die number filed before", 501, case_e_signed);
  second_record_is_bad("layout filed before", 7, case_g);
  second_record_is_bad("a map that isn't its own signature", 7, case_e);
  second_record_is_bad("the layout filed before, not as its signature", 7, case_f);
  second_record_is_bad("clash", 7, case_i);
  second_record_is_bad("not answered", 7, case_j);
  second_record_is_bad("composition", 7, case_l);
  second_record_is_bad("not connected", 7, case_k);
  second_record_is_bad("n times m of 1,022", 7, ZEROS(2, 511, 1020));
}

static void check_bad_order(void) {
  uint8_t drawer[3 * RECORD];
  good_pair(drawer);
  put_record(drawer + 2 * RECORD, 7, MAP(1, 2, 0, 1));
  drawer_gives("the die of record 2 again", 3, drawer, 3 * RECORD, 14, 3);
  drawer[RECORD + 5] = 1;
  drawer_gives("records 2 and 3 are bad", 3, drawer, 3 * RECORD, 14, 2);
  drawer[5] = 1;
  drawer_gives("all records are bad", 3, drawer, 3 * RECORD, 14, 1);
  drawer_gives("13 comes before 14", 3, drawer, 3 * RECORD - 1, 13, 0);
  find_gives("13 comes before 14", case_f, 3, drawer, 3 * RECORD - 1, ANSWER(13, 0));
  find_gives("14 comes before 15", case_a, 3, drawer, 3 * RECORD, ANSWER(14, 1));
  find_gives("the map comes before 14", case_k, 3, drawer, 3 * RECORD, ANSWER(9, 2));
  add_to("14 comes before die 0", 0, case_a, 3, drawer, 3 * RECORD, ANSWER(14, 1), NULL);
  add_to("14 comes before 18", 9, case_a, 3, drawer, 3 * RECORD, ANSWER(14, 1), NULL);
  add_to("13 comes before 14", 9, case_a, 3, drawer, 3 * RECORD - 1, ANSWER(13, 0), NULL);
}

// The die number is all four of its bytes.
static void check_high_die(void) {
  uint8_t drawer[RECORD];
  put_record(drawer, 0x01000000, case_g);
  drawer_gives("a die number in its highest byte only", 1, drawer, RECORD, 0, 0);
  find_gives("a die number in its highest byte only", case_f, 1, drawer, RECORD, ANSWER(0, 0, 16777216, 1));
}

// ---- A full drawer ----

// For each n the rings and then the chains of 1 to 128 darts: 1,024 layouts, dies from 5,000.
static void fill_full(uint8_t *drawer) {
  uint16_t word[MOST];
  for (unsigned at = 0; at < MOST_RECORDS; at++) {
    unsigned n = at / 256 + 1;
    unsigned m = at % 128 + 1;
    bool ring = at / 128 % 2 == 0;
    shape_word(ring, n, m, word);
    put_record(drawer + at * RECORD, 5000 + at, (struct second_map){n, m, word, n * m});
  }
}

static void check_full_drawer(void) {
  uint8_t *drawer = full_drawer;
  fill_full(drawer);
  memset(drawer + FULL_BYTES, 0xAB, RECORD);
  drawer_gives("1,024 records", 1024, drawer, FULL_BYTES, 0, 0);
  drawer_gives("1,025 records", 1025, drawer, ROOM, 13, 0);
  find_gives("chain C", case_c, 1024, drawer, FULL_BYTES, ANSWER(0, 0, 5129, 130));
  find_gives("ring E", case_e, 1024, drawer, FULL_BYTES, ANSWER(0, 0, 5258, 259));
  find_gives("D isn't filed", case_d, 1024, drawer, FULL_BYTES, ANSWER(15, 0));
  find_gives("1,025 records", case_c, 1025, drawer, ROOM, ANSWER(13, 0));
  add_to("a full drawer, with bytes to spare", 9, case_f, 1024, drawer, ROOM, ANSWER(18, 0), NULL);
  add_to("a full drawer, without", 9, case_f, 1024, drawer, FULL_BYTES, ANSWER(18, 0), NULL);
  add_to("16 comes before 18", 6023, case_f, 1024, drawer, ROOM, ANSWER(16, 1024), NULL);
  add_to("die 0 comes before 18", 0, case_f, 1024, drawer, ROOM, ANSWER(16, 0), NULL);
  add_to("17 comes before 18", 9, case_c, 1024, drawer, ROOM, ANSWER(17, 130), NULL);
  add_to("1,025 records", 9, case_f, 1025, drawer, ROOM, ANSWER(13, 0), NULL);
  // One record less leaves room for just one more, and the byte after it stays.
  memset(drawer + FULL_BYTES - RECORD, 0xAB, 2 * RECORD);
  add_gives("the 1,024th record", 9, case_f, 1023, drawer, ROOM, case_g);
  drawer_gives("after the 1,024th record", 1024, drawer, ROOM, 0, 0);
}

// ---- The layout lister ----

static void list_gives(const char *what, const uint8_t *records, size_t length, const char *expected) {
  FILE *in = tmpfile();
  FILE *out = tmpfile();
  static char got[20000];
  if (in == NULL || out == NULL || fwrite(records, 1, length, in) != length) {
    fprintf(stderr, "no file to list\n");
    exit(1);
  }
  rewind(in);
  second_list(in, out);
  rewind(out);
  got[fread(got, 1, sizeof got - 1, out)] = '\0';
  bool good = strcmp(expected, got) == 0;
  count(good, "list", what);
  if (!good) {
    printf("expected:\n%s\ngot:\n%s\n", expected, got);
  }
  fclose(in);
  fclose(out);
}

// A record alone, with some bits put in one of its bytes.
static void list_spoiled(const char *what, uint32_t die, struct second_map map, size_t at, uint8_t bits, const char *expected) {
  uint8_t record[RECORD];
  put_record(record, die, map);
  record[at] |= bits;
  list_gives(what, record, RECORD, expected);
}

static void list_one(const char *what, uint32_t die, struct second_map map, const char *expected) {
  list_spoiled(what, die, map, 0, 0, expected);
}

static void check_list(void) {
  list_one("case F as die 501", 501, case_f, "501 2 7 1 7\n");
  list_one("case A", 1, case_a, "1 1 1 1 1\n");
  list_one("case C", 2, case_c, "2 1 2 1 2\n");
  list_one("case E as the highest die", UINT32_MAX, case_e, "4294967295 2 3 3 1\n");
  list_one("case G", 5, case_g, "5 2 7 1 1\n");
  list_one("case H", 8, case_h, "8 refused 5 1\n");
  list_one("case I", 8, case_i, "8 refused 6 2\n");
  list_one("case J", 8, case_j, "8 refused 7 2\n");
  list_one("case K", 8, case_k, "8 refused 9 2\n");
  list_one("case L", 8, case_l, "8 refused 8 3\n");
  list_one("case M", 8, case_m, "8 3 3 1 1\n");
  list_one("die 0", 0, case_f, "0 refused 14 1\n");
  // Places above the first dart's.
  list_one("5 in the last entry", 8, late_high, "8 refused 5 6\n");
  list_one("6 at a higher dart", 8, late_clash, "8 refused 6 4\n");
  list_one("7 at a higher dart", 8, late_unanswered, "8 refused 7 4\n");
  list_one("8 at a higher dart", 8, late_composition, "8 refused 8 8\n");
  // Bounds.
  list_one("n of 0", 6, ZEROS(0, 1, 1), "6 refused 1 0\n");
  list_one("n of 5", 6, ZEROS(5, 1, 5), "6 refused 1 0\n");
  list_one("n of 0 and m of 0", 6, ZEROS(0, 0, 0), "6 refused 1 0\n");
  list_one("die 0 and n of 0", 0, ZEROS(0, 1, 0), "0 refused 1 0\n");
  list_one("m of 0", 6, ZEROS(2, 0, 0), "6 refused 2 0\n");
  list_one("m of 511", 6, ZEROS(2, 511, 1020), "6 refused 2 0\n");
  list_one("m of 65,535", 6, ZEROS(4, 65535, 0), "6 refused 2 0\n");
  list_one("die 0 and m of 0", 0, ZEROS(2, 0, 0), "0 refused 2 0\n");
  // With n or m bad, the table's numbers are not judged, nor is anything taken for filling.
  list_one("m of 0 and numbers after it", 6, (struct second_map){2, 0, NUMBERS(7)}, "6 refused 2 0\n");
  // Die, zero byte and filling.
  list_spoiled("the zero byte", 501, case_f, 5, 1, "501 refused 14 1\n");
  list_spoiled("the first filling byte", 501, case_f, 8 + 28, 1, "501 refused 14 1\n");
  list_spoiled("the last filling byte", 501, case_f, 2047, 1, "501 refused 14 1\n");
  list_spoiled("14 comes before 5", 8, case_h, 5, 1, "8 refused 14 1\n");
  list_spoiled("2 comes before 14", 6, ZEROS(2, 511, 1020), 5, 1, "6 refused 2 0\n");
}

static void check_list_several(void) {
  uint8_t records[5 * RECORD];
  put_record(records, 501, case_f);
  put_record(records + RECORD, 8, case_k);
  put_record(records + 2 * RECORD, 0, case_f);
  put_record(records + 3 * RECORD, 501, case_f);
  put_record(records + 4 * RECORD, 501, case_e);
  list_gives("earlier records aren't compared, refused ones are counted", records, 4 * RECORD,
             "501 2 7 1 7\n8 refused 9 2\n0 refused 14 3\n501 2 7 1 7\n");
  list_gives("empty input", records, 0, "");
  list_gives("one byte", records, 1, "short 1\n");
  list_gives("a byte short", records, RECORD - 1, "short 2047\n");
  list_gives("a record and some", records, RECORD + 10, "501 2 7 1 7\nshort 10\n");
  list_gives("short after a refusal", records, 5 * RECORD - 1,
             "501 2 7 1 7\n8 refused 9 2\n0 refused 14 3\n501 2 7 1 7\nshort 2047\n");
}

// The lister has no limit of 1,024 records.
static void check_list_many(void) {
  static const char line[] = "501 2 7 1 7\n";
  static char expected[20000];
  for (size_t at = 0; at < MOST_RECORDS; at++) {
    put_record(full_drawer + at * RECORD, 501, case_f);
    memcpy(expected + at * strlen(line), line, strlen(line));
  }
  put_record(full_drawer + FULL_BYTES, 0, case_f);
  strcpy(expected + MOST_RECORDS * strlen(line), "0 refused 14 1025\n");
  list_gives("1,025 records", full_drawer, ROOM, expected);
}

int main(void) {
  check_signatures();
  check_starts();
  check_sizes();
  check_shapes();
  check_refused_maps();
  check_second_refused();
  check_against_base();
  check_match();
  check_judge();
  check_life();
  check_large_records();
  check_bad_records();
  check_bad_order();
  check_high_die();
  check_full_drawer();
  check_list();
  check_list_several();
  check_list_many();
  printf("%u passed, %u failed\n", passed, failed);
  return failed == 0 ? 0 : 1;
}
