// Reads cases `sign` and `match` in the form of CASES.md and asks the library about each map and each two maps in turn: as they
// are, with other lengths of output, renumbered, with the signature as the table, turned about, with the list that the match
// shows and with lists near it. What the check, the signature, the match and the judging say must go together.
#include <inttypes.h>
#include <stdio.h>
#include <string.h>

#include "../cases/cases.h"
#include "../second/second_inside.h"
#include "expect.h"
#include "library.h"

enum { RENUMBERINGS = 4, OUTPUT_ROOM = MOST_ENTRIES + SPARE };

static uint64_t signs, accepted_maps, matches, matched, unmatched;

// ---- One map ----

// What one signature answered, and the output that it was lent a part of.
struct asked_sign {
  struct second_signed answer;
  uint16_t output[OUTPUT_ROOM];
};

static struct asked_sign ask_sign(struct second_map map, size_t lent) {
  struct asked_sign asked;
  leave_untouched(asked.output, OUTPUT_ROOM);
  asked.answer = library_sign(map, asked.output, lent);
  // An accepted table has n * m numbers, as many as may be written.
  size_t written = asked.answer.number == 0 && map.length <= lent ? map.length : 0;
  expect(all_untouched(asked.output + written, OUTPUT_ROOM - written), map, "the output is changed where it must not be");
  return asked;
}

static bool same_signed(struct second_signed one, struct second_signed other) {
  return one.number == other.number && one.place == other.place && one.start == other.start && one.symmetries == other.symmetries;
}

static bool is_start(struct second_map map, uint64_t start, const uint16_t *signature) {
  uint16_t word[MOST_ENTRIES];
  if (start < 1 || start > map.m) {
    return false;
  }
  second_word(map, start, word);
  return same_numbers(word, signature, map.length);
}

// The map in another form must have the same signature and symmetries, from a start that yields it.
static uint64_t turn_to(struct second_map map, struct second_map turned, const struct asked_sign *asked) {
  struct asked_sign again = ask_sign(turned, OUTPUT_ROOM);
  expect(again.answer.number == 0, map, "refused as its signature or renumbered");
  expect(same_numbers(again.output, asked->output, map.length), map, "another signature as its signature or renumbered");
  expect(again.answer.symmetries == asked->answer.symmetries, map, "other symmetries as its signature or renumbered");
  expect(is_start(turned, again.answer.start, again.output), map, "no start of the signature, as that or renumbered");
  return again.answer.start;
}

static void turn_sign_output(struct second_map map, const struct asked_sign *asked) {
  struct asked_sign fitting = ask_sign(map, map.length);
  expect(same_signed(fitting.answer, asked->answer), map, "another answer with an output of n * m numbers");
  expect(same_numbers(fitting.output, asked->output, map.length), map, "another signature with an output of n * m numbers");
  struct asked_sign shorter = ask_sign(map, map.length - 1);
  expect(same_signed(shorter.answer, (struct second_signed){.number = 4}), map,
         "not 4 at 0 with an output that is one number short");
}

static void turn_map(struct second_map map) {
  struct asked_sign asked = ask_sign(map, OUTPUT_ROOM);
  struct second_signed answer = asked.answer;
  struct second_verdict verdict = library_check(map);
  // So much output is lent that 4 is never given.
  expect(verdict.number == answer.number && verdict.place == answer.place, map,
         "the check judges the map otherwise than the signature does");
  bool accepted = answer.number == 0;
  bool acceptable = second_check(map).number == 0;
  expect(accepted == acceptable, map, accepted ? "accepted wrongly" : "refused wrongly");
  if (!accepted) {
    expect(answer.start == 0 && answer.symmetries == 0, map, "refused with a start or symmetries");
  }
  if (!accepted || !acceptable) {
    return;
  }
  accepted_maps++;
  expect(answer.place == 0, map, "accepted with a place");
  expect(is_start(map, answer.start, asked.output), map, "no start of the signature");
  expect(answer.symmetries >= 1 && answer.symmetries <= map.m, map, "symmetries below 1 or above m");
  turn_sign_output(map, &asked);
  struct second_map signature = map;
  signature.table = asked.output;
  expect(turn_to(map, signature, &asked) == 1, map, "the signature's start is not 1");
  for (int time = 0; time < RENUMBERINGS; time++) {
    uint16_t names[TABLE_ROOM];
    struct map copy = renumbered(map, names);
    turn_to(map, map_lent(&copy), &asked);
  }
}

// ---- Two maps ----

struct pair {
  struct second_map first;
  struct second_map second;
};

static struct pair turned_about(struct pair pair) {
  return (struct pair){pair.second, pair.first};
}

static bool same_verdicts(struct second_verdict one, struct second_verdict other) {
  return one.number == other.number && one.place == other.place;
}

static bool is_verdict(struct second_verdict verdict, unsigned number, uint64_t place) {
  return same_verdicts(verdict, (struct second_verdict){number, place});
}

// What one match answered, and the numbers of its output.
struct asked_match {
  struct second_verdict verdict;
  uint16_t images[OUTPUT_ROOM];
};

static struct asked_match ask_match(struct pair pair, size_t output_length) {
  struct asked_match asked;
  leave_untouched(asked.images, OUTPUT_ROOM);
  asked.verdict = library_match(pair.first, pair.second, asked.images, output_length);
  size_t written = asked.verdict.number == 0 && pair.first.m <= output_length ? (size_t)pair.first.m : 0;
  expect(all_untouched(asked.images + written, OUTPUT_ROOM - written), pair.first,
         "the output is changed by a refusal, or beyond its first m numbers");
  return asked;
}

static struct second_verdict ask_judge(struct pair pair, const uint16_t *list, uint64_t length) {
  return library_judge(pair.first, pair.second, list, (size_t)length);
}

static void expect_judged(struct pair pair, const uint16_t *list, uint64_t length, struct second_verdict right,
                          const char *what) {
  expect(same_verdicts(ask_judge(pair, list, length), right), pair.first, what);
}

static void expect_accepted(struct pair pair, const uint16_t *list, const char *what) {
  expect_judged(pair, list, pair.first.m, (struct second_verdict){0, 0}, what);
}

// Wants accepted maps of one size: their signatures say whether they are the same layout.
static bool same_signatures(struct pair pair) {
  uint16_t first[MOST_ENTRIES];
  uint16_t second[MOST_ENTRIES];
  library_sign(pair.first, first, MOST_ENTRIES);
  library_sign(pair.second, second, MOST_ENTRIES);
  return same_numbers(first, second, pair.first.length);
}

// ---- Two maps that match ----

static void turn_shown(struct pair pair, const uint16_t *images) {
  size_t m = (size_t)pair.first.m;
  uint16_t inverse[MOST_ENTRIES] = {0};
  expect_accepted(pair, images, "the list that the match shows is refused");
  for (size_t dart = 1; dart <= m; dart++) {
    // An image that is no dart was found out above.
    if (images[dart - 1] >= 1 && images[dart - 1] <= m) {
      inverse[images[dart - 1] - 1] = (uint16_t)dart;
    }
  }
  expect_accepted(turned_about(pair), inverse, "the list turned about is refused");
}

static void turn_match_output(struct pair pair, const uint16_t *images) {
  size_t m = (size_t)pair.first.m;
  struct asked_match fitting = ask_match(pair, m);
  expect(is_verdict(fitting.verdict, 0, 0), pair.first, "refused with an output of m numbers");
  expect(same_numbers(fitting.images, images, m), pair.first, "another matching with an output of m numbers");
  expect(is_verdict(ask_match(pair, m - 1).verdict, 4, 0), pair.first, "not 4 at 0 with an output that is one number short");
}

static void name_each_itself(uint16_t *list, uint64_t m) {
  for (size_t dart = 1; dart <= m; dart++) {
    list[dart - 1] = (uint16_t)dart;
  }
}

// Dart 1 goes to the least dart, which is dart 1 here; the sewings then leave no choice.
static void match_itself(struct second_map map) {
  uint16_t unmoved[MOST_ENTRIES];
  struct asked_match asked = ask_match((struct pair){map, map}, MOST_ENTRIES);
  name_each_itself(unmoved, map.m);
  expect(is_verdict(asked.verdict, 0, 0), map, "refused against itself");
  expect(same_numbers(asked.images, unmoved, (size_t)map.m), map, "a dart goes elsewhere against itself");
}

// The names that made the copy are a matching too, shown or not.
static void match_renumbered(struct second_map map) {
  uint16_t names[TABLE_ROOM];
  struct map copy = renumbered(map, names);
  struct pair pair = {map, map_lent(&copy)};
  struct asked_match asked = ask_match(pair, MOST_ENTRIES);
  expect(is_verdict(asked.verdict, 0, 0), map, "refused against a renumbered copy");
  expect(asked.images[0] <= names[0], map, "dart 1 goes higher than it need");
  expect_accepted(pair, asked.images, "the list shown for a renumbered copy is refused");
  expect_accepted(pair, names, "the new names are refused as a list");
}

static void turn_list_length(struct pair pair, const uint16_t *images) {
  size_t m = (size_t)pair.first.m;
  uint16_t longer[MOST_ENTRIES + 1];
  memcpy(longer, images, m * sizeof longer[0]);
  longer[m] = 0;
  expect_judged(pair, longer, m + 1, (struct second_verdict){11, 0}, "not 11 at 0 for a list of m + 1 numbers");
  expect_judged(pair, longer, m - 1, (struct second_verdict){11, 0}, "not 11 at 0 for a list of m - 1 numbers");
}

static void expect_no_image(struct pair pair, const uint16_t *images, size_t dart, uint64_t image) {
  uint16_t list[MOST_ENTRIES];
  memcpy(list, images, pair.first.m * sizeof list[0]);
  list[dart - 1] = (uint16_t)image;
  expect_judged(pair, list, pair.first.m, (struct second_verdict){11, dart},
                "not 11 at the dart whose image is 0, above m or used before");
}

// Darts swapped may be alike, so the second program says what is right.
static void turn_to_swapped(struct pair pair, const uint16_t *images, size_t one, size_t other) {
  uint16_t list[MOST_ENTRIES];
  size_t m = (size_t)pair.first.m;
  memcpy(list, images, m * sizeof list[0]);
  list[one - 1] = images[other - 1];
  list[other - 1] = images[one - 1];
  expect_judged(pair, list, m, second_judge(pair.first, pair.second, list, m),
                "a list with two images swapped is judged otherwise than by the second program");
}

static void turn_images(struct pair pair, const uint16_t *images) {
  uint64_t m = pair.first.m;
  size_t dart = (size_t)(1 + drawn_below(m));
  expect_no_image(pair, images, dart, 0);
  expect_no_image(pair, images, dart, m + 1);
  if (dart > 1) {
    size_t lower = (size_t)(1 + drawn_below(dart - 1));
    expect_no_image(pair, images, dart, images[lower - 1]);
    turn_to_swapped(pair, images, lower, dart);
  }
}

static void turn_matched(struct pair pair, const uint16_t *images) {
  matched++;
  expect(ask_match(turned_about(pair), MOST_ENTRIES).verdict.number == 0, pair.first, "no match when turned about");
  turn_shown(pair, images);
  turn_match_output(pair, images);
  match_itself(pair.first);
  match_renumbered(pair.first);
  turn_list_length(pair, images);
  turn_images(pair, images);
}

// ---- All turns of a pair ----

// Every one-to-one list must fail at some dart; the one that moves no dart stands for them all.
static void turn_unmatched(struct pair pair) {
  unmatched++;
  uint16_t unmoved[MOST_ENTRIES];
  size_t m = (size_t)pair.first.m;
  name_each_itself(unmoved, m);
  struct second_verdict right = second_judge(pair.first, pair.second, unmoved, m);
  struct second_verdict verdict = ask_judge(pair, unmoved, m);
  expect(verdict.number == 12, pair.first, "a list is not 12 where there is no matching");
  expect(same_verdicts(verdict, right), pair.first, "12 elsewhere than by the second program");
}

// What is refused before any list is looked at. 0 where both maps are accepted and of one size.
static struct second_verdict refusal_of_maps(struct pair pair) {
  struct second_verdict first = library_check(pair.first);
  struct second_verdict second = library_check(pair.second);
  if (first.number != 0) {
    return first;
  }
  if (second.number != 0) {
    return (struct second_verdict){second.number + 20, second.place};
  }
  bool same_size = pair.first.n == pair.second.n && pair.first.m == pair.second.m;
  return (struct second_verdict){same_size ? 0 : 10, 0};
}

static void turn_pair(struct pair pair) {
  struct asked_match asked = ask_match(pair, OUTPUT_ROOM);
  struct second_verdict refusal = refusal_of_maps(pair);
  if (refusal.number != 0) {
    expect(same_verdicts(asked.verdict, refusal), pair.first, "the match judges the maps otherwise than the check does");
    expect_judged(pair, asked.images, 1, refusal, "the judging judges the maps otherwise than the check does");
    return;
  }
  // Of maps that are wrongly accepted nothing more can be asked.
  if (second_check(pair.first).number != 0 || second_check(pair.second).number != 0) {
    expect(false, pair.first, "accepted wrongly");
    return;
  }
  bool same = same_signatures(pair);
  expect(is_verdict(asked.verdict, same ? 0 : 10, 0), pair.first,
         same ? "equal signatures, and not 0 at 0" : "other signatures, and not 10 at 0");
  if (asked.verdict.number == 0 && same) {
    turn_matched(pair, asked.images);
  } else if (!same) {
    turn_unmatched(pair);
  }
}

// ---- All cases ----

int main(void) {
  struct test_case asked;
  while (read_case(&asked, NULL)) {
    // The case's own output is left alone: `answers` prints what becomes of it.
    count_case();
    if (asked.call == SIGN) {
      signs++;
      turn_map(asked.first);
    } else if (asked.call == MATCH) {
      matches++;
      turn_pair((struct pair){asked.first, asked.second});
    }
    drop_case(&asked);
  }
  printf("%" PRIu64 " maps accepted of %" PRIu64 " cases\n", accepted_maps, signs);
  printf("%" PRIu64 " pairs matched and %" PRIu64 " of one size did not, of %" PRIu64 " cases\n", matched, unmatched, matches);
  // Without all three kinds something was not turned.
  if (accepted_maps == 0 || matched == 0 || unmatched == 0) {
    printf("FAILED: no map was accepted, or no pair matched, or none did not\n");
    return 1;
  }
  return finish();
}
