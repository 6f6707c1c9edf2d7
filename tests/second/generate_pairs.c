// Cases of two maps: matches, and handed-in lists that are right or wrong.
#include <stdio.h>

#include "generate.h"

// What a pair is made with: chance, its turn among the pairs of its group, and how large a table may be.
struct making {
  struct chance *chance;
  uint64_t turn;
  uint64_t most_entries;
};

// Two maps, and the list that is handed in with them: to[d - 1] is where dart d goes.
struct pair {
  struct map first;
  struct map second;
  uint16_t to[TABLE_ROOM];
  size_t length;
};

static struct map any_map(const struct making *making) {
  return any_accepted_map(making->chance, making->most_entries);
}

static struct map map_refused_in_turn(const struct making *making, uint64_t turn) {
  return refused_map(making->chance, table_refusals[turn % TABLE_REFUSALS], making->most_entries);
}

// Gives the second map other names, which are the list.
static void rename_second(struct chance *chance, struct pair *pair) {
  pair->length = (size_t)pair->second.m;
  shuffled_names(chance, pair->second.m, pair->to);
  pair->second = map_renamed(&pair->second, pair->to);
}

// ---- Both accepted ----

static struct pair pair_same(const struct making *making) {
  struct pair pair = {.first = any_map(making)};
  pair.second = pair.first;
  return pair;
}

static struct pair pair_renamed(const struct making *making) {
  struct pair pair = pair_same(making);
  rename_second(making->chance, &pair);
  return pair;
}

static struct pair pair_mirrored(const struct making *making) {
  struct pair pair;
  do {
    pair.first = any_map(making);
  } while (!map_mirrored(&pair.first, &pair.second));
  rename_second(making->chance, &pair);
  return pair;
}

// Which side has the sewing that the other lacks is left to chance. The names stay the same.
static struct pair pair_changed(const struct making *making) {
  struct chance *chance = making->chance;
  struct pair pair;
  bool changed = false;
  while (!changed) {
    pair.first = any_map(making);
    changed = chance_one_in(chance, 2) ? map_less_one_sewing(chance, &pair.first, &pair.second)
                                       : map_with_loose_end_turned(chance, &pair.first, &pair.second);
  }
  if (chance_one_in(chance, 2)) {
    struct map first = pair.first;
    pair.first = pair.second;
    pair.second = first;
  }
  return pair;
}

static struct pair pair_changed_renamed(const struct making *making) {
  struct pair pair = pair_changed(making);
  rename_second(making->chance, &pair);
  return pair;
}

static struct pair pair_of_equal_size(const struct making *making) {
  struct pair pair = {.first = any_map(making)};
  pair.second = accepted_map(making->chance, pair.first.n, pair.first.m);
  return pair;
}

// Equal table lengths with another dimension are the sharpest of these.
static struct pair pair_of_other_size(const struct making *making) {
  struct chance *chance = making->chance;
  struct pair pair;
  uint64_t n = 1 + chance_below(chance, 4);
  uint64_t other_n = 1 + chance_below(chance, 4);
  if (n != other_n && chance_one_in(chance, 2)) {
    uint64_t m = 1 + chance_below(chance, 4);
    pair.first = accepted_map(chance, n, m * other_n);
    pair.second = accepted_map(chance, other_n, m * n);
    return pair;
  }
  do {
    pair.first = any_map(making);
    pair.second = any_map(making);
  } while (pair.first.n == pair.second.n && pair.first.m == pair.second.m);
  return pair;
}

// ---- One refused, or both ----

static struct pair pair_first_refused(const struct making *making) {
  struct pair pair = pair_renamed(making);
  pair.first = map_refused_in_turn(making, making->turn);
  return pair;
}

static struct pair pair_second_refused(const struct making *making) {
  struct pair pair = pair_renamed(making);
  pair.second = map_refused_in_turn(making, making->turn);
  return pair;
}

static struct pair pair_both_refused(const struct making *making) {
  struct pair pair = pair_first_refused(making);
  pair.second = map_refused_in_turn(making, chance_next(making->chance));
  return pair;
}

// Where the output is too short, a refused second map changes nothing.
static struct pair pair_second_refused_by_turns(const struct making *making) {
  struct pair pair = pair_renamed(making);
  if (making->turn % 2 == 1) {
    pair.second = map_refused_in_turn(making, making->turn / 2);
  }
  return pair;
}

// ---- Matches ----

static enum output_length mostly_exact(struct chance *chance) {
  return chance_one_in(chance, 12) ? OUTPUT_SHORT : OUTPUT_EXACT;
}

static enum output_length always_short(struct chance *chance) {
  (void)chance;
  return OUTPUT_SHORT;
}

// So many cases of one kind by their weight: matches where a length of the output is given, else lists to judge.
struct group {
  const char *comment;
  uint64_t weight;
  struct pair (*make)(const struct making *making);
  enum output_length (*length)(struct chance *chance);
};

static void print_groups(struct chance *chance, uint64_t count, const struct group *groups, size_t length,
                         uint64_t most_entries) {
  struct shares shares = {.count = count};
  for (size_t at = 0; at < length; at++) {
    shares.total += groups[at].weight;
  }
  for (const struct group *group = groups; group < groups + length; group++) {
    uint64_t cases = next_share(&shares, group->weight);
    printf("# %s\n", group->comment);
    for (uint64_t turn = 0; turn < cases; turn++) {
      struct pair pair = group->make(&(struct making){chance, turn, most_entries});
      if (group->length != NULL) {
        print_match(chance, &pair.first, &pair.second, group->length(chance));
      } else {
        print_judge(&pair.first, &pair.second, pair.to, pair.length);
      }
    }
  }
}

static const struct group match_groups[] = {
    {"both accepted: a map and a renumbered copy", 8, pair_renamed, any_output_length},
    {"both accepted: a map and itself", 3, pair_same, any_output_length},
    {"both accepted: a map and its mirror image, renumbered", 4, pair_mirrored, any_output_length},
    {"both accepted: a map and the map with one sewing less or an end sewn to itself", 5, pair_changed, any_output_length},
    {"both accepted: the same, renumbered", 3, pair_changed_renamed, any_output_length},
    {"both accepted: two maps of equal n and m", 5, pair_of_equal_size, any_output_length},
    {"both accepted: n or m differ", 4, pair_of_other_size, any_output_length},
    {"the first map refused", 9, pair_first_refused, mostly_exact},
    {"the second map refused", 9, pair_second_refused, mostly_exact},
    {"both maps refused", 4, pair_both_refused, mostly_exact},
    {"the output too short, every second time with the second map refused too", 4, pair_second_refused_by_turns, always_short},
};

void print_match_cases(struct chance *chance, uint64_t count, uint64_t most_entries) {
  print_groups(chance, count, match_groups, sizeof match_groups / sizeof match_groups[0], most_entries);
}

// ---- Lists ----

// Where the map has symmetries this is often another list than the one that made the copy.
static struct pair list_shown(const struct making *making) {
  struct pair pair = pair_renamed(making);
  second_match(map_lent(&pair.first), map_lent(&pair.second), pair.to, pair.length);
  return pair;
}

static struct pair list_swapped(const struct making *making) {
  struct chance *chance = making->chance;
  struct pair pair = pair_renamed(making);
  uint64_t one = chance_below(chance, pair.length);
  uint64_t other = chance_one_in(chance, 2) ? chance_below(chance, pair.length) : (one + 1) % pair.length;
  uint16_t image = pair.to[one];
  pair.to[one] = pair.to[other];
  pair.to[other] = image;
  return pair;
}

// One to one, but made without regard to the maps.
static struct pair list_shuffled(const struct making *making) {
  struct pair pair = pair_renamed(making);
  shuffled_names(making->chance, pair.first.m, pair.to);
  return pair;
}

static struct pair list_with_bad_values(const struct making *making) {
  struct chance *chance = making->chance;
  struct pair pair = pair_renamed(making);
  uint64_t m = pair.first.m;
  const uint64_t bad[] = {0, m + 1, UINT16_MAX, m + 256, pair.to[chance_below(chance, m)]};
  pair.to[chance_below(chance, m)] = (uint16_t)bad[making->turn % (sizeof bad / sizeof bad[0])];
  if (chance_one_in(chance, 3)) {
    uint64_t second_place = chance_below(chance, m);
    pair.to[second_place] = (uint16_t)chance_below(chance, m + 2);
  }
  return pair;
}

static struct pair list_of_bad_length(const struct making *making) {
  struct pair pair = pair_renamed(making);
  size_t m = pair.length;
  const size_t lengths[] = {m - 1, m + 1, 0, m + 256};
  pair.to[m] = making->turn % 2 == 0 ? 0 : (uint16_t)(m + 1);
  for (size_t at = m + 1; at < m + 256; at++) {
    pair.to[at] = 0;
  }
  pair.length = lengths[making->turn % 4];
  return pair;
}

// The list is one to one for the first map half of the times; 10 comes first all the same.
static struct pair list_of_other_size(const struct making *making) {
  struct pair pair = pair_of_other_size(making);
  uint64_t m = making->turn % 2 == 0 ? pair.first.m : pair.second.m;
  shuffled_names(making->chance, m, pair.to);
  pair.length = (size_t)m - (chance_one_in(making->chance, 4) ? 1 : 0);
  return pair;
}

static struct pair list_with_second_refused(const struct making *making) {
  struct pair pair = pair_second_refused(making);
  pair.length -= chance_one_in(making->chance, 4) ? 1 : 0;
  return pair;
}

static struct pair list_with_both_refused(const struct making *making) {
  struct pair pair = {.to = {0, 0, 7}, .length = 3};
  pair.first = map_refused_in_turn(making, making->turn);
  pair.second = map_refused_in_turn(making, chance_next(making->chance));
  return pair;
}

static const struct group judge_groups[] = {
    {"a right list", 6, pair_renamed, NULL},
    {"the list that the match shows", 4, list_shown, NULL},
    {"a right list with two images swapped", 8, list_swapped, NULL},
    {"a list in random order", 3, list_shuffled, NULL},
    {"a list right but for one sewing that differs", 6, pair_changed_renamed, NULL},
    {"a list with values repeated, 0 or above m", 8, list_with_bad_values, NULL},
    {"a list of wrong length", 4, list_of_bad_length, NULL},
    {"n or m differ", 4, list_of_other_size, NULL},
    {"the first map refused", 8, pair_first_refused, NULL},
    {"the second map refused", 8, list_with_second_refused, NULL},
    {"both maps refused", 3, list_with_both_refused, NULL},
};

void print_judge_cases(struct chance *chance, uint64_t count) {
  print_groups(chance, count, judge_groups, sizeof judge_groups / sizeof judge_groups[0], MOST_ENTRIES);
}
