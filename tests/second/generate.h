// What the generator prints, file by file; generate.c has its command and the cases of one map.
#ifndef GENERATE_H
#define GENERATE_H

#include "../cases/cases.h"
#include "../maps/changes.h"
#include "../maps/families.h"
#include "../maps/numberings.h"

struct size {
  uint64_t n;
  uint64_t m;
};

// ---- generate_print.c: single cases, and how many are of a kind ----

// A lent output before the call: one marker value all over, of a length near the one needed.
enum output_length { OUTPUT_EXACT, OUTPUT_LONGER, OUTPUT_SHORT };
enum output_length any_output_length(struct chance *chance);

void print_check(const struct map *map);
void print_sign(struct chance *chance, const struct map *map, enum output_length length);
void print_match(struct chance *chance, const struct map *first, const struct map *second, enum output_length length);
void print_judge(const struct map *first, const struct map *second, uint16_t *list, size_t length);

// `count` cases are dealt out to groups that weigh `total` in all; `before` is the weight of the groups dealt to.
struct shares {
  uint64_t count;
  uint64_t total;
  uint64_t before;
};
uint64_t next_share(struct shares *shares, uint64_t weight);

// ---- generate_pairs.c, generate_sized_pairs.c: two maps ----

// Prints `count` cases in all, tables of at most `most_entries` numbers where they are accepted.
void print_match_cases(struct chance *chance, uint64_t count, uint64_t most_entries);
void print_judge_cases(struct chance *chance, uint64_t count);

// Matches and lists of the largest sizes; all of the smallest maps against each other.
void print_large_pairs(struct chance *chance);
void print_tiny_pairs(struct chance *chance);

// Matches of a map with a renumbered copy, with another map and with one sewing changed, and lists.
void print_pairs_of(struct chance *chance, const struct map *map);

// ---- generate_drawer_cases.c, generate_each_drawer.c: the drawer's calls, on what generate_drawers.c makes ----

void print_drawer_cases(struct chance *chance, uint64_t count);

// All four calls on drawers of each kind: every size, every fault in the first, a middle and the last record, every wrong
// count, and lent bytes that are too short.
void print_each_drawer(struct chance *chance);

// ---- generate_records.c: what the lister reads ----

// Binary records, with a short end behind the last.
void write_records(struct chance *chance, uint64_t count);

// ---- generate_symmetric.c: all of these for symmetric maps ----

// Each map in so many numberings, then as many of each with marks that some of its symmetries keep; large ones in fewer.
void print_symmetric(struct chance *chance, uint64_t numberings);
// Each of these maps against its mirror image; small ones against copies, changed maps and each other, too.
void print_symmetric_pairs(struct chance *chance);
// Drawers with all these layouts, good ones and ones with a word that is not the least.
void print_symmetric_drawers(struct chance *chance);
// The maps as records, each renumbered.
void write_symmetric_records(struct chance *chance);

#endif
