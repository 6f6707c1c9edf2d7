// What turns.c and runs.c share: counting what holds and what was given, outputs that show a change, and other numberings.
#ifndef EXPECT_H
#define EXPECT_H

#include "../maps/numberings.h"

// No number of a word or of a matching is as high as UNTOUCHED.
enum { SPARE = 8, UNTOUCHED = 43981 };

// ---- Counting ----

// Cases are numbered, so that a promise which fails can say where.
void count_case(void);
uint64_t cases_counted(void);

// Counts a promise that holds or not, and prints the first that don't, with case and map size.
void expect(bool holds, struct second_map map, const char *what);

// Prints how many promises held, and is the program's status.
int finish(void);

// How often a call gave each number.
enum { MOST_NUMBER = 29 };
struct given {
  uint64_t times[MOST_NUMBER + 1];
};
void count_given(struct given *given, unsigned number);

// Prints them. `wanted` has an x for each number, from 0, that must have been given: one that never
// was has not been compared. False where there is one.
bool all_given(const char *call, const struct given *given, const char *wanted);

// ---- Outputs ----

bool same_numbers(const uint16_t *one, const uint16_t *other, size_t length);
void leave_untouched(uint16_t *numbers, size_t length);
bool all_untouched(const uint16_t *numbers, size_t length);

// ---- Other numberings ----

// The same numbers in every run.
uint64_t drawn_below(uint64_t bound);

// An accepted map under other names: names[d - 1] is that of dart d.
struct map renumbered(struct second_map map, uint16_t names[TABLE_ROOM]);

#endif
