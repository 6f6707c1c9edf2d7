// Test cases in the form of CASES.md: what a case asks, read from standard input and printed.
#ifndef CASES_H
#define CASES_H

#include <stdbool.h>

#include "../second/second.h"

enum call { CHECK, SIGN, MATCH, JUDGE, DRAWER, FIND, ADD, RECORD, CALLS };

// The word that a case of the call begins with.
extern const char *const call_words[CALLS];

// Both hold exactly `length` items where they were read, so that a look past the end is a look past the block.
struct list {
  uint16_t *numbers;
  size_t length;
};

struct bytes {
  uint8_t *bytes;
  size_t length;
};

// What a call is asked; parts that it does not have are 0. The list is the one handed in, or the lent output before the call;
// the drawer is lent with a count of records.
struct test_case {
  enum call call;
  uint32_t die;
  struct second_map first;
  struct second_map second;
  struct list list;
  uint64_t count;
  struct bytes drawer;
};

// Reads the next case, which drop_case frees; false after the last one. Lines that are no case are copied to `comments`, if
// that is not NULL. An input that is not in the form ends the program.
bool read_case(struct test_case *read, FILE *comments);
void drop_case(struct test_case *read);

void print_case(const struct test_case *printed);

// A list is its length and then its numbers, long runs as V*K.
void print_numbers(const uint16_t *numbers, size_t length);
void print_bytes(const uint8_t *bytes, size_t length);

#endif
