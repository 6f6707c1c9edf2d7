// Asking what a case asks: the calls of both programs in one form.
#ifndef ASK_H
#define ASK_H

#include "cases.h"

// The numbers of an answer in the order of CASES.md, 0 where a call has fewer; RECORD has the record's own bytes alone.
struct answer {
  uint64_t numbers[4];
  struct second_part record;
};

// The list and the drawer of the case are left as the call leaves them.
struct answer ask_second(const struct test_case *asked);
struct answer ask_library(const struct test_case *asked);

#endif
