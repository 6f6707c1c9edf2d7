// The calls of document 01 with wish 1 of document 02, answered by a second program that shares nothing with the library.
#ifndef SECOND_H
#define SECOND_H

#include <stddef.h>
#include <stdint.h>
#include <stdio.h>

// A dart table with the dimension and the dart count that it is handed in with.
struct second_map {
  uint64_t n;
  uint64_t m;
  const uint16_t *table;
  size_t length;
};

// Number 0 is accepted. Every other number of a refused answer is 0 but the place.
struct second_verdict {
  unsigned number;
  uint64_t place;
};

struct second_signed {
  unsigned number;
  uint64_t place;
  uint64_t start;
  uint64_t symmetries;
};

struct second_found {
  unsigned number;
  uint64_t place;
  uint32_t die;
  uint64_t record;
};

struct second_filed {
  unsigned number;
  uint64_t place;
  uint64_t count;
};

// A part of the lent drawer; length 0 on refusal.
struct second_part {
  const uint8_t *bytes;
  size_t length;
};

struct second_verdict second_check(struct second_map map);
struct second_signed second_sign(struct second_map map, uint16_t *out, size_t out_length);
struct second_verdict second_match(struct second_map first, struct second_map second, uint16_t *out, size_t out_length);
struct second_verdict second_judge(struct second_map first, struct second_map second, const uint16_t *list, size_t list_length);
struct second_verdict second_drawer(uint64_t count, const uint8_t *drawer, size_t drawer_length);
struct second_found second_find(struct second_map map, uint64_t count, const uint8_t *drawer, size_t drawer_length);
struct second_part second_record(struct second_map map, uint64_t count, const uint8_t *drawer, size_t drawer_length);
struct second_filed second_add(uint32_t die, struct second_map map, uint64_t count, uint8_t *drawer, size_t drawer_length);

// The layout lister: records from `in`, lines to `out`.
void second_list(FILE *in, FILE *out);

#endif
