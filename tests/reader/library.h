// The library's calls in the second program's terms. Every buffer is lent guarded, as guard.h says,
// so a call that touches anything else ends the program.
#ifndef LIBRARY_H
#define LIBRARY_H

#include "../second/second.h"

struct second_verdict library_check(struct second_map map);
struct second_signed library_sign(struct second_map map, uint16_t *out, size_t out_length);
struct second_verdict library_match(struct second_map first, struct second_map second, uint16_t *out, size_t out_length);
struct second_verdict library_judge(struct second_map first, struct second_map second, const uint16_t *list, size_t list_length);
struct second_verdict library_drawer(uint64_t count, const uint8_t *drawer, size_t drawer_length);
struct second_found library_find(struct second_map map, uint64_t count, const uint8_t *drawer, size_t drawer_length);
// A search and then the header's own function, which is no call of the library.
struct second_part library_record(struct second_map map, uint64_t count, const uint8_t *drawer, size_t drawer_length);
struct second_filed library_add(uint32_t die, struct second_map map, uint64_t count, uint8_t *drawer, size_t drawer_length);

#endif
