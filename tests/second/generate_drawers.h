// Drawers and single records as test input: good ones, and ones with a fault put in.
#ifndef GENERATE_DRAWERS_H
#define GENERATE_DRAWERS_H

#include "../cases/cases.h"
#include "../maps/records.h"

// A lent drawer with the count it is handed in with. The bytes are freed with drawer_free.
struct drawer {
  uint64_t count;
  size_t length;
  uint8_t *bytes;
};

// Records count from 1.
uint8_t *drawer_record(const struct drawer *drawer, uint64_t record);

// Both have `spare` bytes behind the counted records, of chance where `garbage` is set. The packed one is filed without the
// reference calls, which take long on many records, and checked once.
struct drawer good_drawer(struct chance *chance, uint64_t count, size_t spare, bool garbage);
struct drawer packed_drawer(struct chance *chance, uint64_t count, size_t spare);
void drawer_free(struct drawer *drawer);

// The layout of a record under other dart numbers.
struct map filed_map(struct chance *chance, const struct drawer *drawer, uint64_t record);

// A map whose layout is not filed in the drawer, and a die number that is not.
struct map unfiled_map(struct chance *chance, const struct drawer *drawer);
uint32_t unfiled_die(struct chance *chance, const struct drawer *drawer);

// Files a map, and says which number that gives.
unsigned drawer_add(struct drawer *drawer, uint32_t die, const struct map *map);

enum spoil {
  SPOIL_DIE_ZERO,
  SPOIL_N_OUT_OF_BOUNDS,
  SPOIL_M_ZERO,
  SPOIL_M_TOO_LARGE,
  SPOIL_ZERO_BYTE,
  SPOIL_FIRST_FILLING,
  SPOIL_LAST_FILLING,
  SPOIL_SOME_FILLING,
  SPOIL_WORD_REFUSED,
  SPOIL_WORD_RENUMBERED,
  SPOIL_SIZES,
  SPOIL_DIE_REPEATED,
  SPOIL_LAYOUT_REPEATED,
  SPOIL_COUNT
};
extern const char *const spoil_names[SPOIL_COUNT];

// Makes the record bad; false where this spoil cannot do it, and then the drawer is as it was.
bool spoil_record(struct chance *chance, struct drawer *drawer, uint64_t record, enum spoil spoil);

// Puts something in a byte that must be 0.
void spoil_zero(struct chance *chance, uint8_t *byte);

// The filling's first byte behind so many numbers, its last one, and some other; false where it has none.
bool filling_places(struct chance *chance, size_t numbers, size_t places[3]);

// Counts that are above 1,024 or want more bytes than a drawer of a few records has: those that narrow numbers would take for
// the true one are among them, and those whose bytes would wrap to nothing or to one record.
enum { BAD_COUNTS = 11 };
uint64_t bad_count(uint64_t turn, const struct drawer *drawer);

// Prints one call on the drawer; or up to so many in turn, the check, search, the record handed back and filing, and says how
// many.
enum { DRAWER_CALLS = 4 };
void print_call(enum call call, uint32_t die, const struct map *map, const struct drawer *drawer);
uint64_t print_calls(uint64_t most, uint32_t die, const struct map *map, const struct drawer *drawer);

#endif
