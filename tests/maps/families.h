// Families of accepted maps, and accepted maps by chance.
#ifndef FAMILIES_H
#define FAMILIES_H

#include "maps.h"

// The families are ways of making a map; not every family has a map of every n and m.
size_t family_count(void);
const char *family_name(size_t family);
bool family_map(struct chance *chance, size_t family, uint64_t n, uint64_t m, struct map *map);

uint64_t any_size(struct chance *chance, uint64_t n, uint64_t most_entries);
struct map accepted_map(struct chance *chance, uint64_t n, uint64_t m);
struct map any_accepted_map(struct chance *chance, uint64_t most_entries);

#endif
