// Random maps that are measured: planar ones, their doubles, and maps of any sewings.
#ifndef RANDOM_H
#define RANDOM_H

#include "maps.h"

// Polygons of 3 to 10 darts glued to each other in the plane, n = 2. The darts are numbered by chance, here and below.
struct map planar_map(struct chance *chance, uint64_t m);

// A planar map closed and doubled, n = 3; wants m to be a multiple of 4.
struct map doubled_planar_map(struct chance *chance, uint64_t m);

// Any sewings that the rules allow.
struct map grown_map(struct chance *chance, uint64_t n, uint64_t m);

#endif
