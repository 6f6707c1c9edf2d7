// Maps without chance: rings, chains, grids and tori, prisms, regular maps.
#ifndef SHAPES_H
#define SHAPES_H

#include "maps.h"

// One closed face, in which every start yields the same word; and one left open.
struct map ring_map(uint64_t n, uint64_t m);
struct map chain_map(uint64_t n, uint64_t m);

// A ring that goes through its darts in periods. The bits of `marks` say which darts of each period are 2-sewn to themselves.
struct map marked_ring_map(uint64_t n, uint64_t m, uint64_t period, uint64_t marks);

// Rings numbered so that each tie finds as few symmetries as it can, and so that ties build as deep trees of darts as they can.
struct map ring_by_parts_map(uint64_t n, uint64_t m);
struct map deep_ring_map(uint64_t n, uint64_t m);

// Faces side by side: so many in a row, so many rows. A closed grid is a torus, in which above the last row comes the first
// again, `shift` faces further on.
struct grid {
  uint64_t across;
  uint64_t rows;
  uint64_t shift;
  bool closed;
};

// Each square has its darts south, east, north, west in this order.
struct map squares_map(uint64_t n, struct grid grid);
struct map hexagons_map(uint64_t n, struct grid grid);

// Cubes in rows, each row and column and pile closed to a ring.
struct map cubes_map(const uint64_t sizes[3]);

// Two polygons back to back; with squares between them, all around; and with triangles.
struct map polygons_map(uint64_t sides);
struct map prism_map(uint64_t sides);
struct map antiprism_map(uint64_t sides);

// A regular map: some turns of points bring every dart to every other. The turns are written as the images of 1, 2, .., one
// turn for each sewing.
struct map regular_map(uint64_t n, const char *turns);

// Cuts the corners of a closed surface.
struct map truncated_map(const struct map *map);

#endif
