// Rings, tori, prisms, regular maps, and the doubles of all of these, with their symmetries.
#include "symmetric.h"

#include <stdlib.h>

#include "shapes.h"

enum form { RING, MARKED_RING, SQUARES, HEXAGONS, CUBES, PRISM, ANTIPRISM, REGULAR };

// How a shape is made, and how many symmetries it has. A chiral one has no reflection: it is not the same as its mirror image.
struct row {
  const char *name;
  enum form form;
  uint64_t n;
  // Darts, period and marks of a ring; across, rows and shift of a torus; cubes in each direction; sides of a prism.
  uint64_t sizes[3];
  const char *turns;
  bool truncated;
  bool chiral;
  uint64_t symmetries;
};

// ---- Making ----

static struct map formed(const struct row *row) {
  const uint64_t *sizes = row->sizes;
  struct grid torus = {sizes[0], sizes[1], sizes[2], .closed = true};
  switch (row->form) {
  case RING:
    return ring_map(row->n, sizes[0]);
  case MARKED_RING:
    return marked_ring_map(row->n, sizes[0], sizes[1], sizes[2]);
  case SQUARES:
    return squares_map(row->n, torus);
  case HEXAGONS:
    return hexagons_map(row->n, torus);
  case CUBES:
    return cubes_map(sizes);
  case PRISM:
    return prism_map(sizes[0]);
  case ANTIPRISM:
    return antiprism_map(sizes[0]);
  default:
    return regular_map(row->n, row->turns);
  }
}

static struct shape plain_shape(const struct row *row) {
  struct map map = formed(row);
  return (struct shape){row->name, 0, row->symmetries, row->truncated ? truncated_map(&map) : map};
}

// Each symmetry of a map is one of its double. A reflection, together with the change of sides, is one too, and there are as
// many of these, or none. A double has the change of sides as a reflection.
static struct shape doubled(const struct shape *shape, bool chiral) {
  struct shape twice = *shape;
  uint64_t n = shape->map.n + 1;
  twice.doubled++;
  twice.symmetries *= chiral && shape->doubled == 0 ? 1 : 2;
  twice.map = mirrored_twice(&shape->map, n, n);
  return twice;
}

// ---- All shapes ----

static const struct row rows[] = {
    // A ring has as many symmetries as darts, one with marks as many as periods.
    {"ring", RING, 1, {1}, .symmetries = 1},
    {"ring", RING, 1, {2}, .symmetries = 2},
    {"ring", RING, 1, {3}, .symmetries = 3},
    {"ring", RING, 1, {31}, .symmetries = 31},
    {"ring", RING, 1, {85}, .symmetries = 85},
    {"ring", RING, 1, {255}, .symmetries = 255},
    {"ring", RING, 1, {1020}, .symmetries = 1020},
    {"ring", RING, 2, {7}, .symmetries = 7},
    {"ring", RING, 2, {170}, .symmetries = 170},
    {"ring", RING, 2, {510}, .symmetries = 510},
    {"ring", RING, 3, {12}, .symmetries = 12},
    {"ring", RING, 3, {340}, .symmetries = 340},
    {"ring", RING, 4, {255}, .symmetries = 255},
    {"ring sewn to itself", MARKED_RING, 2, {12, 1, 1}, .symmetries = 12},
    {"marked ring", MARKED_RING, 2, {12, 3, 1}, .symmetries = 4},
    {"marked ring", MARKED_RING, 2, {60, 6, 5}, .symmetries = 10},
    {"marked ring", MARKED_RING, 2, {60, 6, 11}, .chiral = true, .symmetries = 10},
    {"marked ring", MARKED_RING, 2, {510, 17, 1}, .symmetries = 30},
    {"marked ring", MARKED_RING, 3, {340, 4, 1}, .symmetries = 85},
    {"marked ring", MARKED_RING, 4, {255, 15, 11}, .chiral = true, .symmetries = 17},
    {"ring with one mark", MARKED_RING, 2, {30, 30, 1}, .symmetries = 1},
    {"ring with one mark", MARKED_RING, 2, {510, 510, 1}, .symmetries = 1},
    {"ring with two marks", MARKED_RING, 4, {255, 255, 3}, .symmetries = 1},

    // Shifts by whole faces, and those turns of the plane that keep the lattice of places rolled up to one: half a turn always,
    // a quarter or a sixth only where the lattice is as regular.
    {"torus of squares", SQUARES, 2, {1, 1, 0}, .symmetries = 4},
    {"torus of squares", SQUARES, 2, {2, 1, 0}, .symmetries = 4},
    {"torus of squares", SQUARES, 2, {2, 2, 0}, .symmetries = 16},
    {"torus of squares", SQUARES, 2, {3, 2, 0}, .symmetries = 12},
    {"torus of squares", SQUARES, 2, {3, 3, 0}, .symmetries = 36},
    {"torus of squares", SQUARES, 2, {5, 4, 0}, .symmetries = 40},
    {"torus of squares", SQUARES, 2, {7, 6, 0}, .symmetries = 84},
    {"torus of squares", SQUARES, 2, {7, 7, 0}, .symmetries = 196},
    {"torus of squares", SQUARES, 2, {11, 11, 0}, .symmetries = 484},
    {"torus of squares", SQUARES, 2, {14, 9, 0}, .symmetries = 252},
    {"torus of squares", SQUARES, 2, {127, 1, 0}, .symmetries = 254},
    {"twisted torus of squares", SQUARES, 2, {2, 1, 1}, .symmetries = 8},
    {"twisted torus of squares", SQUARES, 2, {3, 1, 1}, .symmetries = 6},
    {"twisted torus of squares", SQUARES, 2, {5, 1, 2}, .chiral = true, .symmetries = 20},
    {"twisted torus of squares", SQUARES, 2, {13, 1, 5}, .chiral = true, .symmetries = 52},
    {"twisted torus of squares", SQUARES, 2, {6, 3, 1}, .chiral = true, .symmetries = 36},
    {"twisted torus of squares", SQUARES, 2, {6, 3, 3}, .symmetries = 72},
    {"twisted torus of squares", SQUARES, 2, {10, 4, 3}, .chiral = true, .symmetries = 80},
    {"twisted torus of squares", SQUARES, 2, {41, 1, 9}, .chiral = true, .symmetries = 164},
    {"twisted torus of squares", SQUARES, 2, {125, 1, 57}, .chiral = true, .symmetries = 500},
    {"twisted torus of squares", SQUARES, 2, {21, 6, 5}, .chiral = true, .symmetries = 252},
    {"torus of hexagons", HEXAGONS, 2, {1, 1, 0}, .symmetries = 6},
    {"torus of hexagons", HEXAGONS, 2, {2, 1, 0}, .symmetries = 4},
    {"torus of hexagons", HEXAGONS, 2, {2, 2, 0}, .symmetries = 24},
    {"torus of hexagons", HEXAGONS, 2, {3, 2, 0}, .chiral = true, .symmetries = 12},
    {"torus of hexagons", HEXAGONS, 2, {9, 9, 0}, .symmetries = 486},
    {"torus of hexagons", HEXAGONS, 2, {17, 5, 0}, .chiral = true, .symmetries = 170},
    {"twisted torus of hexagons", HEXAGONS, 2, {3, 1, 2}, .symmetries = 18},
    {"twisted torus of hexagons", HEXAGONS, 2, {7, 1, 5}, .chiral = true, .symmetries = 42},
    {"twisted torus of hexagons", HEXAGONS, 2, {4, 3, 3}, .chiral = true, .symmetries = 24},
    {"twisted torus of hexagons", HEXAGONS, 2, {14, 2, 10}, .chiral = true, .symmetries = 168},

    // Shifts by whole cubes, and 24 turns where all sizes are equal, 8 where two are, else 4.
    {"torus of cubes", CUBES, 3, {1, 1, 1}, .symmetries = 24},
    {"torus of cubes", CUBES, 3, {2, 1, 1}, .symmetries = 16},
    {"torus of cubes", CUBES, 3, {3, 2, 1}, .symmetries = 24},
    {"torus of cubes", CUBES, 3, {5, 1, 1}, .symmetries = 40},
    {"torus of cubes", CUBES, 3, {2, 2, 2}, .symmetries = 192},
    {"torus of cubes", CUBES, 3, {3, 2, 2}, .symmetries = 96},
    {"torus of cubes", CUBES, 3, {14, 1, 1}, .symmetries = 112},

    // Turns about the axis, and half turns that change the caps. A prism of four sides is a cube, and an antiprism of three an
    // octahedron.
    {"prism", PRISM, 2, {3}, .symmetries = 6},
    {"prism", PRISM, 2, {4}, .symmetries = 24},
    {"prism", PRISM, 2, {5}, .symmetries = 10},
    {"prism", PRISM, 2, {12}, .symmetries = 24},
    {"prism", PRISM, 2, {28}, .symmetries = 56},
    {"prism", PRISM, 2, {85}, .symmetries = 170},
    {"antiprism", ANTIPRISM, 2, {3}, .symmetries = 24},
    {"antiprism", ANTIPRISM, 2, {4}, .symmetries = 8},
    {"antiprism", ANTIPRISM, 2, {7}, .symmetries = 14},
    {"antiprism", ANTIPRISM, 2, {21}, .symmetries = 42},
    {"antiprism", ANTIPRISM, 2, {63}, .symmetries = 126},

    // The regular solids, then regular surfaces with many holes: Bring's, Klein's and Macbeath's.
    {"tetrahedron", REGULAR, 2, .turns = "2314 2143", .symmetries = 12},
    {"cube", REGULAR, 2, .turns = "2341 2134", .symmetries = 24},
    {"octahedron", REGULAR, 2, .turns = "2314 1243", .symmetries = 24},
    {"dodecahedron", REGULAR, 2, .turns = "23451 21435", .symmetries = 60},
    {"icosahedron", REGULAR, 2, .turns = "23145 45312", .symmetries = 60},
    {"24 pentagons", REGULAR, 2, .turns = "23451 21345", .symmetries = 120},
    {"24 heptagons", REGULAR, 2, .turns = "2345671 1274653", .symmetries = 168},
    {"72 heptagons", REGULAR, 2, .turns = "234567189 148279536", .symmetries = 504},

    // Cutting the corners leaves the symmetries: what was a face has more sides than what was a corner, so none takes the one
    // to the other.
    {"truncated tetrahedron", REGULAR, 2, .turns = "2314 2143", .truncated = true, .symmetries = 12},
    {"truncated cube", REGULAR, 2, .turns = "2341 2134", .truncated = true, .symmetries = 24},
    {"truncated octahedron", REGULAR, 2, .turns = "2314 1243", .truncated = true, .symmetries = 24},
    {"truncated dodecahedron", REGULAR, 2, .turns = "23451 21435", .truncated = true, .symmetries = 60},
    {"truncated icosahedron", REGULAR, 2, .turns = "23145 45312", .truncated = true, .symmetries = 60},
    {"truncated torus", SQUARES, 2, {7, 6, 0}, .truncated = true, .symmetries = 84},

    // Closed maps of n = 3 and n = 4: the outsides of the simplex, of the cube of four dimensions and of its dual, that cube's
    // opposite sides sewn, and sewings that all commute.
    {"5 tetrahedra", REGULAR, 3, .turns = "23145 21435 21354", .symmetries = 60},
    {"8 cubes", REGULAR, 3, .turns = "61342578 53241768 52431687", .symmetries = 192},
    {"16 tetrahedra", REGULAR, 3, .turns = "13425786 21436587 52431687", .symmetries = 192},
    {"cube of four dimensions", REGULAR, 4, .turns = "61342578 53241768 52431687 52381674", .symmetries = 192},
    {"commuting sewings", REGULAR, 3, .turns = "213456 124356 123465", .symmetries = 8},
    {"commuting sewings", REGULAR, 4, .turns = "21345678 12435678 12346578 12345687", .symmetries = 16},
};

static void put_shape(struct shapes *all, const struct shape *shape) {
  unsigned number = map_refusal(&shape->map);
  if (number != 0 || all->count == MOST_SHAPES) {
    fprintf(stderr, "generate: %s, doubled %u times, is refused with %u or is one too many\n", shape->name,
            (unsigned)shape->doubled, number);
    exit(3);
  }
  all->shapes[all->count++] = *shape;
}

// Each row, then its doubles as far as there is room.
const struct shapes *all_shapes(void) {
  static struct shapes all;
  if (all.count != 0) {
    return &all;
  }
  for (size_t at = 0; at < sizeof rows / sizeof rows[0]; at++) {
    struct shape shape = plain_shape(&rows[at]);
    put_shape(&all, &shape);
    while (shape.map.n < 4 && 2 * shape.map.m * (shape.map.n + 1) <= MOST_ENTRIES) {
      shape = doubled(&shape, rows[at].chiral);
      put_shape(&all, &shape);
    }
  }
  return &all;
}
