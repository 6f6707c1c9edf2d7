// Makes rings, chains, grids and tori, prisms, and maps with their corners cut.
#include "shapes.h"

#include "numberings.h"

// ---- Rings and chains ----

struct map ring_map(uint64_t n, uint64_t m) {
  struct map map = map_empty(n, m);
  lay_face(&map, 1, m);
  return map;
}

struct map chain_map(uint64_t n, uint64_t m) {
  struct map map = ring_map(n, m);
  unsew(&map, 1, m);
  return map;
}

struct map marked_ring_map(uint64_t n, uint64_t m, uint64_t period, uint64_t marks) {
  struct map map = ring_map(n, m);
  for (uint64_t d = 1; d <= m; d++) {
    uint64_t place = (d - 1) % period;
    if (place < 8 && (marks >> place & 1) != 0) {
      sew(&map, 2, d, d);
    }
  }
  return map;
}

// New names of a ring's darts, which are given out place by place from the first dart on.
struct ring_names {
  uint16_t given;
  uint16_t to[TABLE_ROOM];
};

static void name_place(struct ring_names *names, uint64_t place) {
  if (names->to[place] == 0) {
    names->to[place] = ++names->given;
  }
}

// Those at every so many places, in the order of the ring.
static void name_every(struct ring_names *names, uint64_t m, uint64_t step) {
  for (uint64_t place = 0; place < m; place += step) {
    name_place(names, place);
  }
}

static uint64_t least_divisor(uint64_t number) {
  uint64_t divisor = 2;
  while (divisor < number && number % divisor != 0) {
    divisor++;
  }
  return divisor;
}

// While only darts at every so many places are tried, those between them stay untied.
struct map ring_by_parts_map(uint64_t n, uint64_t m) {
  struct ring_names names = {0};
  for (uint64_t step = m; step > 1;) {
    step /= least_divisor(step);
    name_every(&names, m, step);
  }
  struct map ring = ring_map(n, m);
  return map_renamed(&ring, names.to);
}

// The places in the order in which a tie joins them.
struct joined_places {
  size_t length;
  uint16_t places[MOST_ENTRIES];
  bool joined[MOST_ENTRIES];
};

static void add_joined(struct joined_places *order, uint64_t place) {
  if (!order->joined[place]) {
    order->joined[place] = true;
    order->places[order->length++] = (uint16_t)place;
  }
}

// A start so many places on ties: each dart is joined with the one so many places on, in the order of the labels, which go
// outwards from place 0 on both sides, backwards first.
static void join_turned(uint64_t m, uint64_t turn, struct joined_places *order) {
  for (uint64_t far = 0; far <= m / 2; far++) {
    const uint64_t sides[] = {(m - far) % m, far};
    for (size_t side = 0; side < 2; side++) {
      add_joined(order, sides[side]);
      add_joined(order, (sides[side] + turn) % m);
    }
  }
}

// Dart 2 is four places on. But for every fourth place, what is joined later has the lesser name, so it goes on top of its
// tree; and the next two ties, two places on and one, walk all the trees.
struct map deep_ring_map(uint64_t n, uint64_t m) {
  struct ring_names names = {0};
  struct joined_places order = {0};
  join_turned(m, 4, &order);
  name_every(&names, m, 4);
  for (uint64_t step = 2; step > 0; step--) {
    for (size_t at = order.length; at > 0; at--) {
      if (order.places[at - 1] % step == 0) {
        name_place(&names, order.places[at - 1]);
      }
    }
  }
  struct map ring = ring_map(n, m);
  return map_renamed(&ring, names.to);
}

// ---- Grids and tori ----

// The ways out of a face by the first half of its darts. The way back is half the darts further on.
struct way {
  int64_t x;
  int64_t y;
};

static const struct way ways_of_square[2] = {{0, -1}, {1, 0}};
static const struct way ways_of_hexagon[3] = {{1, 0}, {0, 1}, {-1, 1}};

// The face at a place that may be beyond an end; false where the grid is open there.
static bool face_at(struct grid grid, int64_t x, int64_t y, uint64_t *face) {
  int64_t across = (int64_t)grid.across;
  int64_t rows = (int64_t)grid.rows;
  int64_t shift = (int64_t)grid.shift;
  int64_t times_round = y < 0 ? -1 : y / rows;
  bool inside = times_round == 0 && x >= 0 && x < across;
  y -= times_round * rows;
  x += times_round * shift + across;
  *face = (uint64_t)(y * across + x % across);
  return inside || grid.closed;
}

static struct map faces_map(uint64_t n, struct grid grid, const struct way *ways, uint64_t sides) {
  struct map map = map_empty(n, grid.across * grid.rows * sides);
  for (uint64_t face = 0; face < grid.across * grid.rows; face++) {
    lay_face(&map, face * sides + 1, sides);
    for (uint64_t side = 0; side < sides / 2; side++) {
      int64_t x = (int64_t)(face % grid.across) + ways[side].x;
      int64_t y = (int64_t)(face / grid.across) + ways[side].y;
      uint64_t next;
      if (face_at(grid, x, y, &next)) {
        sew(&map, 2, face * sides + side + 1, next * sides + side + sides / 2 + 1);
      }
    }
  }
  return map;
}

struct map squares_map(uint64_t n, struct grid grid) {
  return faces_map(n, grid, ways_of_square, 4);
}

struct map hexagons_map(uint64_t n, struct grid grid) {
  return faces_map(n, grid, ways_of_hexagon, 6);
}

// ---- Prisms ----

// The dart of a polygon at side x, seen from its other side: it runs the other way round.
static uint64_t turned_dart(uint64_t first, uint64_t sides, uint64_t x) {
  return first + sides - 1 - x;
}

struct map polygons_map(uint64_t sides) {
  struct map map = map_empty(2, 2 * sides);
  lay_face(&map, 1, sides);
  lay_face(&map, sides + 1, sides);
  for (uint64_t x = 0; x < sides; x++) {
    sew(&map, 2, 1 + x, turned_dart(sides + 1, sides, x));
  }
  return map;
}

// A belt of equal faces comes first, then the polygon below them and the one above.
struct belt {
  struct map map;
  uint64_t sides;
  uint64_t below;
  uint64_t above;
};

static struct belt lay_belt(uint64_t sides, uint64_t faces, uint64_t size) {
  uint64_t below = faces * size + 1;
  struct belt belt = {map_empty(2, faces * size + 2 * sides), sides, below, below + sides};
  for (uint64_t face = 0; face < faces; face++) {
    lay_face(&belt.map, face * size + 1, size);
  }
  lay_face(&belt.map, belt.below, sides);
  lay_face(&belt.map, belt.above, sides);
  return belt;
}

// Sews a dart of the belt to each polygon at side x.
static void sew_between(struct belt *belt, uint64_t x, uint64_t to_below, uint64_t to_above) {
  sew(&belt->map, 2, to_below, turned_dart(belt->below, belt->sides, x));
  sew(&belt->map, 2, to_above, belt->above + x);
}

// Squares have their darts south, east, north, west.
struct map prism_map(uint64_t sides) {
  struct belt belt = lay_belt(sides, sides, 4);
  for (uint64_t x = 0; x < sides; x++) {
    uint64_t square = 4 * x + 1;
    uint64_t next = 4 * ((x + 1) % sides) + 1;
    sew(&belt.map, 2, square + 1, next + 3);
    sew_between(&belt, x, square, square + 2);
  }
  return belt.map;
}

// Each side has a triangle that stands on the polygon below, and then one that hangs from above.
struct map antiprism_map(uint64_t sides) {
  struct belt belt = lay_belt(sides, 2 * sides, 3);
  for (uint64_t x = 0; x < sides; x++) {
    uint64_t standing = 6 * x + 1;
    uint64_t hanging = standing + 3;
    uint64_t next = 6 * ((x + 1) % sides) + 1;
    sew(&belt.map, 2, standing + 1, hanging + 1);
    sew(&belt.map, 2, hanging + 2, next + 2);
    sew_between(&belt, x, standing, hanging);
  }
  return belt.map;
}

// ---- Corners cut ----

// What was dart d is now d less its ends, the cut behind it, and the other side of that cut, which is a dart of the corner's
// new face.
struct map truncated_map(const struct map *map) {
  struct map cut = map_empty(2, 3 * map->m);
  for (uint64_t d = 1; d <= map->m; d++) {
    uint64_t next = beta(map, 1, d);
    uint64_t across = beta(map, 2, d);
    set_beta(&cut, 1, 3 * d - 2, 3 * d - 1);
    set_beta(&cut, 1, 3 * d - 1, 3 * next - 2);
    set_beta(&cut, 1, 3 * d, 3 * dart_before(map, across));
    sew(&cut, 2, 3 * d - 2, 3 * across - 2);
    sew(&cut, 2, 3 * d - 1, 3 * d);
  }
  return cut;
}
