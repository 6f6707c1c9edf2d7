// The list of the kinds measured, and their maps.
#include "kinds.h"

#include <string.h>

#include "../maps/random.h"
#include "../maps/shapes.h"

// ---- Makers ----

static struct map make_ring(const struct map_kind *kind) {
  return ring_map(kind->n, kind->m);
}

static struct map make_ring_by_parts(const struct map_kind *kind) {
  return ring_by_parts_map(kind->n, kind->m);
}

static struct map make_deep_ring(const struct map_kind *kind) {
  return deep_ring_map(kind->n, kind->m);
}

// One dart is sewn to itself: each start runs on until it meets that dart.
static struct map make_marked_ring(const struct map_kind *kind) {
  return marked_ring_map(kind->n, kind->m, kind->m, 1);
}

static struct map make_chain(const struct map_kind *kind) {
  return chain_map(kind->n, kind->m);
}

// A square and a triangle that share an edge: case F of document 01. Case E is a ring.
static struct map make_case_f(const struct map_kind *kind) {
  struct map map = map_empty(kind->n, kind->m);
  lay_face(&map, 1, 4);
  lay_face(&map, 5, 3);
  sew(&map, 2, 3, 5);
  return map;
}

static struct grid grid_of(const struct map_kind *kind, uint64_t m, bool closed) {
  return (struct grid){kind->width, m / 4 / kind->width, kind->shift, closed};
}

static struct map make_open_grid(const struct map_kind *kind) {
  return squares_map(kind->n, grid_of(kind, kind->m, false));
}

static struct map make_torus(const struct map_kind *kind) {
  return squares_map(kind->n, grid_of(kind, kind->m, true));
}

static struct map make_prism(const struct map_kind *kind) {
  return prism_map(kind->m / 6);
}

static struct map make_doubled_polygons(const struct map_kind *kind) {
  struct map half = polygons_map(kind->m / 4);
  return mirrored_twice(&half, kind->n, 3);
}

static struct map make_doubled_torus(const struct map_kind *kind) {
  struct map half = squares_map(2, grid_of(kind, kind->m / 2, true));
  return mirrored_twice(&half, kind->n, 3);
}

static struct map make_planar(const struct map_kind *kind) {
  struct chance chance = {kind->seed};
  return planar_map(&chance, kind->m);
}

static struct map make_doubled_planar(const struct map_kind *kind) {
  struct chance chance = {kind->seed};
  return doubled_planar_map(&chance, kind->m);
}

static struct map make_grown(const struct map_kind *kind) {
  struct chance chance = {kind->seed};
  return grown_map(&chance, kind->n, kind->m);
}

// ---- The list ----

const struct map_kind map_kinds[] = {
    {"ring", PART_SHAPES, 2, 510, make_ring, .maps = 1},
    {"ring-n1", PART_SHAPES, 1, 1020, make_ring, .maps = 1},
    {"ring-n3", PART_SHAPES, 3, 340, make_ring, .maps = 1},
    {"ring-n4", PART_SHAPES, 4, 255, make_ring, .maps = 1},
    {"ring-any", PART_SHAPES, 2, 510, make_ring, .maps = 16, .numbering = BY_CHANCE},
    {"ring-n1-any", PART_SHAPES, 1, 1020, make_ring, .maps = 16, .numbering = BY_CHANCE},
    {"ring-by-parts-n1", PART_SHAPES, 1, 960, make_ring_by_parts, .maps = 1},
    {"deep-ring-n1", PART_SHAPES, 1, 1020, make_deep_ring, .maps = 1},
    {"marked-ring", PART_SHAPES, 2, 510, make_marked_ring, .maps = 1},
    {"marked-ring-any", PART_SHAPES, 2, 510, make_marked_ring, .maps = 16, .numbering = BY_CHANCE},
    {"marked-ring-best", PART_SHAPES, 2, 510, make_marked_ring, .maps = 1, .numbering = LEAST_FIRST},
    {"marked-ring-worst", PART_SHAPES, 2, 510, make_marked_ring, .maps = 1, .numbering = LONGEST_RUNS},
    {"chain", PART_SHAPES, 2, 510, make_chain, .maps = 1},
    {"chain-any", PART_SHAPES, 2, 510, make_chain, .maps = 16, .numbering = BY_CHANCE},
    {"chain-best", PART_SHAPES, 2, 510, make_chain, .maps = 1, .numbering = LEAST_FIRST},
    {"chain-worst", PART_SHAPES, 2, 510, make_chain, .maps = 1, .numbering = LONGEST_RUNS},
    {"chain-n1", PART_SHAPES, 1, 1020, make_chain, .maps = 1},
    {"chain-n1-any", PART_SHAPES, 1, 1020, make_chain, .maps = 16, .numbering = BY_CHANCE},
    {"chain-n1-best", PART_SHAPES, 1, 1020, make_chain, .maps = 1, .numbering = LEAST_FIRST},
    {"chain-n1-worst", PART_SHAPES, 1, 1020, make_chain, .maps = 1, .numbering = LONGEST_RUNS},
    {"torus-11x11", PART_SHAPES, 2, 484, make_torus, .maps = 1, .width = 11},
    {"torus-11x11-any", PART_SHAPES, 2, 484, make_torus, .maps = 16, .numbering = BY_CHANCE, .width = 11},
    {"torus-9x14", PART_SHAPES, 2, 504, make_torus, .maps = 1, .width = 9},
    {"torus-9x14-any", PART_SHAPES, 2, 504, make_torus, .maps = 16, .numbering = BY_CHANCE, .width = 9},
    {"torus-9x14-worst", PART_SHAPES, 2, 504, make_torus, .maps = 1, .width = 9, .numbering = LONGEST_RUNS},
    {"twisted-11x11", PART_SHAPES, 2, 484, make_torus, .maps = 1, .width = 11, .shift = 1},
    {"twisted-9x14", PART_SHAPES, 2, 504, make_torus, .maps = 1, .width = 9, .shift = 4},
    {"twisted-122x1", PART_SHAPES, 2, 488, make_torus, .maps = 1, .width = 122, .shift = 11},
    {"prism-85", PART_SHAPES, 2, 510, make_prism, .maps = 1},
    {"prism-85-any", PART_SHAPES, 2, 510, make_prism, .maps = 16, .numbering = BY_CHANCE},
    {"prism-85-worst", PART_SHAPES, 2, 510, make_prism, .maps = 1, .numbering = LONGEST_RUNS},
    {"open-11x11", PART_SHAPES, 2, 484, make_open_grid, .maps = 1, .width = 11},
    {"open-9x14", PART_SHAPES, 2, 504, make_open_grid, .maps = 1, .width = 9},
    {"random-a", PART_SHAPES, 2, 500, make_planar, .maps = 1, .seed = 1},
    {"random-b", PART_SHAPES, 2, 500, make_planar, .maps = 1, .seed = 2},
    {"random-c", PART_SHAPES, 2, 510, make_planar, .maps = 1, .seed = 3},
    {"random-c-best", PART_SHAPES, 2, 510, make_planar, .maps = 1, .seed = 3, .numbering = LEAST_FIRST},
    {"random-c-worst", PART_SHAPES, 2, 510, make_planar, .maps = 1, .seed = 3, .numbering = LONGEST_RUNS},
    {"doubled-n3", PART_SHAPES, 3, 340, make_doubled_polygons, .maps = 1},
    {"doubled-torus-n3", PART_SHAPES, 3, 336, make_doubled_torus, .maps = 1, .width = 6},
    {"doubled-random-n3", PART_SHAPES, 3, 340, make_doubled_planar, .maps = 1, .seed = 4},
    {"grown-n2", PART_SHAPES, 2, 500, make_grown, .maps = 1, .seed = 21},
    {"grown-n4", PART_SHAPES, 4, 255, make_grown, .maps = 1, .seed = 21},
    {"case-E", PART_SMALL, 2, 3, make_ring, .maps = 1},
    {"case-F", PART_SMALL, 2, 7, make_case_f, .maps = 1},
    {"small-7", PART_SMALL, 2, 7, make_planar, .maps = 16, .seed = 41},
    {"small-16", PART_SMALL, 2, 16, make_planar, .maps = 16, .seed = 41},
    {"small-32", PART_SMALL, 2, 32, make_planar, .maps = 16, .seed = 41},
    {"ring-32", PART_GROWTH, 2, 32, make_ring, .maps = 1},
    {"ring-64", PART_GROWTH, 2, 64, make_ring, .maps = 1},
    {"ring-128", PART_GROWTH, 2, 128, make_ring, .maps = 1},
    {"ring-256", PART_GROWTH, 2, 256, make_ring, .maps = 1},
    {"ring-510", PART_GROWTH, 2, 510, make_ring, .maps = 1},
    {"ring-n1-32", PART_GROWTH, 1, 32, make_ring, .maps = 1},
    {"ring-n1-64", PART_GROWTH, 1, 64, make_ring, .maps = 1},
    {"ring-n1-128", PART_GROWTH, 1, 128, make_ring, .maps = 1},
    {"ring-n1-256", PART_GROWTH, 1, 256, make_ring, .maps = 1},
    {"ring-n1-512", PART_GROWTH, 1, 512, make_ring, .maps = 1},
    {"ring-n1-1020", PART_GROWTH, 1, 1020, make_ring, .maps = 1},
    {"random-32", PART_GROWTH, 2, 32, make_planar, .maps = 16, .seed = 5},
    {"random-64", PART_GROWTH, 2, 64, make_planar, .maps = 16, .seed = 5},
    {"random-128", PART_GROWTH, 2, 128, make_planar, .maps = 16, .seed = 5},
    {"random-256", PART_GROWTH, 2, 256, make_planar, .maps = 16, .seed = 5},
    {"random-510", PART_GROWTH, 2, 510, make_planar, .maps = 16, .seed = 5},
};

const size_t map_kind_count = sizeof map_kinds / sizeof map_kinds[0];

const struct map_kind *map_kind_named(const char *name) {
  for (size_t at = 0; at < map_kind_count; at++) {
    if (strcmp(map_kinds[at].name, name) == 0) {
      return &map_kinds[at];
    }
  }
  return NULL;
}

struct map kind_map(const struct map_kind *kind, size_t which) {
  struct map_kind one = *kind;
  one.seed += which;
  struct chance chance = {one.seed};
  struct map map = one.make(&one);
  switch (one.numbering) {
  case AS_MADE:
    return map;
  case BY_CHANCE:
    return map_inserted(&chance, &map);
  default:
    return map_numbered(&map, one.numbering);
  }
}
