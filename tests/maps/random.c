// Makes random maps: planar ones of glued polygons, their doubles, and maps of any sewings.
#include "random.h"

#include <string.h>

#include "numberings.h"

// ---- Planar maps ----

// The border of a planar map under way: its darts that are not 2-sewn, in order around it.
struct border {
  size_t length;
  uint16_t darts[MOST_ENTRIES];
};

// Puts `count` darts, each one less than the one before it, where `removed` darts stood.
static void replace_in_border(struct border *border, size_t at, size_t removed, uint64_t highest, size_t count) {
  size_t after = border->length - at - removed;
  memmove(&border->darts[at + count], &border->darts[at + removed], after * sizeof border->darts[0]);
  for (size_t k = 0; k < count; k++) {
    border->darts[at + k] = (uint16_t)(highest - k);
  }
  border->length += count;
  border->length -= removed;
}

// From 3 to 8 darts, or up to 10 where fewer than 3 would be left over.
static uint64_t polygon_size(struct chance *chance, uint64_t left) {
  uint64_t size = 3 + chance_below(chance, 6);
  return left < size + 3 ? left : size;
}

// Sews a new polygon's first dart to a dart of the border; its other darts are border then. Around the outside they stand in
// falling order, since inside each polygon they rise.
static void glue_polygon(struct chance *chance, struct map *map, struct border *border, uint64_t first, uint64_t size) {
  size_t at = (size_t)chance_below(chance, border->length);
  sew(map, 2, first, border->darts[at]);
  replace_in_border(border, at, 1, first + size - 1, (size_t)size - 1);
}

// Sews two neighbours of the border, which closes the corner between them. A border of fewer than 4 is left alone, so that the
// next polygon always finds a place.
static void close_corner(struct chance *chance, struct map *map, struct border *border) {
  if (border->length < 4) {
    return;
  }
  size_t at = (size_t)chance_below(chance, border->length - 1);
  sew(map, 2, border->darts[at], border->darts[at + 1]);
  replace_in_border(border, at, 2, 0, 0);
}

// Polygons glued to each other by random edges, with about as many corners closed as polygons laid.
static struct map laid_polygons(struct chance *chance, uint64_t m, struct border *border) {
  struct map map = map_empty(2, m);
  uint64_t size = polygon_size(chance, m);
  lay_face(&map, 1, size);
  border->length = 0;
  replace_in_border(border, 0, 0, size, (size_t)size);
  for (uint64_t first = size + 1; first <= m; first += size) {
    size = polygon_size(chance, m - first + 1);
    lay_face(&map, first, size);
    glue_polygon(chance, &map, border, first, size);
    close_corner(chance, &map, border);
  }
  return map;
}

struct map planar_map(struct chance *chance, uint64_t m) {
  struct border border;
  struct map map = laid_polygons(chance, m, &border);
  return map_inserted(chance, &map);
}

// The border is sewn up by pairs, so its length must be even.
struct map doubled_planar_map(struct chance *chance, uint64_t m) {
  struct border border;
  struct map half = laid_polygons(chance, m / 2, &border);
  for (size_t at = 0; at + 1 < border.length; at += 2) {
    sew(&half, 2, border.darts[at], border.darts[at + 1]);
  }
  struct map twice = mirrored_twice(&half, 3, 3);
  return map_inserted(chance, &twice);
}

// ---- Any sewings ----

static bool try_any_sewing(struct chance *chance, struct map *map, uint64_t d, uint64_t e) {
  uint64_t i = 1 + chance_below(chance, map->n);
  bool turned = chance_one_in(chance, 2);
  return turned ? try_sew(map, i, e, d) : try_sew(map, i, d, e);
}

// Each dart is sewn to an earlier one, which keeps the map in one piece; then some more sewings are tried. A chain of beta 1
// never closes while darts are added, so there is always a loose end.
struct map grown_map(struct chance *chance, uint64_t n, uint64_t m) {
  struct map map = map_empty(n, m);
  for (uint64_t d = 2; d <= m; d++) {
    while (!try_any_sewing(chance, &map, d, 1 + chance_below(chance, d - 1))) {
    }
  }
  for (uint64_t tried = 0; tried < m; tried++) {
    uint64_t d = 1 + chance_below(chance, m);
    uint64_t e = 1 + chance_below(chance, m);
    try_any_sewing(chance, &map, d, e);
  }
  return map_inserted(chance, &map);
}
