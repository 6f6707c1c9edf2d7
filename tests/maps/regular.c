// Maps made of groups: the darts are the turns of some points, and a sewing is one turn more.
#include <stdio.h>
#include <stdlib.h>
#include <string.h>

#include "shapes.h"

enum { MOST_POINTS = 9, MOST_TURNS = 510 };

// Where each point goes; points count from 0.
struct turn {
  uint8_t to[MOST_POINTS];
};

struct group {
  size_t order;
  struct turn turns[MOST_TURNS];
};

static struct turn no_turn(void) {
  struct turn turn;
  for (uint8_t point = 0; point < MOST_POINTS; point++) {
    turn.to[point] = point;
  }
  return turn;
}

// Points that are not written stay. Leaves `text` behind the turn and the space that follows it.
static struct turn read_turn(const char **text) {
  struct turn turn = no_turn();
  for (size_t point = 0; **text >= '1' && **text <= '9' && point < MOST_POINTS; point++) {
    turn.to[point] = (uint8_t)(**text - '1');
    (*text)++;
  }
  *text += **text == ' ';
  return turn;
}

// The inner turn comes first.
static struct turn composed(struct turn outer, struct turn inner) {
  struct turn both;
  for (size_t point = 0; point < MOST_POINTS; point++) {
    both.to[point] = outer.to[inner.to[point]];
  }
  return both;
}

// The order of the group where the turn is not in it.
static size_t place_in(const struct group *group, struct turn turn) {
  size_t place = 0;
  while (place < group->order && memcmp(&group->turns[place], &turn, sizeof turn) != 0) {
    place++;
  }
  return place;
}

static void put_in(struct group *group, struct turn turn) {
  if (place_in(group, turn) < group->order) {
    return;
  }
  if (group->order == MOST_TURNS) {
    fputs("generate: a group has more turns than there is room for\n", stderr);
    exit(3);
  }
  group->turns[group->order++] = turn;
}

// All turns that come of the first `count`.
static void generate_group(struct group *group, const struct turn *generators, uint64_t count) {
  group->order = 0;
  put_in(group, no_turn());
  for (size_t at = 0; at < group->order; at++) {
    for (uint64_t k = 0; k < count; k++) {
      put_in(group, composed(group->turns[at], generators[k]));
    }
  }
}

// The sewings add a turn inside, so a turn added outside is a symmetry: there is one that takes dart 1 to any other.
static struct map map_of_group(uint64_t n, const char *turns, struct group *group) {
  struct turn sewings[4];
  for (uint64_t i = 1; i <= n; i++) {
    sewings[i - 1] = read_turn(&turns);
  }
  generate_group(group, sewings, n);
  struct map map = map_empty(n, group->order);
  for (size_t at = 0; at < group->order; at++) {
    for (uint64_t i = 1; i <= n; i++) {
      set_beta(&map, i, at + 1, place_in(group, composed(group->turns[at], sewings[i - 1])) + 1);
    }
  }
  return map;
}

struct map regular_map(uint64_t n, const char *turns) {
  struct group group;
  return map_of_group(n, turns, &group);
}

// ---- Cubes ----

// Points 0, 1, 2 are the ways east, north and up, and 3, 4, 5 the ways back. A dart's turn takes UP to where its face looks,
// which is where beta 3 leads to.
static const char cube_turns[] = "513246 432165 426153";
enum { UP = 2, WAYS = 3 };

static uint64_t next_cube(const uint64_t sizes[3], uint64_t cube, uint8_t way) {
  uint64_t at[WAYS] = {cube % sizes[0], cube / sizes[0] % sizes[1], cube / sizes[0] / sizes[1]};
  uint64_t axis = way % WAYS;
  at[axis] = (at[axis] + (way < WAYS ? 1 : sizes[axis] - 1)) % sizes[axis];
  return (at[2] * sizes[1] + at[1]) * sizes[0] + at[0];
}

// The turns alone sew each face of a cube to the opposite one: so there the next cube is put in.
struct map cubes_map(const uint64_t sizes[3]) {
  struct group group;
  struct map cube = map_of_group(3, cube_turns, &group);
  uint64_t cubes = sizes[0] * sizes[1] * sizes[2];
  struct map map = map_empty(3, cubes * cube.m);
  for (uint64_t at = 0; at < cubes; at++) {
    for (uint64_t d = 1; d <= cube.m; d++) {
      uint64_t next = next_cube(sizes, at, group.turns[d - 1].to[UP]);
      set_beta(&map, 1, at * cube.m + d, at * cube.m + beta(&cube, 1, d));
      set_beta(&map, 2, at * cube.m + d, at * cube.m + beta(&cube, 2, d));
      set_beta(&map, 3, at * cube.m + d, next * cube.m + beta(&cube, 3, d));
    }
  }
  return map;
}
