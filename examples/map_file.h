// Map files: a layout as a small text file, such as those in maps/.
//
// The words `sewings N` and `darts M`, then a row for each dart, "D:" and its N numbers: what it is
// 1-sewn to, 2-sewn to and so on, 0 for nothing. A # starts a comment to the end of its line.
#ifndef MAP_FILE_H
#define MAP_FILE_H

#include <stdbool.h>
#include <stddef.h>
#include <stdint.h>

// More than any layout has, so that it is the library that refuses one that is too large.
enum { MAP_MOST_NUMBERS = 4096 };

struct map {
  size_t n;
  size_t m;
  size_t length;
  uint16_t table[MAP_MOST_NUMBERS];
};

// Reads a map file, whatever its numbers are: whether it is a layout is left to the library. Where
// the text is wrong, says how on standard error, and answers false.
bool map_read(const char *path, struct map *map);

// A decimal number of at most `most`, digits alone.
bool read_number(const char *word, uint64_t most, uint64_t *number);

#endif
