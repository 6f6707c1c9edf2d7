// Drawer files: whole records of a drawer and nothing else, so that an empty file is an empty
// drawer. A drawer file is replaced as a whole: at every moment, also after a crash, there is either
// the old file or the new one.
#ifndef DRAWER_FILE_H
#define DRAWER_FILE_H

#include <stdbool.h>
#include <stddef.h>
#include <stdint.h>

#include "duftheim.h"

// Room for one record more than a drawer may hold: the one that is filed next, or the one by which
// the library tells that there are too many.
enum { DRAWER_FILE_ROOM = (DUFTHEIM_MOST_RECORDS + 1) * DUFTHEIM_RECORD_SIZE };

struct drawer {
  size_t count;
  uint8_t bytes[DRAWER_FILE_ROOM];
};

// Reads a drawer file; whether its records are good is left to the library. Where it cannot, says
// why on standard error, and answers false. So do the others below.
bool drawer_read(const char *path, struct drawer *drawer);

// The right to replace a drawer file. One process has it at a time, and others wait: so a drawer
// that is read after this is not changed by another until it is replaced.
struct replacing {
  char *path;     // the drawer file itself, where a link was named
  char *new_path; // what is to take its place: the same name and ".filing"
  int file;       // open at new_path, and locked
};

bool replacing_begin(const char *path, struct replacing *replacing);

// Puts the drawer in the file's place. Where it cannot, the file is as it was.
bool replacing_finish(struct replacing *replacing, const struct drawer *drawer);

// Leaves the file as it is.
void replacing_give_up(struct replacing *replacing);

#endif
