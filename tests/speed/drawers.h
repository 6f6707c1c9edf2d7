// The drawers that are measured, by their files.
#ifndef DRAWERS_H
#define DRAWERS_H

#include "../maps/records.h"

// A file has one record more than its drawer: the layout that is searched for in vain. A drawer
// holds at most 1,024.
enum { DRAWER_FILE_RECORDS = MOST_RECORDS + 1 };
enum { DRAWER_FILE_BYTES = DRAWER_FILE_RECORDS * RECORD_BYTES };

#endif
