// What the reader's display says where the library refuses.
#ifndef DISPLAY_H
#define DISPLAY_H

#include <stdio.h>

#include "duftheim.h"

// One line, such as "number 7 at entry 6, the 2-sewing of dart 3: it leads to a dart that is not
// sewn back". A refusal without a place names none.
//
// `n` is that of the layout that was refused, the second one's from 21 on. It tells an entry's dart
// and sewing; where a drawer was refused, nothing needs it.
void display_refusal(FILE *stream, uint32_t number, size_t place, size_t n);

#endif
