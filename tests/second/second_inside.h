// What second.c works out inside and others want to see: labels and words from one start, and which word is less.
#ifndef SECOND_INSIDE_H
#define SECOND_INSIDE_H

#include "second.h"

// The first two take an accepted map and a start from 1 to m.

// Writes m + 1 numbers: labels[d] is the label of dart d, and labels[0] is 0.
void second_labels(struct second_map map, uint64_t start, uint16_t *labels);

// Writes the n * m numbers of the word.
void second_word(struct second_map map, uint64_t start, uint16_t *word);

// Below, at or above 0 as the first word is less than, equal to or greater than the second.
int second_compare_words(const uint16_t *one, const uint16_t *other, size_t length);

#endif
