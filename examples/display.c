// What the reader's display says where the library refuses.
#include "display.h"

// A refused list or die number has other words where no place is named.
static const char *words_without_place(uint32_t number) {
  switch (number) {
  case DUFTHEIM_BAD_LIST:
    return "the list has not a number for each dart";
  case DUFTHEIM_WRONG_DIE:
    return "0 is no die number";
  default:
    return NULL;
  }
}

static const char *words(uint32_t number) {
  switch (number) {
  case DUFTHEIM_ACCEPTED:
    return "accepted";
  case DUFTHEIM_WRONG_DIMENSION:
    return "there are not 1 to 4 sewings for a dart";
  case DUFTHEIM_WRONG_SIZE:
    return "there are no darts, or too many";
  case DUFTHEIM_WRONG_LENGTH:
    return "the table is longer or shorter than its darts need";
  case DUFTHEIM_SHORT_OUTPUT:
    return "the output is too short";
  case DUFTHEIM_NO_SUCH_DART:
    return "it leads to a dart that is not there";
  case DUFTHEIM_SEWN_TWICE:
    return "a lower dart is 1-sewn to the same dart";
  case DUFTHEIM_NOT_SEWN_BACK:
    return "it leads to a dart that is not sewn back";
  case DUFTHEIM_SEWINGS_PART:
    return "followed by a sewing lower by two or more, and both once more, it does not lead back";
  case DUFTHEIM_NOT_CONNECTED:
    return "it cannot be reached from dart 1";
  case DUFTHEIM_NO_MATCHING:
    return "the layouts differ";
  case DUFTHEIM_BAD_LIST:
    return "what it goes to is no dart, or another one goes there";
  case DUFTHEIM_SEWING_NOT_KEPT:
    return "the list does not keep its sewings";
  case DUFTHEIM_WRONG_COUNT:
    return "the drawer has too many records, or is shorter than them";
  case DUFTHEIM_BAD_RECORD:
    return "the record is bad";
  case DUFTHEIM_NOT_FOUND:
    return "not found";
  case DUFTHEIM_WRONG_DIE:
    return "the die number is filed already";
  case DUFTHEIM_FILED_ALREADY:
    return "the layout is filed already";
  case DUFTHEIM_DRAWER_FULL:
    return "the drawer is full";
  default:
    return "no number of the display";
  }
}

// At the die a setter looks for a dart and one of its sewings, so an entry is told as these too.
static void print_place(FILE *stream, uint32_t number, size_t place, size_t n) {
  switch (number) {
  case DUFTHEIM_NO_SUCH_DART:
  case DUFTHEIM_SEWN_TWICE:
  case DUFTHEIM_NOT_SEWN_BACK:
  case DUFTHEIM_SEWINGS_PART:
    fprintf(stream, " at entry %zu, the %zu-sewing of dart %zu", place, (place - 1) % n + 1,
            (place - 1) / n + 1);
    break;
  case DUFTHEIM_BAD_RECORD:
  case DUFTHEIM_WRONG_DIE:
  case DUFTHEIM_FILED_ALREADY:
    fprintf(stream, " at record %zu", place);
    break;
  default:
    fprintf(stream, " at dart %zu", place);
    break;
  }
}

void display_refusal(FILE *stream, uint32_t number, size_t place, size_t n) {
  int of_second = number > DUFTHEIM_OF_SECOND;
  uint32_t of_one = of_second ? number - DUFTHEIM_OF_SECOND : number;
  const char *said = place == 0 ? words_without_place(of_one) : NULL;
  fprintf(stream, "number %u", (unsigned)number);
  if (place != 0) {
    print_place(stream, of_one, place, n);
  }
  fprintf(stream, "%s: %s\n", of_second ? " of the second layout" : "",
          said != NULL ? said : words(of_one));
}
