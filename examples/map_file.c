// Map files, read word by word.
#include "map_file.h"

#include <errno.h>
#include <stdio.h>
#include <string.h>

enum { LONGEST_WORD = 40 };

struct reader {
  const char *path;
  FILE *stream;
  unsigned long line;
  char word[LONGEST_WORD + 1]; // empty at the end of the file
};

bool read_number(const char *word, uint64_t most, uint64_t *number) {
  uint64_t sum = 0;
  if (*word == '\0') {
    return false;
  }
  for (; *word != '\0'; word++) {
    if (*word < '0' || *word > '9') {
      return false;
    }
    uint64_t digit = (uint64_t)(*word - '0');
    if (sum > (most - digit) / 10) {
      return false;
    }
    sum = 10 * sum + digit;
  }
  *number = sum;
  return true;
}

// Says what should stand where the last word does.
static bool wrong(const struct reader *reader, const char *wanted) {
  if (reader->word[0] == '\0') {
    fprintf(stderr, "%s: it ends where %s should stand\n", reader->path, wanted);
  } else {
    fprintf(stderr, "%s:%lu: '%s' stands where %s should\n", reader->path, reader->line,
            reader->word, wanted);
  }
  return false;
}

static bool is_blank(int c) { return c == ' ' || c == '\t' || c == '\r' || c == '\n'; }

// Goes to the next word's first character, past blanks and comments.
static int skip_to_word(struct reader *reader) {
  bool in_comment = false;
  int c = getc(reader->stream);
  while (c != EOF && (in_comment || is_blank(c) || c == '#')) {
    in_comment = c == '#' || (in_comment && c != '\n');
    reader->line += c == '\n';
    c = getc(reader->stream);
  }
  return c;
}

static bool next_word(struct reader *reader) {
  size_t length = 0;
  int c = skip_to_word(reader);
  for (; c != EOF && !is_blank(c) && c != '#'; c = getc(reader->stream)) {
    if (c < '!' || c > '~') {
      fprintf(stderr, "%s:%lu: a character that is no plain text\n", reader->path, reader->line);
      return false;
    }
    if (length == LONGEST_WORD) {
      fprintf(stderr, "%s:%lu: a word of more than %d characters\n", reader->path, reader->line,
              LONGEST_WORD);
      return false;
    }
    reader->word[length++] = (char)c;
  }
  reader->word[length] = '\0';
  if (c != EOF) {
    // The line's end is counted on the way to the next word, so that a fault names its own line.
    ungetc(c, reader->stream);
  } else if (ferror(reader->stream)) {
    fprintf(stderr, "%s: %s\n", reader->path, strerror(errno));
    return false;
  }
  return true;
}

static bool next_number(struct reader *reader, const char *wanted, size_t *number) {
  uint64_t read;
  if (!next_word(reader)) {
    return false;
  }
  if (!read_number(reader->word, UINT16_MAX, &read)) {
    return wrong(reader, wanted);
  }
  *number = (size_t)read;
  return true;
}

static bool next_named(struct reader *reader, const char *name, size_t *number) {
  char wanted[LONGEST_WORD];
  snprintf(wanted, sizeof wanted, "the word '%s'", name);
  if (!next_word(reader)) {
    return false;
  }
  if (strcmp(reader->word, name) != 0) {
    return wrong(reader, wanted);
  }
  return next_number(reader, "a number from 0 to 65535", number);
}

// The row of a dart, whose "D:" is the last word read.
static bool read_row(struct reader *reader, size_t dart, struct map *map) {
  char label[LONGEST_WORD], wanted[LONGEST_WORD + 2];
  snprintf(label, sizeof label, "%zu:", dart);
  if (strcmp(reader->word, label) != 0) {
    snprintf(wanted, sizeof wanted, "'%s'", label);
    return wrong(reader, wanted);
  }
  for (size_t i = 1; i <= map->n; i++) {
    size_t sewn;
    snprintf(wanted, sizeof wanted, "number %zu of dart %zu", i, dart);
    if (!next_number(reader, wanted, &sewn)) {
      return false;
    }
    if (map->length == MAP_MOST_NUMBERS) {
      fprintf(stderr, "%s: it has more than %d numbers\n", reader->path, MAP_MOST_NUMBERS);
      return false;
    }
    map->table[map->length++] = (uint16_t)sewn;
  }
  return true;
}

static bool read_words(struct reader *reader, struct map *map) {
  map->length = 0;
  if (!next_named(reader, "sewings", &map->n) || !next_named(reader, "darts", &map->m)) {
    return false;
  }
  for (size_t dart = 1; next_word(reader); dart++) {
    if (reader->word[0] == '\0') {
      return true;
    }
    if (!read_row(reader, dart, map)) {
      return false;
    }
  }
  return false;
}

bool map_read(const char *path, struct map *map) {
  struct reader reader = {.path = path, .stream = fopen(path, "r"), .line = 1};
  if (reader.stream == NULL) {
    fprintf(stderr, "%s: %s\n", path, strerror(errno));
    return false;
  }
  bool read = read_words(&reader, map);
  fclose(reader.stream);
  return read;
}
