// An example on drawer files, from the command line; its usage is below. It never names a nearest
// match, and a filing leaves the old drawer file or the new one, whatever happens.
#include <stdbool.h>
#include <stdio.h>
#include <string.h>

#include "display.h"
#include "drawer_file.h"
#include "duftheim.h"
#include "map_file.h"

static const char usage[] =
    "usage: drawer check DRAWER..       whether each drawer file is good\n"
    "       drawer find MAP DRAWER..    under which die the map's layout is filed\n"
    "       drawer file DIE MAP DRAWER  files the map's layout under the die number\n"
    "       drawer match MAP MAP        whether two maps are one layout, and which dart is which\n"
    "       drawer record DIE MAP       writes the map as it stands as a record, for layouts\n"
    "A drawer file is whole records: an empty file is an empty drawer. MAP is a map file.\n"
    "Status: 0 for yes; 1 where the library refuses, and for 'not found'; 2 where the words, a\n"
    "file or the disk are wrong.\n";

enum status { YES = 0, REFUSED = 1, FAILED = 2 };

static enum status worse(enum status one, enum status other) { return one > other ? one : other; }

// Large, so they stand here and not on the stack.
static struct map map, second_map;
static struct drawer drawer;

static enum status refused(const char *path, uint32_t number, size_t place, size_t n) {
  fprintf(stderr, "%s: refused, ", path);
  display_refusal(stderr, number, place, n);
  return REFUSED;
}

static bool die_read(const char *word, uint32_t *die) {
  uint64_t number;
  if (!read_number(word, UINT32_MAX, &number)) {
    fprintf(stderr, "drawer: '%s' is no die number: 1 to 4294967295\n", word);
    return false;
  }
  *die = (uint32_t)number;
  return true;
}

// ---- The commands; each is handed the words behind its name ----

static enum status check_one(const char *path) {
  if (!drawer_read(path, &drawer)) {
    return FAILED;
  }
  struct duftheim_verdict answer =
      duftheim_drawer_check(drawer.count, drawer.bytes, sizeof drawer.bytes);
  if (answer.number != DUFTHEIM_ACCEPTED) {
    return refused(path, answer.number, answer.place, 0);
  }
  printf("%s: good, %zu of %d records\n", path, drawer.count, DUFTHEIM_MOST_RECORDS);
  return YES;
}

static enum status check(char **words, int count) {
  enum status status = YES;
  for (int k = 0; k < count; k++) {
    status = worse(status, check_one(words[k]));
  }
  return status;
}

// Looks in every drawer: a shop may have filed a layout in two. A drawer that cannot be searched
// shows in the status, also where another one has the layout.
static enum status find(char **words, int count) {
  if (!map_read(words[0], &map)) {
    return FAILED;
  }
  struct duftheim_verdict judged = duftheim_check(map.n, map.m, map.table, map.length);
  if (judged.number != DUFTHEIM_ACCEPTED) {
    return refused(words[0], judged.number, judged.place, map.n);
  }
  bool found = false;
  enum status status = YES;
  for (int k = 1; k < count; k++) {
    if (!drawer_read(words[k], &drawer)) {
      status = FAILED;
      continue;
    }
    struct duftheim_found answer = duftheim_search(map.n, map.m, map.table, map.length,
                                                   drawer.count, drawer.bytes, sizeof drawer.bytes);
    if (answer.number == DUFTHEIM_ACCEPTED) {
      found = true;
      printf("found: die %u, record %zu of %s\n", (unsigned)answer.die, answer.record, words[k]);
    } else if (answer.number != DUFTHEIM_NOT_FOUND) {
      status = worse(status, refused(words[k], answer.number, answer.place, map.n));
    }
  }
  if (!found) {
    printf("not found\n");
    status = worse(status, REFUSED);
  }
  return status;
}

static enum status file_into(struct replacing *replacing, uint32_t die, const char *path) {
  if (!drawer_read(path, &drawer)) {
    replacing_give_up(replacing);
    return FAILED;
  }
  struct duftheim_filed answer = duftheim_file(die, map.n, map.m, map.table, map.length,
                                               drawer.count, drawer.bytes, sizeof drawer.bytes);
  if (answer.number != DUFTHEIM_ACCEPTED) {
    replacing_give_up(replacing);
    return refused(path, answer.number, answer.place, map.n);
  }
  drawer.count = answer.count;
  if (!replacing_finish(replacing, &drawer)) {
    return FAILED;
  }
  printf("filed: die %u, record %zu of %s\n", (unsigned)die, answer.count, path);
  return YES;
}

static enum status file(char **words, int count) {
  (void)count;
  uint32_t die;
  struct replacing replacing;
  if (!die_read(words[0], &die) || !map_read(words[1], &map)) {
    return FAILED;
  }
  struct duftheim_verdict judged = duftheim_check(map.n, map.m, map.table, map.length);
  if (judged.number != DUFTHEIM_ACCEPTED) {
    return refused(words[1], judged.number, judged.place, map.n);
  }
  if (!replacing_begin(words[2], &replacing)) {
    return FAILED;
  }
  return file_into(&replacing, die, words[2]);
}

// One pair for each dart, ten to a line: 1=9 says that dart 1 of the first map is dart 9.
static enum status match(char **words, int count) {
  (void)count;
  static uint16_t image[MAP_MOST_NUMBERS];
  if (!map_read(words[0], &map) || !map_read(words[1], &second_map)) {
    return FAILED;
  }
  struct duftheim_verdict answer =
      duftheim_match(map.n, map.m, map.table, map.length, second_map.n, second_map.m,
                     second_map.table, second_map.length, image, MAP_MOST_NUMBERS);
  if (answer.number == DUFTHEIM_NO_MATCHING) {
    printf("no match\n");
    return REFUSED;
  }
  if (answer.number != DUFTHEIM_ACCEPTED) {
    bool of_second = answer.number > DUFTHEIM_OF_SECOND;
    size_t n = of_second ? second_map.n : map.n;
    return refused(words[of_second], answer.number, answer.place, n);
  }
  printf("match:");
  for (size_t dart = 1; dart <= map.m; dart++) {
    printf("%s%zu=%d", dart % 10 == 1 && dart != 1 ? "\n       " : " ", dart, image[dart - 1]);
  }
  printf("\n");
  return YES;
}

static void put_number(uint8_t *bytes, uint16_t number) {
  bytes[0] = (uint8_t)(number & 255);
  bytes[1] = (uint8_t)(number >> 8);
}

// Nothing is judged here: layouts, which reads such records, does that.
static enum status record(char **words, int count) {
  (void)count;
  static uint8_t bytes[DUFTHEIM_RECORD_SIZE];
  uint32_t die;
  if (!die_read(words[0], &die) || !map_read(words[1], &map)) {
    return FAILED;
  }
  if (map.n > UINT8_MAX || 8 + 2 * map.length > sizeof bytes) {
    fprintf(stderr, "%s: it does not fit into a record\n", words[1]);
    return FAILED;
  }
  put_number(bytes, (uint16_t)(die & UINT16_MAX));
  put_number(bytes + 2, (uint16_t)(die >> 16));
  bytes[4] = (uint8_t)map.n;
  put_number(bytes + 6, (uint16_t)map.m);
  for (size_t at = 0; at < map.length; at++) {
    put_number(bytes + 8 + 2 * at, map.table[at]);
  }
  fwrite(bytes, 1, sizeof bytes, stdout);
  return YES;
}

static const struct command {
  const char *name;
  int least_words;
  int most_words; // 0: any number of them
  enum status (*run)(char **words, int count);
} commands[] = {
    {"check", 1, 0, check}, {"find", 2, 0, find},     {"file", 3, 3, file},
    {"match", 2, 2, match}, {"record", 2, 2, record},
};

static const struct command *command_for(const char *name, int words) {
  for (size_t k = 0; k < sizeof commands / sizeof commands[0]; k++) {
    const struct command *command = &commands[k];
    if (strcmp(name, command->name) == 0 && words >= command->least_words &&
        (command->most_words == 0 || words <= command->most_words)) {
      return command;
    }
  }
  return NULL;
}

int main(int argc, char **argv) {
  const struct command *command = argc < 2 ? NULL : command_for(argv[1], argc - 2);
  if (command == NULL) {
    fputs(usage, stderr);
    return FAILED;
  }
  enum status status = command->run(argv + 2, argc - 2);
  // An answer that could not be written was not given.
  if (fflush(stdout) != 0 || ferror(stdout)) {
    perror("drawer: standard output");
    status = FAILED;
  }
  return (int)status;
}
