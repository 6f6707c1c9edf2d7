// Shows that the guards catch what they should. In the library's place stand calls that touch one
// byte beside a buffer, write to one that may only be read, or differ from one time to the next:
// each must be caught, with its name and the buffer's. Touching what is lent must not be.
#define _DEFAULT_SOURCE
#include <stdio.h>
#include <stdlib.h>
#include <string.h>
#include <sys/wait.h>
#include <unistd.h>

#include "../../include/duftheim.h"
#include "../cases/ask.h"
#include "guard.h"

enum { MOST_BUFFERS = 3, MANY_PAGES = 30000, MOST_LENGTH = 140000, WRITTEN = 77 };

// ---- The calls in the library's place ----

enum deed { READ_BEFORE, READ_BEHIND, WRITE_BEFORE, WRITE_BEHIND, WRITE_INSIDE, OTHER_BYTES, OTHER_ANSWER, ALL_INSIDE, DEEDS };

// What the next call does, and to which of its buffers.
static enum deed deed;
static size_t victim;
static uint32_t calls_made;

struct lent {
  const void *bytes;
  size_t length;
  bool writable;
};

// How many bytes were not 0.
static uint32_t touch_all(struct lent lent) {
  volatile uint8_t *bytes = (uint8_t *)lent.bytes;
  uint32_t others = 0;
  for (size_t at = 0; at < lent.length; at++) {
    others += bytes[at] != 0;
    if (lent.writable) {
      bytes[at] = WRITTEN;
    }
  }
  return others;
}

// The number that the call answers.
static uint32_t done(const struct lent *lent) {
  volatile uint8_t *first = (uint8_t *)lent[victim].bytes;
  volatile uint8_t *behind = first + lent[victim].length;
  calls_made++;
  switch (deed) {
  case READ_BEFORE:
    return 0 * first[-1];
  case READ_BEHIND:
    return 0 * behind[0];
  // Only the time that no guard stands right there.
  case WRITE_BEFORE:
    if (calls_made == 2) {
      first[-1] = 0;
    }
    return 0;
  case WRITE_BEHIND:
    if (calls_made == 1) {
      behind[0] = 0;
    }
    return 0;
  case WRITE_INSIDE:
    behind[-1] = 0;
    return 0;
  case OTHER_BYTES:
    behind[-1] = (uint8_t)calls_made;
    return 0;
  case OTHER_ANSWER:
    return calls_made;
  default:
    return touch_all(lent[0]) + touch_all(lent[1]) + touch_all(lent[2]);
  }
}

struct duftheim_verdict duftheim_check(size_t n, size_t m, const uint16_t *table, size_t table_length) {
  struct lent lent[MOST_BUFFERS] = {{table, 2 * table_length, false}};
  return (struct duftheim_verdict){done(lent), n * m};
}

struct duftheim_signed duftheim_signature(size_t n, size_t m, const uint16_t *table, size_t table_length, uint16_t *output,
                                          size_t output_length) {
  struct lent lent[MOST_BUFFERS] = {{table, 2 * table_length, false}, {output, 2 * output_length, true}};
  return (struct duftheim_signed){done(lent), n * m, 0, 0};
}

struct duftheim_verdict duftheim_match(size_t n, size_t m, const uint16_t *table, size_t table_length, size_t second_n,
                                       size_t second_m, const uint16_t *second_table, size_t second_table_length,
                                       uint16_t *output, size_t output_length) {
  struct lent lent[MOST_BUFFERS] = {
      {table, 2 * table_length, false}, {second_table, 2 * second_table_length, false}, {output, 2 * output_length, true}};
  return (struct duftheim_verdict){done(lent), n * m * second_n * second_m};
}

struct duftheim_verdict duftheim_judge(size_t n, size_t m, const uint16_t *table, size_t table_length, size_t second_n,
                                       size_t second_m, const uint16_t *second_table, size_t second_table_length,
                                       const uint16_t *list, size_t list_length) {
  struct lent lent[MOST_BUFFERS] = {
      {table, 2 * table_length, false}, {second_table, 2 * second_table_length, false}, {list, 2 * list_length, false}};
  return (struct duftheim_verdict){done(lent), n * m * second_n * second_m};
}

struct duftheim_verdict duftheim_drawer_check(size_t count, const uint8_t *drawer, size_t drawer_length) {
  struct lent lent[MOST_BUFFERS] = {{drawer, drawer_length, false}};
  return (struct duftheim_verdict){done(lent), count};
}

struct duftheim_found duftheim_search(size_t n, size_t m, const uint16_t *table, size_t table_length, size_t count,
                                      const uint8_t *drawer, size_t drawer_length) {
  struct lent lent[MOST_BUFFERS] = {{table, 2 * table_length, false}, {drawer, drawer_length, false}};
  return (struct duftheim_found){done(lent), n * m, 0, count};
}

struct duftheim_filed duftheim_file(uint32_t die, size_t n, size_t m, const uint16_t *table, size_t table_length, size_t count,
                                    uint8_t *drawer, size_t drawer_length) {
  struct lent lent[MOST_BUFFERS] = {{table, 2 * table_length, false}, {drawer, drawer_length, true}};
  return (struct duftheim_filed){done(lent), n * m * die, count};
}

// ---- Asking ----

// Bytes of each buffer; a list has half as many numbers. None, few, more than a page, just pages of
// every size, more than the first area has.
static const size_t lengths[] = {0, 6, 5002, 65536, MOST_LENGTH};
static size_t length;

static uint16_t table[MOST_LENGTH / 2];
static uint16_t second_table[MOST_LENGTH / 2];
static uint16_t last[MOST_LENGTH / 2];
static uint8_t *const drawer = (uint8_t *)last;

// Only the last buffer of a call is ever written.
struct guarded {
  enum call call;
  const char *name;
  bool writes;
  size_t count;
  const char *buffers[MOST_BUFFERS];
};

static const struct guarded calls[] = {
    {CHECK, "duftheim_check", false, 1, {"table"}},
    {SIGN, "duftheim_signature", true, 2, {"table", "output"}},
    {MATCH, "duftheim_match", true, 3, {"table", "second table", "output"}},
    {JUDGE, "duftheim_judge", false, 3, {"table", "second table", "list"}},
    {DRAWER, "duftheim_drawer_check", false, 1, {"drawer"}},
    {FIND, "duftheim_search", false, 2, {"table", "drawer"}},
    {ADD, "duftheim_file", true, 2, {"table", "drawer"}},
};

// A drawer may have an odd number of bytes.
static void ask(const struct guarded *call) {
  size_t numbers = length / 2;
  struct test_case asked = {.call = call->call,
                            .die = 1,
                            .first = {1, 1, table, numbers},
                            .second = {1, 1, second_table, numbers},
                            .list = {last, numbers},
                            .drawer = {drawer, length == 6 ? 7 : length}};
  ask_library(&asked);
}

// ---- What must be said ----

static const char *const parts_said[DEEDS] = {
    " touches what stands before the ",
    " touches what stands behind the ",
    " before the ",
    " behind the ",
    " writes to the ",
    " writes otherwise where the buffers lie elsewhere: the ",
    " answers otherwise where the buffers lie elsewhere",
    "",
};

static int tried;
static int failed;

// Lends more pages than most calls that come then, which must be closed to those.
static void open_many_pages(const struct guarded *call) {
  size_t kept_length = length;
  enum deed kept_deed = deed;
  length = MANY_PAGES;
  deed = ALL_INSIDE;
  ask(call);
  length = kept_length;
  deed = kept_deed;
  calls_made = 0;
  memset(last, 0, sizeof last);
}

// What is asked in a process of its own, since a guard ends it.
static int status_of(const struct guarded *call, char *message, size_t room) {
  int ends[2];
  // Else the child would print it too.
  fflush(stdout);
  if (pipe(ends) != 0) {
    exit(2);
  }
  pid_t child = fork();
  if (child == 0) {
    dup2(ends[1], STDERR_FILENO);
    open_many_pages(call);
    ask(call);
    // What the call wrote must have come back.
    _exit(call->writes && deed == ALL_INSIDE && length != 0 && drawer[length - 1] != WRITTEN);
  }
  close(ends[1]);
  size_t got = 0;
  for (ssize_t more = 1; more > 0; got += (size_t)more) {
    more = read(ends[0], message + got, room - 1 - got);
    more = more < 0 ? 0 : more;
  }
  message[got] = '\0';
  close(ends[0]);
  int status = 0;
  waitpid(child, &status, 0);
  return WIFEXITED(status) ? WEXITSTATUS(status) : -1;
}

static void try_deed(const struct guarded *call) {
  char message[256];
  char right[256] = "";
  int status = status_of(call, message, sizeof message);
  int right_status = deed == ALL_INSIDE ? 0 : GUARD_TOUCHED;
  const char *buffer = deed == OTHER_ANSWER ? "" : call->buffers[victim];
  snprintf(right, sizeof right, "%s%s\n", parts_said[deed], buffer);
  // The message's end, since a byte written beside a buffer is caught in one of two ways.
  size_t said = strlen(message);
  const char *end = said < strlen(right) ? message : message + said - strlen(right);
  bool named = strncmp(message, call->name, strlen(call->name)) == 0 && strcmp(end, right) == 0;
  tried++;
  if (status != right_status || (deed == ALL_INSIDE ? said != 0 : !named)) {
    failed++;
    printf("FAILED %s, deed %d, %s of %zu bytes: status %d, said: %s\n", call->name, (int)deed, buffer, length, status, message);
  }
}

static bool can_be_done(const struct guarded *call) {
  bool writable = call->writes && victim == call->count - 1;
  switch (deed) {
  case WRITE_INSIDE:
    return length != 0 && !writable;
  case OTHER_BYTES:
    return length != 0 && writable;
  default:
    return true;
  }
}

int main(void) {
  for (size_t k = 0; k < sizeof calls / sizeof calls[0]; k++) {
    for (size_t at = 0; at < sizeof lengths / sizeof lengths[0]; at++) {
      length = lengths[at];
      for (deed = 0; deed < DEEDS; deed++) {
        for (victim = 0; victim < calls[k].count; victim++) {
          if (can_be_done(&calls[k])) {
            try_deed(&calls[k]);
          }
        }
      }
    }
  }
  printf("%d tried, %d failed\n", tried, failed);
  return failed == 0 ? 0 : 1;
}
