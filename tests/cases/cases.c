// Reads and prints test cases in the form of CASES.md.
#include "cases.h"

#include <inttypes.h>
#include <stdlib.h>
#include <string.h>

const char *const call_words[CALLS] = {"check", "sign", "match", "judge", "drawer", "find", "add", "record"};

// The parts of each call's line in their order: a die number, a first and a second map, a list, and a drawer with its count.
static const char *const call_parts[CALLS] = {"1", "1l", "12l", "12l", "b", "1b", "d1b", "1b"};

// ---- Single parts ----

static uint64_t line_number = 1;

static _Noreturn void stop(const char *why) {
  fflush(stdout);
  fprintf(stderr, "line %" PRIu64 ": %s\n", line_number, why);
  exit(2);
}

static int next_character(void) {
  int next = getchar();
  ungetc(next, stdin);
  return next;
}

static bool at_line_end(void) {
  int next = next_character();
  return next == '\n' || next == EOF;
}

static uint64_t take_digits(uint64_t most) {
  uint64_t number = 0;
  int next = getchar();
  if (next < '0' || next > '9') {
    stop("a decimal number is missing");
  }
  for (; next >= '0' && next <= '9'; next = getchar()) {
    uint64_t digit = (uint64_t)(next - '0');
    if (number > most / 10 || digit > most - 10 * number) {
      stop("a number is too high for its place");
    }
    number = 10 * number + digit;
  }
  ungetc(next, stdin);
  return number;
}

static uint64_t take_number(uint64_t most) {
  if (at_line_end()) {
    stop("the line ends too early");
  }
  if (getchar() != ' ') {
    stop("a single space must stand between numbers");
  }
  return take_digits(most);
}

// How often the number just taken stands: V*K is V, K times.
static uint64_t take_times(uint64_t most) {
  if (next_character() != '*') {
    return 1;
  }
  getchar();
  uint64_t times = take_digits(most);
  if (times == 0) {
    stop("a number must stand at least once");
  }
  return times;
}

// ---- Lists ----

// Room is taken as numbers come, since a line may promise more than it holds.
static void grow(struct list *list, size_t *room, size_t least, size_t promised) {
  size_t wanted = *room > promised / 2 ? promised : 2 * *room;
  wanted = wanted < least ? least : wanted;
  uint16_t *numbers = NULL;
  if (wanted <= SIZE_MAX / sizeof numbers[0]) {
    numbers = realloc(list->numbers, wanted * sizeof numbers[0]);
  }
  if (numbers == NULL) {
    stop("no memory for a list this long");
  }
  list->numbers = numbers;
  *room = wanted;
}

static struct list take_list(uint16_t most) {
  size_t promised = take_number(SIZE_MAX);
  struct list list = {NULL, 0};
  size_t room = 0;
  while (list.length < promised) {
    uint16_t number = (uint16_t)take_number(most);
    size_t times = take_times(promised - list.length);
    if (room - list.length < times) {
      grow(&list, &room, list.length + times, promised);
    }
    for (; times > 0; times--) {
      list.numbers[list.length++] = number;
    }
  }
  return list;
}

static struct bytes take_bytes(void) {
  struct list list = take_list(UINT8_MAX);
  struct bytes taken = {NULL, list.length};
  if (list.length != 0 && (taken.bytes = malloc(list.length)) == NULL) {
    stop("no memory for a drawer this long");
  }
  for (size_t at = 0; at < list.length; at++) {
    taken.bytes[at] = (uint8_t)list.numbers[at];
  }
  free(list.numbers);
  return taken;
}

static struct second_map take_map(void) {
  uint64_t n = take_number(UINT64_MAX);
  uint64_t m = take_number(UINT64_MAX);
  struct list table = take_list(UINT16_MAX);
  return (struct second_map){n, m, table.numbers, table.length};
}

// ---- Whole cases ----

static enum call take_call(void) {
  char word[8] = "";
  size_t length = 0;
  while (!at_line_end() && next_character() != ' ' && length + 1 < sizeof word) {
    word[length++] = (char)getchar();
  }
  for (enum call call = CHECK; call < CALLS; call++) {
    if (strcmp(word, call_words[call]) == 0) {
      return call;
    }
  }
  stop("no such case");
}

static void take_part(struct test_case *read, char part) {
  switch (part) {
  case 'd':
    read->die = (uint32_t)take_number(UINT32_MAX);
    break;
  case '1':
    read->first = take_map();
    break;
  case '2':
    read->second = take_map();
    break;
  case 'l':
    read->list = take_list(UINT16_MAX);
    break;
  default:
    read->count = take_number(UINT64_MAX);
    read->drawer = take_bytes();
  }
}

static void take_line_end(void) {
  if (!at_line_end()) {
    stop("the line goes on after its case");
  }
  getchar();
  line_number++;
}

// The last line may lack its end, and is copied with one.
static void pass_over_line(FILE *copy) {
  while (!at_line_end()) {
    int next = getchar();
    if (copy != NULL) {
      putc(next, copy);
    }
  }
  if (copy != NULL) {
    putc('\n', copy);
  }
  take_line_end();
}

bool read_case(struct test_case *read, FILE *comments) {
  while (next_character() == '#' || next_character() == '\n') {
    pass_over_line(comments);
  }
  if (next_character() == EOF) {
    if (ferror(stdin) != 0) {
      stop("the input broke off");
    }
    return false;
  }
  *read = (struct test_case){.call = take_call()};
  for (const char *part = call_parts[read->call]; *part != '\0'; part++) {
    take_part(read, *part);
  }
  take_line_end();
  return true;
}

void drop_case(struct test_case *read) {
  free((void *)read->first.table);
  free((void *)read->second.table);
  free(read->list.numbers);
  free(read->drawer.bytes);
}

// ---- Printing ----

static unsigned item(const void *items, size_t size, size_t at) {
  return size == 1 ? ((const uint8_t *)items)[at] : ((const uint16_t *)items)[at];
}

static void print_items(const void *items, size_t size, size_t length) {
  printf("%zu", length);
  for (size_t at = 0, end; at < length; at = end) {
    for (end = at + 1; end < length && item(items, size, end) == item(items, size, at);) {
      end++;
    }
    if (end - at >= 4) {
      printf(" %u*%zu", item(items, size, at), end - at);
    }
    for (size_t time = end - at >= 4 ? end : at; time < end; time++) {
      printf(" %u", item(items, size, at));
    }
  }
}

void print_numbers(const uint16_t *numbers, size_t length) {
  print_items(numbers, sizeof numbers[0], length);
}

void print_bytes(const uint8_t *bytes, size_t length) {
  print_items(bytes, sizeof bytes[0], length);
}

static void print_map(struct second_map map) {
  printf("%" PRIu64 " %" PRIu64 " ", map.n, map.m);
  print_numbers(map.table, map.length);
}

static void print_part(const struct test_case *printed, char part) {
  printf(" ");
  switch (part) {
  case 'd':
    printf("%" PRIu32, printed->die);
    break;
  case '1':
    print_map(printed->first);
    break;
  case '2':
    print_map(printed->second);
    break;
  case 'l':
    print_numbers(printed->list.numbers, printed->list.length);
    break;
  default:
    printf("%" PRIu64 " ", printed->count);
    print_bytes(printed->drawer.bytes, printed->drawer.length);
  }
}

void print_case(const struct test_case *printed) {
  printf("%s", call_words[printed->call]);
  for (const char *part = call_parts[printed->call]; *part != '\0'; part++) {
    print_part(printed, *part);
  }
  printf("\n");
}
