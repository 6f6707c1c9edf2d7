// Reads cases in the form of CASES.md from standard input and prints the second program's answers. With the argument `list` it
// is the layout lister instead.
#include <inttypes.h>
#include <string.h>

#include "../cases/ask.h"

static void print_answer(const struct test_case *asked) {
  static const size_t counts[CALLS] = {[CHECK] = 2, [SIGN] = 4, [MATCH] = 2, [JUDGE] = 2, [DRAWER] = 2, [FIND] = 4, [ADD] = 3};
  struct answer answer = ask_second(asked);
  for (size_t at = 0; at < counts[asked->call]; at++) {
    printf("%s%" PRIu64, at == 0 ? "" : " ", answer.numbers[at]);
  }
  if (asked->call == RECORD) {
    print_bytes(answer.record.bytes, answer.record.length);
  }
}

// What the call may have written.
static void print_output(const struct test_case *asked) {
  if (asked->call == SIGN || asked->call == MATCH) {
    printf(" ");
    print_numbers(asked->list.numbers, asked->list.length);
  } else if (asked->call == ADD) {
    printf(" ");
    print_bytes(asked->drawer.bytes, asked->drawer.length);
  }
}

static void answer_all(void) {
  struct test_case asked;
  while (read_case(&asked, stdout)) {
    print_answer(&asked);
    print_output(&asked);
    printf("\n");
    drop_case(&asked);
  }
}

int main(int argc, char **argv) {
  if (argc == 1) {
    answer_all();
  } else if (argc == 2 && strcmp(argv[1], "list") == 0) {
    second_list(stdin, stdout);
  } else {
    fprintf(stderr, "usage: answers < cases, or answers list < records\n");
    return 2;
  }
  // An answer that was not read or written in full must not look like one.
  if (ferror(stdin) != 0 || fflush(stdout) != 0 || ferror(stdout) != 0) {
    fprintf(stderr, "the input or the output broke off\n");
    return 1;
  }
  return 0;
}
