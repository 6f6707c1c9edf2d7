// The library's calls, each with all its buffers guarded.
#include "library.h"

#include "../../include/duftheim.h"
#include "guard.h"

_Static_assert(sizeof(size_t) == sizeof(uint64_t), "a case's n and m must reach the library whole");

// ---- Lending ----

static const uint16_t *lend_numbers(const char *name, const uint16_t *numbers, size_t length) {
  return lend(name, numbers, length * sizeof numbers[0]);
}

static const uint16_t *lend_table(struct second_map map) {
  return lend_numbers("table", map.table, map.length);
}

static const uint16_t *lend_second_table(struct second_map map) {
  return lend_numbers("second table", map.table, map.length);
}

static uint16_t *lend_output(uint16_t *numbers, size_t length) {
  return lend_to_write("output", numbers, length * sizeof numbers[0]);
}

static void hold(uint64_t number, uint64_t place, uint64_t third, uint64_t fourth) {
  hold_answer((uint64_t[ANSWER_NUMBERS]){number, place, third, fourth});
}

static struct second_verdict given(struct duftheim_verdict answer) {
  hold(answer.number, answer.place, 0, 0);
  return (struct second_verdict){answer.number, answer.place};
}

// ---- Maps ----

struct second_verdict library_check(struct second_map map) {
  struct second_verdict verdict = {0, 0};
  while (lend_again("duftheim_check")) {
    const uint16_t *table = lend_table(map);
    verdict = given(duftheim_check(map.n, map.m, table, map.length));
  }
  return verdict;
}

struct second_signed library_sign(struct second_map map, uint16_t *out, size_t out_length) {
  struct duftheim_signed answer = {0};
  while (lend_again("duftheim_signature")) {
    const uint16_t *table = lend_table(map);
    uint16_t *output = lend_output(out, out_length);
    answer = duftheim_signature(map.n, map.m, table, map.length, output, out_length);
    hold(answer.number, answer.place, answer.start, answer.symmetries);
  }
  return (struct second_signed){answer.number, answer.place, answer.start, answer.symmetries};
}

struct second_verdict library_match(struct second_map first, struct second_map second, uint16_t *out, size_t out_length) {
  struct second_verdict verdict = {0, 0};
  while (lend_again("duftheim_match")) {
    const uint16_t *table = lend_table(first);
    const uint16_t *second_table = lend_second_table(second);
    uint16_t *output = lend_output(out, out_length);
    verdict = given(duftheim_match(first.n, first.m, table, first.length, second.n, second.m, second_table, second.length, output,
                                   out_length));
  }
  return verdict;
}

struct second_verdict library_judge(struct second_map first, struct second_map second, const uint16_t *list, size_t list_length) {
  struct second_verdict verdict = {0, 0};
  while (lend_again("duftheim_judge")) {
    const uint16_t *table = lend_table(first);
    const uint16_t *second_table = lend_second_table(second);
    const uint16_t *lent_list = lend_numbers("list", list, list_length);
    verdict = given(duftheim_judge(first.n, first.m, table, first.length, second.n, second.m, second_table, second.length,
                                   lent_list, list_length));
  }
  return verdict;
}

// ---- The drawer ----

struct second_verdict library_drawer(uint64_t count, const uint8_t *drawer, size_t drawer_length) {
  struct second_verdict verdict = {0, 0};
  while (lend_again("duftheim_drawer_check")) {
    const uint8_t *bytes = lend("drawer", drawer, drawer_length);
    verdict = given(duftheim_drawer_check(count, bytes, drawer_length));
  }
  return verdict;
}

struct second_found library_find(struct second_map map, uint64_t count, const uint8_t *drawer, size_t drawer_length) {
  struct duftheim_found answer = {0};
  while (lend_again("duftheim_search")) {
    const uint16_t *table = lend_table(map);
    const uint8_t *bytes = lend("drawer", drawer, drawer_length);
    answer = duftheim_search(map.n, map.m, table, map.length, count, bytes, drawer_length);
    hold(answer.number, answer.place, answer.die, answer.record);
  }
  return (struct second_found){answer.number, answer.place, answer.die, answer.record};
}

struct second_part library_record(struct second_map map, uint64_t count, const uint8_t *drawer, size_t drawer_length) {
  struct second_found found = library_find(map, count, drawer, drawer_length);
  const uint8_t *bytes = duftheim_record_bytes(drawer, found.record);
  return (struct second_part){bytes, bytes == NULL ? 0 : DUFTHEIM_RECORD_SIZE};
}

struct second_filed library_add(uint32_t die, struct second_map map, uint64_t count, uint8_t *drawer, size_t drawer_length) {
  struct duftheim_filed answer = {0};
  while (lend_again("duftheim_file")) {
    const uint16_t *table = lend_table(map);
    uint8_t *bytes = lend_to_write("drawer", drawer, drawer_length);
    answer = duftheim_file(die, map.n, map.m, table, map.length, count, bytes, drawer_length);
    hold(answer.number, answer.place, answer.count, 0);
  }
  return (struct second_filed){answer.number, answer.place, answer.count};
}
