// Functions whose stack need is known by their making, for the test of `stack`; none is ever run.
#include <stddef.h>
#include <stdint.h>

void fills(uint16_t *numbers, size_t length);
uint64_t outside(uint64_t number);

#define KEPT_WHOLE __attribute__((noipa))

KEPT_WHOLE static uint64_t leaf(uint64_t number) {
  return number * number + 1;
}

// 80 bytes that a function without calls may keep below the stack pointer.
KEPT_WHOLE uint64_t below_the_pointer(const uint64_t *numbers, size_t length) {
  volatile uint64_t kept[10];
  for (size_t at = 0; at < 10; at++) {
    kept[at] = numbers[(at * length) % 10];
  }
  return kept[length % 10];
}

KEPT_WHOLE uint64_t small_frame(uint64_t number) {
  uint16_t numbers[100];
  fills(numbers, 100);
  return numbers[number % 100] + leaf(number);
}

// Above a page, so that a build with probes touches it page by page.
KEPT_WHOLE uint64_t large_frame(uint64_t number) {
  uint16_t numbers[3][1020];
  uint16_t more[10000];
  fills(numbers[0], 3 * 1020);
  fills(more, 10000);
  return numbers[number % 3][number % 1020] + more[number] + small_frame(number);
}

KEPT_WHOLE uint64_t ends_in_a_jump(uint64_t number) {
  return large_frame(number + 1);
}

KEPT_WHOLE uint64_t two_ways(uint64_t number) {
  return number % 2 == 0 ? small_frame(number) + 1 : leaf(number) * outside(number);
}

// The compiler lays the frame at a multiple of 64 below the place it finds.
KEPT_WHOLE uint64_t aligned_frame(uint64_t number) {
  _Alignas(64) uint16_t numbers[320];
  fills(numbers, 320);
  return numbers[number % 320];
}

KEPT_WHOLE uint64_t through_a_table(uint64_t number, uint16_t *numbers) {
  uint16_t own[64];
  fills(own, 64);
  switch (number) {
  case 0:
    return outside(own[1]) + 3;
  case 1:
    return small_frame(own[2]);
  case 2:
    return leaf(own[3]) * 7;
  case 3:
    fills(numbers, 3);
    return outside(own[5]) * 11;
  case 4:
    return own[7];
  case 5:
    return large_frame(own[4]) + 1;
  default:
    return 0;
  }
}

// An answer too large for registers, in memory that the caller lends, and a record in the frame, as
// in the drawer's calls.
struct answer {
  uint64_t number;
  uint64_t place;
  uint64_t die;
  uint64_t record;
};

KEPT_WHOLE struct answer answers_in_memory(uint64_t a, uint64_t b, uint64_t c, uint64_t d,
                                           uint64_t e, uint64_t f, uint64_t g, uint64_t h) {
  uint16_t record[1024];
  fills(record, 1024);
  return (struct answer){a + b + record[0], c + d + record[1], e + f + record[2],
                         g + h + record[3]};
}

// Of nine numbers, the place of the answer among them, three do not fit into registers.
KEPT_WHOLE uint64_t lends_memory(uint64_t number) {
  struct answer answer = answers_in_memory(number, 1, 2, 3, 4, 5, number + 6, number + 7);
  return answer.number + answer.record;
}

// Two calls of a C boundary, which are read where none is named.

KEPT_WHOLE uint64_t duftheim_first(uint64_t number) {
  return small_frame(number) + 1;
}

KEPT_WHOLE uint64_t duftheim_second(uint64_t number) {
  return large_frame(number) + 1;
}

// The rest must be reported, not guessed at.

KEPT_WHOLE uint64_t calls_itself(uint64_t number) {
  uint16_t numbers[10];
  fills(numbers, 10);
  return number == 0 ? numbers[1] : calls_itself(number - 1) * numbers[2] + numbers[3];
}

KEPT_WHOLE uint64_t through_a_pointer(uint64_t (*called)(uint64_t), uint64_t number) {
  return called(number) + 1;
}

KEPT_WHOLE uint64_t worked_out_size(size_t length) {
  uint16_t numbers[length];
  fills(numbers, length);
  return numbers[length / 2];
}

KEPT_WHOLE uint64_t calls_what_is_not_known(size_t length) {
  return worked_out_size(length) + 1;
}
