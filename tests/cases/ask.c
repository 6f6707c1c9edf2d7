// Makes the call that a case asks for, by the second program. The reader's tests compile it once more with the library's calls
// in the second program's place.
#include "ask.h"

static struct answer answered(struct second_verdict verdict, uint64_t third, uint64_t fourth) {
  return (struct answer){.numbers = {verdict.number, verdict.place, third, fourth}};
}

static struct answer ask_on_drawer(const struct test_case *asked) {
  struct second_map map = asked->first;
  struct bytes drawer = asked->drawer;
  struct second_found found;
  struct second_filed filed;
  switch (asked->call) {
  case DRAWER:
    return answered(second_drawer(asked->count, drawer.bytes, drawer.length), 0, 0);
  case FIND:
    found = second_find(map, asked->count, drawer.bytes, drawer.length);
    return answered((struct second_verdict){found.number, found.place}, found.die, found.record);
  case ADD:
    filed = second_add(asked->die, map, asked->count, drawer.bytes, drawer.length);
    return answered((struct second_verdict){filed.number, filed.place}, filed.count, 0);
  default:
    return (struct answer){.record = second_record(map, asked->count, drawer.bytes, drawer.length)};
  }
}

struct answer ask_second(const struct test_case *asked) {
  struct second_map map = asked->first;
  struct list list = asked->list;
  struct second_signed sign;
  switch (asked->call) {
  case CHECK:
    return answered(second_check(map), 0, 0);
  case SIGN:
    sign = second_sign(map, list.numbers, list.length);
    return answered((struct second_verdict){sign.number, sign.place}, sign.start, sign.symmetries);
  case MATCH:
    return answered(second_match(map, asked->second, list.numbers, list.length), 0, 0);
  case JUDGE:
    return answered(second_judge(map, asked->second, list.numbers, list.length), 0, 0);
  default:
    return ask_on_drawer(asked);
  }
}
