/* The die reader's library, for the camera's program: libduftheim.a, made by ./build.

   A die's layout is a dart table: n numbers of 16 bits for each of its m darts (an edge of a panel, walked in one direction, is a
   dart; docs/TOUR.md shows one). The darts are 1 to m, and 0 means "sewn to
   nothing". The i-th number of dart d, counted from 1, is the dart that d is i-sewn to; it stands at table[(d - 1) * n + i - 1].
   n is 1 to 4, and n * m at most 1,020.

   Layouts are filed in a drawer: bytes of yours that hold 0 to 1,024 records of 2,048 bytes each, one after another, and the
   count of these records, which you keep. Numbers of several bytes stand little end first. A record is the die number, which is
   not 0, in 4 bytes; n in 1 byte; a zero byte; m in 2 bytes; the layout's signature as n * m numbers of 16 bits; and zeros to
   the end. No two records have the same die number or the same layout. Records count from 1. With the count 0 the drawer is
   empty, whatever its bytes are: what stands behind the counted records is never looked at.

   Every call judges its input itself, whatever the numbers: what it cannot take it refuses with a number and a place, and
   then every buffer is as it was. Of you it asks that a pointer is never null, also of an empty buffer, that a buffer is as
   long as its length says, that numbers of 16 bits stand at even addresses, and that a buffer that a call writes overlaps no
   other of that call.

   What a call needs
     Processor   x86-64 with SSE2 and no later extension, and the System V calling convention (that of Linux): a size_t has 8
                 bytes. The code uses the 128 bytes below the stack pointer (the red zone), which interrupts must leave alone.
     Stack       6 to 25 KB. All working room is on the stack; none is lent by you, and none allocated. The bytes for each call
                 are DUFTHEIM_STACK_.. below.
     To link     memcpy and memset, as the C library has them, and nothing else.
     Variables   none. No call keeps a pointer or anything else, so calls may run at the same time on buffers of their own, and
                 on shared ones that none of them writes.
     Time        Every call returns; there is no bound in seconds. Instructions were counted, of the library as an older toolchain
                 compiled it: for a signature 6 thousand with 7 darts, 0.1 to 0.4 million for most layouts of the largest size,
                 rings, grids and tori among them, and 13 million for the slowest layout tried, a ring of 510 darts with one
                 mark; for a match at most 37 million. A drawer check judges every record, and so do search and filing each time:
                 72 million for 1,024 random layouts of 258 darts on the mean, 96 million for rings of 1 to 1,020 darts, but 380
                 million for 64 rings with marks, the slowest drawer tried. docs/SPEED.md has all figures.
     Answers     are handed back by value. The bytes between the members of a struct are not written: compare members.

   That the answers are right is proved, and not only tested; duftheim_record_bytes, below, is plain C. The proof rests on the
   prover, the compiler and the processor, on memcpy and memset, on what is asked of you, and on this header saying what
   crates/reader does. What is proved is what the definitions say in the folders specs/ of crates/; docs/PROMISES.md leads
   there, sentence by sentence. */
#ifndef DUFTHEIM_H
#define DUFTHEIM_H

#include <stddef.h>
#include <stdint.h>

/* The first number grows when a program that was right may no longer be, the second with new calls, the third with the rest. */
#define DUFTHEIM_VERSION "2.0.0"
#define DUFTHEIM_VERSION_MAJOR 2
#define DUFTHEIM_VERSION_MINOR 0
#define DUFTHEIM_VERSION_PATCH 0

/* The stack that each call needs, in bytes, with its own return address. What memcpy and memset need beyond theirs comes on top,
   and so does what an interrupt pushes. */
#define DUFTHEIM_STACK_CHECK 6384
#define DUFTHEIM_STACK_JUDGE 6464
#define DUFTHEIM_STACK_MATCH 12688
#define DUFTHEIM_STACK_SIGNATURE 14800
#define DUFTHEIM_STACK_DRAWER_CHECK 16848
#define DUFTHEIM_STACK_FILE 25088
#define DUFTHEIM_STACK_SEARCH 25184

/* Bytes of a record, and records of a full drawer. */
#define DUFTHEIM_RECORD_SIZE 2048
#define DUFTHEIM_MOST_RECORDS 1024

#ifdef __cplusplus
extern "C" {
#endif

/* What the display shows where a call refuses: an answer's `number`, and where it is wrong, its `place`. The place counts entries
   of the table, darts or records, from 1, and is the least that is meant; it is 0 where none is named. In a refused answer every
   other number is 0.

   With 5 to 8 it is the place of a wrong entry, a number of the table. Place p is table[p - 1]: the i-th number of dart d, where
   i is (p - 1) % n + 1, and d is (p - 1) / n + 1. With 25 to 28 it is second_table[p - 1], and n is second_n.

   Of one layout the lowest number that applies is given. A call with two layouts judges the first, then the second, whose
   numbers are DUFTHEIM_OF_SECOND higher, and after both come 10, 11 and 12. A call with a layout and a drawer judges the layout
   first, then the drawer, and then come 15 to 18. */
enum duftheim_number {
  DUFTHEIM_ACCEPTED = 0,         /* the answer is yes, and the place is 0 */
  DUFTHEIM_WRONG_DIMENSION = 1,  /* n is not 1 to 4; no place */
  DUFTHEIM_WRONG_SIZE = 2,       /* m is 0, or n * m is above 1,020; no place */
  DUFTHEIM_WRONG_LENGTH = 3,     /* the table has not n * m numbers; no place */
  DUFTHEIM_SHORT_OUTPUT = 4,     /* the output is shorter than n * m or, for the match, m; no place */
  DUFTHEIM_NO_SUCH_DART = 5,     /* an entry of the table is above m; the entry */
  DUFTHEIM_SEWN_TWICE = 6,       /* a dart is 1-sewn to what a lower dart is 1-sewn to; its entry, not the lower one's */
  DUFTHEIM_NOT_SEWN_BACK = 7,    /* an i-sewing, i from 2, does not lead back; its entry, which is not 0 */
  DUFTHEIM_SEWINGS_PART = 8,     /* a j-sewing, an i-sewing, i <= j - 2, and both again do not lead back; the j-sewing's entry */
  DUFTHEIM_NOT_CONNECTED = 9,    /* a dart cannot be reached from dart 1; the dart */
  DUFTHEIM_NO_MATCHING = 10,     /* the layouts differ in n or m, or have no matching; no place */
  DUFTHEIM_BAD_LIST = 11,        /* the list has not m numbers: no place; or one is 0, above m or used before: its dart */
  DUFTHEIM_SEWING_NOT_KEPT = 12, /* the list does not keep a dart's sewings; the dart */
  DUFTHEIM_WRONG_COUNT = 13,     /* the count is above 1,024, or the drawer shorter than its records; no place */
  DUFTHEIM_BAD_RECORD = 14,      /* a record is not as said above, or has the die or layout of an earlier one; the record */
  DUFTHEIM_NOT_FOUND = 15,       /* the layout is not filed; no place */
  DUFTHEIM_WRONG_DIE = 16,       /* the die number is 0: no place; or it is filed already: its record */
  DUFTHEIM_FILED_ALREADY = 17,   /* the layout is filed already; its record */
  DUFTHEIM_DRAWER_FULL = 18,     /* there are 1,024 records, or the drawer has no room for one more; no place */
  DUFTHEIM_OF_SECOND = 20        /* no number: 21 to 23 and 25 to 29 are 1 to 3 and 5 to 9, of the second layout */
};

struct duftheim_verdict {
  uint32_t number; /* one of the numbers above, here and below */
  size_t place;
};

/* Whether a table is a layout that the other calls accept. The answer is 0, or 1, 2, 3 or 5 to 9. Nothing is written. */
struct duftheim_verdict duftheim_check(size_t n, size_t m, const uint16_t *table, size_t table_length);

struct duftheim_signed {
  uint32_t number;
  size_t place;
  size_t start;      /* the least dart from which the signature can be read */
  size_t symmetries; /* from how many darts it can be read: at least 1 */
};

/* The signature of a layout: the same n * m numbers however the die was numbered, and for no other layout of its n. They are
   written to the first n * m numbers of `output`, and nothing beyond. The answer's number is 0, or 1 to 9. `table_length` and
   `output_length` count numbers, here and below. */
struct duftheim_signed duftheim_signature(size_t n, size_t m, const uint16_t *table, size_t table_length, uint16_t *output,
                                          size_t output_length);

/* Whether two layouts are the same, and which dart is which. A matching takes each dart of the first layout to its own dart of
   the second: where d is i-sewn to e, the dart that d goes to is i-sewn to the one that e goes to, and where d is i-sewn to
   nothing, so is the dart that d goes to. Dart d goes to output[d - 1]. Of all matchings the one shown takes dart 1 to the
   least dart. The first m numbers of `output` are written, and nothing beyond; a refusal writes nothing.

   The answer is, judged in this order: 1 to 9 for the first layout, 4 where the output is shorter than its m numbers; 21 to 23
   or 25 to 29 for the second; 10 where n or m differ, or there is no matching; and else 0. */
struct duftheim_verdict duftheim_match(size_t n, size_t m, const uint16_t *table, size_t table_length, size_t second_n,
                                       size_t second_m, const uint16_t *second_table, size_t second_table_length,
                                       uint16_t *output, size_t output_length);

/* Whether a list is a matching of two layouts, any one that they have: dart d of the first goes to list[d - 1]. Nothing is
   written.

   The answer is, judged in this order: 1, 2, 3 or 5 to 9 for the first layout; 21 to 23 or 25 to 29 for the second; 10 where n
   or m differ, whatever the list; 11 at place 0 where the list has not m numbers, and else at the first dart whose number is 0,
   above m or used before; 12 at the least dart d that is i-sewn to some e while list[d - 1] is not i-sewn to list[e - 1], or is
   i-sewn to nothing while list[d - 1] is i-sewn to some dart, for an i from 1 to n; and else 0. */
struct duftheim_verdict duftheim_judge(size_t n, size_t m, const uint16_t *table, size_t table_length, size_t second_n,
                                       size_t second_m, const uint16_t *second_table, size_t second_table_length,
                                       const uint16_t *list, size_t list_length);

/* Whether a drawer is one that the other calls accept: no record is bad. `drawer_length` counts bytes, here and below, and may
   be more than the records need. The answer is 0, 13 or 14. Nothing is written. */
struct duftheim_verdict duftheim_drawer_check(size_t count, const uint8_t *drawer, size_t drawer_length);

struct duftheim_found {
  uint32_t number;
  size_t place;
  uint32_t die;  /* the die number that the layout is filed under */
  size_t record; /* the number of its record, 1 to `count` */
};

/* Under which die number a layout is filed, and in which record: there is at most one, however the die was numbered. Nothing is
   written.

   The answer is, judged in this order: 1, 2, 3 or 5 to 9 for the layout; 13 or 14 for the drawer; 15 where the layout is not
   filed; and else 0. */
struct duftheim_found duftheim_search(size_t n, size_t m, const uint16_t *table, size_t table_length, size_t count,
                                      const uint8_t *drawer, size_t drawer_length);

/* The record's own bytes, DUFTHEIM_RECORD_SIZE of them: the part of the drawer that starts here, by the record number of a
   search in that drawer. NULL for the number 0, which a search that refuses answers. */
static inline const uint8_t *duftheim_record_bytes(const uint8_t *drawer, size_t record) {
  return record == 0 ? NULL : drawer + (record - 1) * DUFTHEIM_RECORD_SIZE;
}

struct duftheim_filed {
  uint32_t number;
  size_t place;
  size_t count; /* the new count: one more than was lent */
};

/* Files a layout under a die number. The next record is written, with the layout's signature, and no other byte of the drawer
   is altered, also behind it. Lend the new count with the drawer from then on. A refusal answers the count 0 and writes nothing,
   so the count that you had still holds.

   The answer is, judged in this order: 1, 2, 3 or 5 to 9 for the layout; 13 or 14 for the drawer; 16 for the die number; 17
   where the layout is filed already; 18 where there is no room; and else 0. */
struct duftheim_filed duftheim_file(uint32_t die, size_t n, size_t m, const uint16_t *table, size_t table_length, size_t count,
                                    uint8_t *drawer, size_t drawer_length);

#ifdef __cplusplus
}
#endif

#endif
