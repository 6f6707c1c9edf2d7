// Lends buffers to a call between pages that cannot be touched. Each call is made twice: once with
// every buffer right behind such a page, once with every buffer right before one. A byte touched
// beyond a buffer, or written where the call may only read, ends the program with a message.
#ifndef GUARD_H
#define GUARD_H

#include <stdbool.h>
#include <stddef.h>
#include <stdint.h>

// The program's status then.
enum { GUARD_TOUCHED = 3 };

// True twice: while (lend_again("name of the call")) { lend each buffer; call; hold the answer; }.
// After the second time the caller's buffers are as the call left them.
bool lend_again(const char *call);

// The lent copy of a buffer: one that may only be read, and one that may be written. What is empty
// lies at the edge of a page, and may be NULL here.
const void *lend(const char *name, const void *bytes, size_t length);
void *lend_to_write(const char *name, void *bytes, size_t length);

// Where the buffers lie must change nothing, so both times must give the same numbers.
enum { ANSWER_NUMBERS = 4 };
void hold_answer(const uint64_t *numbers);

#endif
