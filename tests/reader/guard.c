// Memory between guard pages, and what is said where a call touches it.
#define _DEFAULT_SOURCE
#include "guard.h"

#include <signal.h>
#include <stdio.h>
#include <string.h>
#include <sys/mman.h>
#include <unistd.h>

// Under an emulator, the pages of the machine below may be larger, and only whole ones of those can
// be closed. So areas begin and end at multiples of EDGE, the largest page that there is.
enum { PAGE = 4096, EDGE = 65536, FENCE_BYTE = 0xA5 };

enum { MOST_BUFFERS = 3 };
enum side { AT_START, AT_END, SIDES };

// Memory for one buffer at one side of it, between guards. All of it is closed but the pages that
// the buffer lent last stands in.
struct area {
  uint8_t *memory;
  size_t room;
  uint8_t *open;
  size_t open_length;
};

// A buffer of the call under way. What may be written goes to `back` in the end; else that is NULL.
struct buffer {
  const char *name;
  uint8_t *back;
  uint8_t *lent[SIDES];
  size_t length;
};

static struct area areas[MOST_BUFFERS][SIDES];
static struct buffer buffers[MOST_BUFFERS];
static size_t buffer_count;
static const char *call_name;
static enum side side = SIDES;
static uint64_t held[ANSWER_NUMBERS];

// ---- What is said ----

// No lock can be held: what is caught was done by the library, which calls nothing.
static _Noreturn void stop(const char *what, const char *name) {
  fflush(stdout);
  fprintf(stderr, "%s %s%s\n", call_name == NULL ? "outside of a call:" : call_name, what, name);
  _exit(GUARD_TOUCHED);
}

// Some emulators call a handler with a stack that is not aligned as C wants it.
__attribute__((force_align_arg_pointer)) static void on_fault(int signal_number, siginfo_t *info, void *context) {
  (void)signal_number;
  (void)context;
  const uint8_t *touched = info->si_addr;
  for (size_t k = 0; side != SIDES && k < buffer_count; k++) {
    const struct area *area = &areas[k][side];
    const uint8_t *lent = buffers[k].lent[side];
    if (touched >= area->memory - EDGE && touched < area->memory + area->room + EDGE) {
      stop(touched < lent                        ? "touches what stands before the "
           : touched >= lent + buffers[k].length ? "touches what stands behind the "
                                                 : "writes to the ",
           buffers[k].name);
    }
  }
  stop("touches memory that was not lent", "");
}

static void watch_faults(void) {
  static bool watched;
  struct sigaction action = {.sa_sigaction = on_fault, .sa_flags = SA_SIGINFO};
  if (!watched) {
    watched = sigaction(SIGSEGV, &action, NULL) == 0;
  }
}

// ---- Areas ----

static size_t rounded_up(size_t length, size_t step) {
  return (length / step + (length % step != 0)) * step;
}

static void protect(uint8_t *at, size_t length, int protection) {
  if (length != 0 && mprotect(at, length, protection) != 0) {
    stop("could not be guarded", "");
  }
}

// Memory is left where it is when more is wanted: that is seldom, and each time twice as much.
static void make_room(struct area *area, size_t length) {
  if (area->memory != NULL && area->room >= length) {
    return;
  }
  protect(area->open, area->open_length, PROT_NONE);
  size_t room = rounded_up(2 * length + 1, EDGE);
  uint8_t *whole = mmap(NULL, room + 3 * EDGE, PROT_NONE, MAP_PRIVATE | MAP_ANONYMOUS | MAP_NORESERVE, -1, 0);
  if (whole == MAP_FAILED) {
    stop("could not be lent memory", "");
  }
  uint8_t *memory = whole + EDGE + (EDGE - (uintptr_t)whole % EDGE) % EDGE;
  *area = (struct area){.memory = memory, .room = room};
}

// Opens the first or the last pages, and closes all others.
static void open_pages(struct area *area, size_t length) {
  uint8_t *open = side == AT_START ? area->memory : area->memory + area->room - length;
  if (open != area->open || length != area->open_length) {
    protect(area->open, area->open_length, PROT_NONE);
  }
  protect(open, length, PROT_READ | PROT_WRITE);
  area->open = open;
  area->open_length = length;
}

// ---- Lending ----

// What is not lent of the pages that a buffer stands in, where the guard sees no writing.
struct fence {
  uint8_t *bytes;
  size_t length;
};

static struct fence fence_of(const struct area *area, size_t length) {
  return (struct fence){side == AT_START ? area->open + length : area->open, area->open_length - length};
}

static uint8_t *lend_pages(const char *name, const void *bytes, size_t length, uint8_t *back) {
  if (buffer_count == MOST_BUFFERS) {
    stop("has more buffers than can be guarded, with the ", name);
  }
  struct area *area = &areas[buffer_count][side];
  struct buffer *buffer = &buffers[buffer_count++];
  size_t whole = rounded_up(length, PAGE);
  make_room(area, whole);
  open_pages(area, whole);
  uint8_t *lent = side == AT_START ? area->open : area->open + whole - length;
  if (length != 0) {
    memcpy(lent, bytes, length);
  }
  if (back == NULL) {
    protect(area->open, whole, PROT_READ);
  } else {
    struct fence fence = fence_of(area, length);
    memset(fence.bytes, FENCE_BYTE, fence.length);
  }
  buffer->name = name;
  buffer->length = length;
  buffer->back = back;
  buffer->lent[side] = lent;
  return lent;
}

const void *lend(const char *name, const void *bytes, size_t length) {
  return lend_pages(name, bytes, length, NULL);
}

// An empty buffer has nothing to copy back.
void *lend_to_write(const char *name, void *bytes, size_t length) {
  return lend_pages(name, bytes, length, length == 0 ? NULL : bytes);
}

// All bytes are the first one where each is the next one.
static void look_at_fence(const struct buffer *buffer, const struct area *area) {
  struct fence fence = fence_of(area, buffer->length);
  if (fence.length != 0 && (fence.bytes[0] != FENCE_BYTE || memcmp(fence.bytes, fence.bytes + 1, fence.length - 1) != 0)) {
    stop(side == AT_START ? "writes behind the " : "writes before the ", buffer->name);
  }
}

static void look_at_fences(void) {
  for (size_t k = 0; k < buffer_count; k++) {
    if (buffers[k].back != NULL) {
      look_at_fence(&buffers[k], &areas[k][side]);
    }
  }
}

static void take_back(void) {
  for (size_t k = 0; k < buffer_count; k++) {
    const struct buffer *buffer = &buffers[k];
    if (buffer->back == NULL) {
      continue;
    }
    if (memcmp(buffer->lent[AT_START], buffer->lent[AT_END], buffer->length) != 0) {
      stop("writes otherwise where the buffers lie elsewhere: the ", buffer->name);
    }
    memcpy(buffer->back, buffer->lent[AT_END], buffer->length);
  }
}

bool lend_again(const char *call) {
  if (side == SIDES) {
    watch_faults();
    call_name = call;
    side = AT_START;
  } else {
    look_at_fences();
    side++;
  }
  if (side == SIDES) {
    take_back();
    call_name = NULL;
  }
  buffer_count = 0;
  return side != SIDES;
}

void hold_answer(const uint64_t *numbers) {
  if (side == AT_END && memcmp(held, numbers, sizeof held) != 0) {
    stop("answers otherwise where the buffers lie elsewhere", "");
  }
  memcpy(held, numbers, sizeof held);
}
