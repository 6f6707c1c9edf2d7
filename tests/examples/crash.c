// Cuts off the example `drawer` at a chosen step, or lets a step fail: linked in front of the system
// calls that a filing makes (the linker's --wrap). CRASH_AT=N kills the process at step N; FAIL_AT=N
// lets step N answer with an error. Each call is a step. STEPS=FILE writes their names there.
#include <errno.h>
#include <fcntl.h>
#include <signal.h>
#include <stdarg.h>
#include <stdbool.h>
#include <stdio.h>
#include <stdlib.h>
#include <sys/types.h>

int __real_open(const char *path, int flags, ...);
int __real_fcntl(int file, int command, ...);
int __real_ftruncate(int file, off_t length);
ssize_t __real_write(int file, const void *bytes, size_t length);
int __real_fchmod(int file, mode_t mode);
int __real_fsync(int file);
int __real_rename(const char *from, const char *to);
int __real_unlink(const char *path);

static bool is_at(const char *name, long step) {
  const char *at = getenv(name);
  return at != NULL && strtol(at, NULL, 10) == step;
}

// Takes a step, and says whether it fails.
static bool step_fails(const char *name) {
  static long step = 0;
  const char *steps = getenv("STEPS");
  step++;
  if (steps != NULL) {
    FILE *stream = fopen(steps, "a");
    fprintf(stream, "%s\n", name);
    fclose(stream);
  }
  if (is_at("CRASH_AT", step)) {
    raise(SIGKILL);
  }
  errno = EIO;
  return is_at("FAIL_AT", step);
}

int __wrap_open(const char *path, int flags, ...) {
  va_list more;
  va_start(more, flags);
  mode_t mode = flags & O_CREAT ? va_arg(more, mode_t) : 0;
  va_end(more);
  return step_fails("open") ? -1 : __real_open(path, flags, mode);
}

int __wrap_fcntl(int file, int command, ...) {
  va_list more;
  va_start(more, command);
  struct flock *lock = va_arg(more, struct flock *);
  va_end(more);
  return step_fails("fcntl") ? -1 : __real_fcntl(file, command, lock);
}

int __wrap_ftruncate(int file, off_t length) {
  return step_fails("ftruncate") ? -1 : __real_ftruncate(file, length);
}

// Of much, half alone is written: so a record can be cut off, and the caller must go on.
ssize_t __wrap_write(int file, const void *bytes, size_t length) {
  return step_fails("write") ? -1 : __real_write(file, bytes, length > 1000 ? length / 2 : length);
}

int __wrap_fchmod(int file, mode_t mode) {
  return step_fails("fchmod") ? -1 : __real_fchmod(file, mode);
}

int __wrap_fsync(int file) { return step_fails("fsync") ? -1 : __real_fsync(file); }

int __wrap_rename(const char *from, const char *to) {
  return step_fails("rename") ? -1 : __real_rename(from, to);
}

int __wrap_unlink(const char *path) { return step_fails("unlink") ? -1 : __real_unlink(path); }
