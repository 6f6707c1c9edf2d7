// Drawer files: read, and replaced as a whole.
#include "drawer_file.h"

#include <errno.h>
#include <fcntl.h>
#include <libgen.h>
#include <stdio.h>
#include <stdlib.h>
#include <string.h>
#include <sys/stat.h>
#include <unistd.h>

static bool failed(const char *path) {
  fprintf(stderr, "%s: %s\n", path, strerror(errno));
  return false;
}

// ---- Reading ----

// Reads until the end or until there is no room; the bytes read, or -1.
static ssize_t read_bytes(int file, uint8_t *bytes, size_t room) {
  size_t length = 0;
  while (length < room) {
    ssize_t more = read(file, bytes + length, room - length);
    if (more == 0) {
      break;
    }
    if (more > 0) {
      length += (size_t)more;
    } else if (errno != EINTR) {
      return -1;
    }
  }
  return (ssize_t)length;
}

bool drawer_read(const char *path, struct drawer *drawer) {
  int file = open(path, O_RDONLY);
  if (file == -1) {
    return failed(path);
  }
  ssize_t length = read_bytes(file, drawer->bytes, sizeof drawer->bytes);
  if (length == -1) {
    failed(path);
    close(file);
    return false;
  }
  close(file);
  if (length % DUFTHEIM_RECORD_SIZE != 0) {
    fprintf(stderr, "%s: no drawer: its %zd bytes are not whole records of %d\n", path, length,
            DUFTHEIM_RECORD_SIZE);
    return false;
  }
  drawer->count = (size_t)length / DUFTHEIM_RECORD_SIZE;
  return true;
}

// ---- Replacing ----

// Opens and locks the file at the new path. A file that a crash left there is used again.
static int open_locked(const char *new_path) {
  for (;;) {
    int file = open(new_path, O_RDWR | O_CREAT | O_NOFOLLOW, 0600);
    if (file == -1) {
      return -1;
    }
    struct flock whole = {.l_type = F_WRLCK, .l_whence = SEEK_SET};
    while (fcntl(file, F_SETLKW, &whole) == -1) {
      if (errno != EINTR) {
        close(file);
        return -1;
      }
    }
    // While this process waited, another one may have put the file in the drawer's place, or
    // removed it. Then it is not the one that the new path names now.
    struct stat held, named;
    if (fstat(file, &held) == 0 && stat(new_path, &named) == 0 && held.st_dev == named.st_dev &&
        held.st_ino == named.st_ino) {
      return file;
    }
    close(file);
  }
}

static void forget(struct replacing *replacing) {
  if (replacing->file != -1) {
    // The lock goes with it.
    close(replacing->file);
  }
  free(replacing->path);
  free(replacing->new_path);
}

bool replacing_begin(const char *path, struct replacing *replacing) {
  static const char ending[] = ".filing";
  *replacing = (struct replacing){.file = -1};
  replacing->path = realpath(path, NULL);
  if (replacing->path == NULL) {
    return failed(path);
  }
  size_t length = strlen(replacing->path);
  replacing->new_path = malloc(length + sizeof ending);
  if (replacing->new_path == NULL) {
    failed(path);
    forget(replacing);
    return false;
  }
  memcpy(replacing->new_path, replacing->path, length);
  memcpy(replacing->new_path + length, ending, sizeof ending);
  replacing->file = open_locked(replacing->new_path);
  if (replacing->file == -1) {
    failed(replacing->new_path);
    forget(replacing);
    return false;
  }
  return true;
}

void replacing_give_up(struct replacing *replacing) {
  unlink(replacing->new_path);
  forget(replacing);
}

static bool write_bytes(int file, const uint8_t *bytes, size_t length) {
  while (length > 0) {
    ssize_t written = write(file, bytes, length);
    if (written >= 0) {
      bytes += written;
      length -= (size_t)written;
    } else if (errno != EINTR) {
      return false;
    }
  }
  return true;
}

// The whole new file is on the disk, under its own name and with the old one's permissions.
static bool write_new(const struct replacing *replacing, const struct drawer *drawer) {
  struct stat old;
  return stat(replacing->path, &old) == 0 && ftruncate(replacing->file, 0) == 0 &&
         write_bytes(replacing->file, drawer->bytes, drawer->count * DUFTHEIM_RECORD_SIZE) &&
         fchmod(replacing->file, old.st_mode & 07777) == 0 && fsync(replacing->file) == 0;
}

// A name is on the disk once its folder is.
static bool sync_folder(const char *path) {
  char *copy = strdup(path);
  if (copy == NULL) {
    return false;
  }
  int folder = open(dirname(copy), O_RDONLY | O_DIRECTORY);
  free(copy);
  if (folder == -1) {
    return false;
  }
  bool synced = fsync(folder) == 0;
  int error = errno;
  close(folder);
  errno = error;
  return synced;
}

bool replacing_finish(struct replacing *replacing, const struct drawer *drawer) {
  if (!write_new(replacing, drawer) || rename(replacing->new_path, replacing->path) == -1) {
    fprintf(stderr, "%s: %s; the drawer is as it was\n", replacing->new_path, strerror(errno));
    replacing_give_up(replacing);
    return false;
  }
  bool synced = sync_folder(replacing->path);
  if (!synced) {
    fprintf(stderr, "%s: the new file is in its place, but the folder is not on the disk: %s\n",
            replacing->path, strerror(errno));
  }
  forget(replacing);
  return synced;
}
