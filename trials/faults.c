// A library to preload into a program of one thread. It simulates faults of the disk.
//
//   cc -shared -fPIC -o faults.so faults.c
//   LD_PRELOAD=./faults.so FAULT=error:12 FAULT_COUNT=FILE PROGRAM ..     the 12th call and all later ones fail with EIO
//
// It counts the calls of pwrite, ftruncate, fdatasync and fsync from 1. FAULT is one of
//
//   error:N   the Nth call and all later ones fail with EIO
//   once:N    only the Nth call fails, with EIO
//   full:N    the disk is full: the Nth call and all later writes fail with ENOSPC; if the Nth is a write, half of it is done
//   kill:N    the process is killed in the Nth call, after a write or a change of length, or before a sync
//
// Without FAULT, no call fails. At the program's end, the library writes the number of calls to FILE.
//
// With FAULT_SEED, unsynced changes are partly lost when the program ends, as if the machine had stopped. Any sectors of
// 512 bytes get the bytes that they had before one of these changes, or zeros after the file's former end. The file gets a
// length that it had since its last sync, or one in between. The seed decides which sectors and which length.
//
// With FAULT_LIE=1, syncs do nothing and report success. Random bytes are the same in each run.
#define _GNU_SOURCE
#include <dlfcn.h>
#include <errno.h>
#include <fcntl.h>
#include <signal.h>
#include <stdio.h>
#include <stdlib.h>
#include <string.h>
#include <sys/stat.h>
#include <unistd.h>

#define SECTOR 512
#define FILES 8

// A sector's bytes and its file's length before a change of the file.
struct before {
  off_t at, length;
  unsigned char bytes[SECTOR];
};

// A file, the library's own descriptor of it, and the changes since its last sync. After a failed sync, no later one counts.
struct file {
  dev_t device;
  ino_t number;
  int own, is_failed;
  size_t changes, room;
  struct before *change;
};

static struct file files[FILES];
static int file_count, lies, loses;
static unsigned long calls, nth;
static char kind;
static unsigned long long random_state;

static ssize_t (*real_pwrite)(int, const void *, size_t, off_t);
static int (*real_ftruncate)(int, off_t);
static int (*real_fdatasync)(int);
static int (*real_fsync)(int);

// Exits with status 125 if the library itself fails.
static void require(int is_right) {
  if (!is_right) {
    _exit(125);
  }
}

__attribute__((constructor)) static void begin(void) {
  const char *fault = getenv("FAULT"), *seed = getenv("FAULT_SEED");
  real_pwrite = dlsym(RTLD_NEXT, "pwrite");
  real_ftruncate = dlsym(RTLD_NEXT, "ftruncate");
  real_fdatasync = dlsym(RTLD_NEXT, "fdatasync");
  real_fsync = dlsym(RTLD_NEXT, "fsync");
  if (fault) {
    kind = *fault;
    require(strchr("eofk", kind) && strchr(fault, ':'));
    nth = strtoul(strchr(fault, ':') + 1, NULL, 10);
  }
  if (seed) {
    loses = 1;
    random_state = strtoull(seed, NULL, 10) << 32 | nth;
  }
  lies = getenv("FAULT_LIE") != NULL;
}

// Unsynced changes

static off_t length_of(int descriptor) {
  struct stat found;
  require(!fstat(descriptor, &found));
  return found.st_size;
}

// The file of a descriptor, or NULL for a folder.
static struct file *file_of(int descriptor) {
  struct stat found;
  require(!fstat(descriptor, &found));
  if (!S_ISREG(found.st_mode)) {
    return NULL;
  }
  for (int it = 0; it < file_count; it++) {
    if (files[it].device == found.st_dev && files[it].number == found.st_ino) {
      return &files[it];
    }
  }
  require(file_count < FILES);
  struct file *file = &files[file_count++];
  *file = (struct file){.device = found.st_dev, .number = found.st_ino, .own = fcntl(descriptor, F_DUPFD_CLOEXEC, 100)};
  require(file->own >= 0);
  return file;
}

// Saves the sectors of a file from one offset to another, before a change.
static void save_sectors(int descriptor, off_t from, off_t to) {
  struct file *file = file_of(descriptor);
  off_t length = length_of(descriptor);
  for (off_t at = from / SECTOR * SECTOR; file && at < to; at += SECTOR) {
    if (file->changes == file->room) {
      file->room = 2 * file->room + 64;
      file->change = realloc(file->change, file->room * sizeof *file->change);
      require(file->change != NULL);
    }
    struct before *it = &file->change[file->changes++];
    *it = (struct before){.at = at, .length = length};
    require(pread(file->own, it->bytes, SECTOR, at) >= 0);
  }
}

// A random number below the limit (SplitMix64).
static unsigned long long draw(unsigned long long limit) {
  random_state += 0x9e3779b97f4a7c15ull;
  unsigned long long it = (random_state ^ random_state >> 30) * 0xbf58476d1ce4e5b9ull;
  it = (it ^ it >> 27) * 0x94d049bb133111ebull;
  return (it ^ it >> 31) % limit;
}

// Reverts all, some or none of the changes, from the newest to the oldest. So a sector gets the bytes that it had before the
// oldest of its reverted changes. The same is true of the length.
static void revert_changes(struct file *file) {
  unsigned long long quarters = draw(5);
  off_t end = length_of(file->own), length = end, older = end;
  for (size_t it = file->changes; it-- > 0;) {
    struct before *change = &file->change[it];
    if (draw(4) < quarters) {
      require(real_pwrite(file->own, change->bytes, SECTOR, change->at) == SECTOR);
    }
    if (change->length != older && draw(4) < quarters) {
      length = change->length;
    }
    older = change->length;
  }
  if (length != end && draw(4) == 0) {
    off_t low = length < end ? length : end;
    length = low + (off_t)draw(length + end - 2 * low);
  }
  require(!real_ftruncate(file->own, length));
}

static void lose_unsynced(void) {
  for (int it = 0; loses && it < file_count; it++) {
    if (files[it].changes) {
      revert_changes(&files[it]);
    }
  }
}

__attribute__((destructor)) static void end(void) {
  const char *name = getenv("FAULT_COUNT");
  char line[32];
  int length = snprintf(line, sizeof line, "%lu\n", calls);
  int file = name ? open(name, O_WRONLY | O_CREAT | O_TRUNC, 0666) : -1;
  require(!name || (file >= 0 && write(file, line, length) == length));
  lose_unsynced();
}

// The replaced calls

// Counts a call, and returns the error with which it fails, or 0.
static int fault(int is_write) {
  calls += 1;
  if ((kind == 'e' && calls >= nth) || (kind == 'o' && calls == nth)) {
    return EIO;
  }
  return kind == 'f' && (calls == nth || (is_write && calls > nth)) ? ENOSPC : 0;
}

static int fail_with(int error) {
  errno = error;
  return -1;
}

// Kills the process if this is the call in which it must die.
static void kill_if_due(void) {
  if (kind == 'k' && calls == nth) {
    lose_unsynced();
    kill(getpid(), SIGKILL);
  }
}

ssize_t pwrite(int descriptor, const void *bytes, size_t size, off_t at) {
  int error = fault(1);
  size_t fits = error == ENOSPC && calls == nth ? size / 2 : error ? 0 : size;
  if (!fits) {
    return fail_with(error);
  }
  save_sectors(descriptor, at, at + fits);
  ssize_t put = real_pwrite(descriptor, bytes, fits, at);
  kill_if_due();
  return put;
}

int ftruncate(int descriptor, off_t length) {
  int error = fault(0);
  if (error) {
    return fail_with(error);
  }
  off_t end = length_of(descriptor);
  save_sectors(descriptor, length < end ? length : end, length < end ? end : length);
  int done = real_ftruncate(descriptor, length);
  kill_if_due();
  return done;
}

static int sync_file(int descriptor, int (*sync)(int)) {
  struct file *file = file_of(descriptor);
  int error = fault(0);
  kill_if_due();
  if (error) {
    if (file) {
      file->is_failed = 1;
    }
    return fail_with(error);
  }
  if (lies) {
    return 0;
  }
  if (file && !file->is_failed) {
    file->changes = 0;
  }
  return sync(descriptor);
}

int fdatasync(int descriptor) { return sync_file(descriptor, real_fdatasync); }

int fsync(int descriptor) { return sync_file(descriptor, real_fsync); }

ssize_t pwrite64(int, const void *, size_t, off_t) __attribute__((alias("pwrite")));
int ftruncate64(int, off_t) __attribute__((alias("ftruncate")));

int getentropy(void *bytes, size_t size) {
  memset(bytes, 7, size);
  return 0;
}
