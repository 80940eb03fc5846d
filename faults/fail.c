/* A library to be loaded before the C library (LD_PRELOAD): it counts a program's calls by kind, and makes some of one kind fail.

   FAIL_KIND    the kind whose calls fail: open, read, write, close, seek, sync, stat, memory or thread
   FAIL_FIRST   the number of the first one that fails, from 1
   FAIL_LAST    the number of the last one
   FAIL_STEP    of these every so many fail
   FAIL_HOW     a number of errno.h; -1: a read or a write moves one byte; -2: it moves none
   FAIL_LOG     a file to which a line is appended for each call: KIND, its number, its file, and `!` where it failed

   A call that fails does nothing, but for a close, whose descriptor is free afterwards, as Linux has it. A file's name is the one by which
   it was opened; `-` stands for what has none. Only calls that the program itself makes are seen, and not those within the C library. */
#define _GNU_SOURCE
#include <dlfcn.h>
#include <errno.h>
#include <fcntl.h>
#include <pthread.h>
#include <stdarg.h>
#include <stdio.h>
#include <stdlib.h>
#include <string.h>
#include <sys/syscall.h>
#include <sys/uio.h>
#include <unistd.h>

enum { NAMES = 256, LENGTH = 512, ONE_BYTE = -1, NOTHING = -2 };

struct kind {
  const char *name;
  long calls;
};

static struct kind open_calls = {"open", 0}, read_calls = {"read", 0}, write_calls = {"write", 0}, close_calls = {"close", 0},
                   seek_calls = {"seek", 0}, sync_calls = {"sync", 0}, stat_calls = {"stat", 0}, memory_calls = {"memory", 0},
                   thread_calls = {"thread", 0};

static const char *failing = "";
static long first_failing, last_failing, step = 1, how, log_descriptor = -1;
static char names[NAMES][LENGTH] = {"stdin", "stdout", "stderr"};
static int (*make_thread)(pthread_t *, const pthread_attr_t *, void *(*)(void *), void *);

extern void *__libc_malloc(size_t);
extern void *__libc_calloc(size_t, size_t);
extern void *__libc_realloc(void *, size_t);

static long number_of(const char *name, long otherwise) {
  const char *text = getenv(name);
  return text ? strtol(text, NULL, 10) : otherwise;
}

__attribute__((constructor)) static void begin(void) {
  const char *kind = getenv("FAIL_KIND"), *log = getenv("FAIL_LOG");
  make_thread = (__typeof__(make_thread))dlsym(RTLD_NEXT, "pthread_create");
  first_failing = number_of("FAIL_FIRST", 1);
  last_failing = number_of("FAIL_LAST", first_failing);
  step = number_of("FAIL_STEP", 1);
  how = number_of("FAIL_HOW", EIO);
  if (log) {
    long opened = syscall(SYS_openat, AT_FDCWD, log, O_WRONLY | O_APPEND | O_CREAT | O_CLOEXEC, 0644);
    /* A number that the program's own files don't reach. */
    log_descriptor = syscall(SYS_fcntl, opened, F_DUPFD_CLOEXEC, NAMES);
    syscall(SYS_close, opened);
  }
  failing = kind ? kind : "";
}

static const char *name_of(int descriptor) {
  return descriptor >= 0 && descriptor < NAMES && names[descriptor][0] ? names[descriptor] : "-";
}

static void remember(int descriptor, const char *name) {
  if (descriptor >= 0 && descriptor < NAMES)
    snprintf(names[descriptor], LENGTH, "%s", name);
}

/* Counts a call, and says whether it fails. */
static int fails(struct kind *kind, const char *name) {
  char line[LENGTH + 64];
  long number = __atomic_add_fetch(&kind->calls, 1, __ATOMIC_SEQ_CST);
  int is_failing =
      !strcmp(kind->name, failing) && number >= first_failing && number <= last_failing && (number - first_failing) % step == 0;
  if (log_descriptor >= 0) {
    int length = snprintf(line, sizeof line, "%s %ld %s%s\n", kind->name, number, name, is_failing ? " !" : "");
    syscall(SYS_write, log_descriptor, line, length);
  }
  if (is_failing && how > 0)
    errno = how;
  return is_failing;
}

/* Of a call that fails: how many bytes it may move; of another one: as many as it asks for. */
static size_t part(int is_failing, size_t length) {
  return is_failing && length > 1 ? 1 : length;
}

static int open_by(int folder, const char *path, int flags, mode_t mode) {
  if (fails(&open_calls, path))
    return -1;
  int opened = syscall(SYS_openat, folder, path, flags, mode);
  remember(opened, path);
  return opened;
}

#define MODE_AFTER(last) \
  mode_t mode = 0; \
  if (flags & (O_CREAT | O_TMPFILE)) { \
    va_list rest; \
    va_start(rest, last); \
    mode = va_arg(rest, mode_t); \
    va_end(rest); \
  }

int open(const char *path, int flags, ...) {
  MODE_AFTER(flags)
  return open_by(AT_FDCWD, path, flags, mode);
}

int open64(const char *path, int flags, ...) {
  MODE_AFTER(flags)
  return open_by(AT_FDCWD, path, flags, mode);
}

int openat(int folder, const char *path, int flags, ...) {
  MODE_AFTER(flags)
  return open_by(folder, path, flags, mode);
}

ssize_t read(int descriptor, void *bytes, size_t length) {
  int is_failing = fails(&read_calls, name_of(descriptor));
  if (is_failing && how != ONE_BYTE)
    return how == NOTHING ? 0 : -1;
  return syscall(SYS_read, descriptor, bytes, part(is_failing, length));
}

ssize_t write(int descriptor, const void *bytes, size_t length) {
  int is_failing = fails(&write_calls, name_of(descriptor));
  if (is_failing && how != ONE_BYTE)
    return how == NOTHING ? 0 : -1;
  return syscall(SYS_write, descriptor, bytes, part(is_failing, length));
}

ssize_t __write(int descriptor, const void *bytes, size_t length) {
  return write(descriptor, bytes, length);
}

ssize_t writev(int descriptor, const struct iovec *parts, int count) {
  int is_failing = fails(&write_calls, name_of(descriptor));
  if (is_failing && how != ONE_BYTE)
    return how == NOTHING ? 0 : -1;
  return syscall(SYS_writev, descriptor, parts, is_failing && count > 1 ? 1 : count);
}

int close(int descriptor) {
  int is_failing = fails(&close_calls, name_of(descriptor));
  if (descriptor == log_descriptor)
    return 0;
  int answer = syscall(SYS_close, descriptor);
  remember(descriptor, "");
  if (is_failing)
    errno = how;
  return is_failing ? -1 : answer;
}

off_t lseek(int descriptor, off_t place, int whence) {
  return fails(&seek_calls, name_of(descriptor)) ? -1 : syscall(SYS_lseek, descriptor, place, whence);
}

off_t lseek64(int descriptor, off_t place, int whence) {
  return lseek(descriptor, place, whence);
}

int fsync(int descriptor) {
  return fails(&sync_calls, name_of(descriptor)) ? -1 : syscall(SYS_fsync, descriptor);
}

int fdatasync(int descriptor) {
  return fails(&sync_calls, name_of(descriptor)) ? -1 : syscall(SYS_fdatasync, descriptor);
}

struct statx;

int statx(int folder, const char *path, int flags, unsigned mask, struct statx *found) {
  return fails(&stat_calls, *path ? path : name_of(folder)) ? -1 : syscall(SYS_statx, folder, path, flags, mask, found);
}

void *malloc(size_t size) {
  return fails(&memory_calls, "-") ? NULL : __libc_malloc(size);
}

void *calloc(size_t count, size_t size) {
  return fails(&memory_calls, "-") ? NULL : __libc_calloc(count, size);
}

void *realloc(void *block, size_t size) {
  return fails(&memory_calls, "-") ? NULL : __libc_realloc(block, size);
}

int pthread_create(pthread_t *thread, const pthread_attr_t *attributes, void *(*body)(void *), void *argument) {
  if (fails(&thread_calls, "-"))
    return how > 0 ? how : EAGAIN;
  return make_thread(thread, attributes, body, argument);
}
