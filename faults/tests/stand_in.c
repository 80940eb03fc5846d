/* A program for the tests of faults.py: `copy IN OUT` copies a file, makes a thread if there can be one, and prints `done`. It ends as
   dmixlab does where a call fails. WRONG makes one thing wrong in it. */
#include <errno.h>
#include <fcntl.h>
#include <pthread.h>
#include <stdio.h>
#include <stdlib.h>
#include <string.h>
#include <unistd.h>

enum { RIGHT, IGNORES_WRITES, CRASHES, WAITS, GIVES_UP, CHANGES, TALKS, NEEDS_A_THREAD };
enum { MOST = 1000 };

#ifndef WRONG
#define WRONG RIGHT
#endif

static char line[MOST];
static const char *volatile output;
static char *bytes;
static ssize_t length;

static int end(int status, const char *what, const char *name) {
  snprintf(line, MOST, "dmixlab: %s%s%s\n", what, *name ? " " : "", name);
  if (WRONG == TALKS && write(1, "oh", 2)) {
  }
  if (write(2, line, strlen(line))) {
  }
  return status;
}

/* Reads what there is, or writes all: the number of bytes, or -1. */
static ssize_t move(int descriptor, int is_read) {
  ssize_t done = 0, wanted = is_read ? MOST : length;
  while (done < wanted) {
    ssize_t moved = is_read ? read(descriptor, bytes + done, wanted - done) : write(descriptor, bytes + done, wanted - done);
    if (moved < 0 && errno == EINTR && WRONG != GIVES_UP)
      continue;
    if (moved < 0 && WRONG == WAITS)
      pause();
    if (moved < 0 || (!moved && !is_read))
      return -1;
    if (!moved)
      return done;
    done += moved;
  }
  return done;
}

static int opened(const char *name, int flags) {
  int descriptor;
  do
    descriptor = open(name, flags, 0644);
  while (descriptor < 0 && errno == EINTR);
  return descriptor;
}

static void *nothing(void *it) {
  return it;
}

/* Writes the output, and gives whether it is written. */
static int copied(void) {
  int to = opened(output, O_WRONLY | O_CREAT | O_TRUNC);
  if (to < 0)
    return 0;
  if (move(to, 0) < 0 && WRONG != IGNORES_WRITES) {
    if (WRONG == CHANGES && pwrite(to, "x", 1, 0)) {
    }
    close(to);
    return 0;
  }
  return !close(to);
}

int main(int count, char **words) {
  pthread_t thread;
  if (count != 4)
    return end(1, "words", "");
  bytes = malloc(MOST);
  if (!bytes && WRONG != CRASHES)
    return end(6, "memory", "");
  bytes[0] = 0;
  int from = opened(words[2], O_RDONLY);
  if (from < 0)
    return end(errno == ENOMEM ? 6 : 4, errno == ENOMEM ? "memory" : "read", errno == ENOMEM ? "" : words[2]);
  length = move(from, 1);
  if (length < 0)
    return end(errno == ENOMEM ? 6 : 4, errno == ENOMEM ? "memory" : "read", errno == ENOMEM ? "" : words[2]);
  close(from);
  if (!pthread_create(&thread, NULL, nothing, NULL))
    pthread_join(thread, NULL);
  else if (WRONG == NEEDS_A_THREAD)
    return 0;
  output = words[3];
  errno = 0;
  if (!copied())
    return end(errno == ENOMEM ? 6 : 5, errno == ENOMEM ? "memory" : "write", "");
  memcpy(bytes, "done\n", length = 5);
  if (move(1, 0) < 0 && WRONG != IGNORES_WRITES)
    return end(errno == ENOMEM ? 6 : 5, errno == ENOMEM ? "memory" : "write", "");
  return 0;
}
