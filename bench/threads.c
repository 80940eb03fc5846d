/* What 64 threads that do nothing cost: processor time (user and system) of starting and joining them once, the least of five times 200.
 *
 * usage: cc -O2 -pthread -o threads bench/threads.c && ./threads
 *
 * In turn: one thread starts all others, and joins them. By halves: each thread starts another one for half of the items that it has.
 */
#include <pthread.h>
#include <stdio.h>
#include <sys/resource.h>

enum { THREADS = 64, ROUNDS = 200, TRIES = 5 };

struct Part {
  long *items;
  int count;
};

static void *at_one(void *item) {
  ++*(volatile long *)item;
  return 0;
}

static void in_turn(long *items) {
  pthread_t threads[THREADS];
  for (int i = 1; i < THREADS; i++) pthread_create(&threads[i], 0, at_one, &items[i]);
  at_one(&items[0]);
  for (int i = 1; i < THREADS; i++) pthread_join(threads[i], 0);
}

static void *from_part(void *given) {
  struct Part *part = given;
  if (part->count == 1) return at_one(part->items);
  int middle = part->count / 2;
  struct Part low = {part->items, middle}, high = {part->items + middle, part->count - middle};
  pthread_t thread;
  pthread_create(&thread, 0, from_part, &low);
  from_part(&high);
  pthread_join(thread, 0);
  return 0;
}

static void by_halves(long *items) {
  struct Part all = {items, THREADS};
  from_part(&all);
}

static double spent(void) {
  struct rusage use;
  getrusage(RUSAGE_SELF, &use);
  return 1e6 * (use.ru_utime.tv_sec + use.ru_stime.tv_sec) + use.ru_utime.tv_usec + use.ru_stime.tv_usec;
}

static void measure(const char *name, void (*run)(long *)) {
  static long items[THREADS];
  double best = 1e18;
  for (int try = 0; try < TRIES; try++) {
    double start = spent();
    for (int round = 0; round < ROUNDS; round++) run(items);
    double each = (spent() - start) / ROUNDS;
    if (each < best) best = each;
  }
  printf("%s: %.0f us for %d threads\n", name, best, THREADS);
}

int main(void) {
  measure("in turn", in_turn);
  measure("by halves", by_halves);
  return 0;
}
