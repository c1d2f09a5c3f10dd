/* What all tests in C share: a heap that counts blocks and can refuse one, and what is checked. They are linked without heap.c, since this
 * has the three heap calls. */
#ifndef DIVRELCA_CHECKS_H
#define DIVRELCA_CHECKS_H
#include "divrelca.h"
#include <stdio.h>
#include <stdlib.h>
#include <string.h>

/* ---- the heap: counts blocks, and refuses the allocation that `left` counts down to */

struct block {
  uint64_t ok;
  void *at;
};
static long left = -1, held;
static char nothing[16] __attribute__((aligned(16)));
static struct block answer(void *at) { return (struct block){at != 0, at ? at : nothing}; }
static bool refused_now(void) {
  if (left == 0) left = -2;
  else if (left > 0) left--;
  else return false;
  return left == -2;
}
struct block rattle_alloc(size_t size, size_t align) {
  if (refused_now()) return answer(0);
  held++;
  return answer(malloc(size ? size : align));
}
struct block rattle_realloc(void *at, size_t old_size, size_t size, size_t align) {
  (void)old_size;
  if (refused_now()) return answer(0);
  return answer(realloc(at, size ? size : align));
}
void rattle_dealloc(void *at) {
  held--;
  free(at);
}

/* ---- what is checked */

static int bad;
static void check(int line, bool holds) {
  if (holds) return;
  printf("line %d fails\n", line);
  bad++;
}
#define CHECK(holds) check(__LINE__, holds)
#endif
