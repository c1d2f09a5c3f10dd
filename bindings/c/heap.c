/* The heap of the library: the three calls that its allocator makes, over malloc, realloc and free. A call with no bytes gets a block all the
 * same. An answer is a flag and the block; where the flag is 0 nobody reads the block. */
#include <stdint.h>
#include <stdlib.h>

struct block {
  uint64_t ok;
  void *at;
};

static char nothing[16] __attribute__((aligned(16)));

static struct block answer(void *at) { return (struct block){at != 0, at ? at : nothing}; }

struct block rattle_alloc(size_t size, size_t align) { return answer(malloc(size ? size : align)); }

struct block rattle_realloc(void *at, size_t old_size, size_t size, size_t align) {
  (void)old_size;
  return answer(realloc(at, size ? size : align));
}

void rattle_dealloc(void *at) { free(at); }
