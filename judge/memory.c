/* The three functions by which the proved code gets its memory, over malloc or over what the program gave.
   A request for no bytes is one for as many as the alignment, so that an answer is always a block of its own. */
#include "g1judge.h"

#include <stdbool.h>
#include <stdlib.h>

/* Whether there is memory, and its block. If there is none, `block` still points to something. */
struct answer {
  bool found;
  void *block;
};

struct answer rattle_alloc(size_t size, size_t align);
struct answer rattle_realloc(void *block, size_t kept, size_t size, size_t align);
void rattle_dealloc(void *block);

static void *get(void *context, size_t size) {
  (void)context;
  return malloc(size);
}

static void *resize(void *context, void *block, size_t size) {
  (void)context;
  return realloc(block, size);
}

static void release(void *context, void *block) {
  (void)context;
  free(block);
}

static const g1_memory from_malloc = {get, resize, release, NULL};
static g1_memory memory = {get, resize, release, NULL};
static char nothing;

void g1_set_memory(const g1_memory *given) { memory = given ? *given : from_malloc; }

static struct answer of(void *block) {
  struct answer answer = {block != NULL, block ? block : &nothing};
  return answer;
}

struct answer rattle_alloc(size_t size, size_t align) { return of(memory.get(memory.context, size ? size : align)); }

struct answer rattle_realloc(void *block, size_t kept, size_t size, size_t align) {
  (void)kept;
  return of(memory.resize(memory.context, block, size ? size : align));
}

void rattle_dealloc(void *block) { memory.release(memory.context, block); }
