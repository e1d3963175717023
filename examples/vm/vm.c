/* The program that runs on the machine: it makes objects, links them and forgets them, and asks for a collection when few
   regions are free. `vm [COLLECTIONS [SEED]]`; VM_BUG=slot, twice or torn plants an error into the collector, VM_DEBUG=1
   judges each collection. Status 0; 1 if the judge found a difference; 2 for anything else. */
#include "vm.h"

#include <stdio.h>
#include <stdlib.h>
#include <string.h>

static uint64_t state;

static uint32_t below(uint32_t n) { /* xorshift */
  state ^= state << 13;
  state ^= state >> 7;
  state ^= state << 17;
  return (uint32_t)(state >> 33) % n;
}

static uint32_t free_regions(const heap *h) {
  uint32_t n = 0;
  for (uint32_t r = 0; r < REGIONS; r++) n += h->used[r] == 0;
  return n;
}

/* A new object, its slots null and its data drawn. NULL once half of the regions are in use. */
static object *make(heap *h, uint32_t slots, uint32_t length) {
  uint32_t bytes = (uint32_t)(sizeof(object) + 8 * slots + (length + 7) / 8 * 8);
  object *o;
  if (h->current == REGIONS || h->used[h->current] + bytes > REGION_BYTES) {
    if (free_regions(h) <= REGIONS / 2) return NULL;
    for (h->current = 0; h->used[h->current]; h->current++) {
    }
  }
  o = (object *)(region_start(h, h->current) + h->used[h->current]);
  h->used[h->current] += bytes;
  memset(o, 0, bytes);
  o->bytes = bytes;
  o->slots = slots;
  o->length = length;
  o->kind = 1 + below(9);
  for (uint32_t i = 0; i < length; i++) object_data(o)[i] = (unsigned char)below(256);
  return o;
}

/* An object that the program can reach, or NULL: from a root some slots on. */
static object *reach(const heap *h) {
  object *o = h->root[below(ROOTS)];
  for (uint32_t steps = below(6); o && o->slots && steps; steps--) o = o->slot[below(o->slots)];
  return o;
}

/* One step of the program. 0 if it needs a collection first. */
static int step(heap *h) {
  object *o, *to = reach(h);
  switch (below(32)) {
  case 0:
    h->root[below(ROOTS)] = to;
    return 1;
  case 1:
  case 2:
    if (to && to->slots) to->slot[below(to->slots)] = reach(h);
    return 1;
  case 3:
    if (to && to->length) object_data(to)[below(to->length)]++;
    return 1;
  default:
    o = make(h, below(5), below(40));
    if (!o) return 0;
    for (uint32_t i = 0; i < o->slots; i++) o->slot[i] = below(2) ? reach(h) : NULL;
    if (to && to->slots && below(4)) to->slot[below(to->slots)] = o;
    else h->root[below(ROOTS)] = o;
    return 1;
  }
}

/* A collection, judged in a debug build of the machine. */
static int collect_judged(heap *h, unsigned number, int is_debug) {
  judge *j = is_debug ? judge_before(h) : NULL;
  collect(h);
  return !is_debug || judge_after(j, h, number);
}

int main(int count, char **words) {
  static heap h;
  const char *planted = getenv("VM_BUG"), *debug = getenv("VM_DEBUG");
  unsigned collections = count > 1 ? (unsigned)strtoul(words[1], NULL, 10) : 20, n = 0;
  int is_same = 1;
  state = 0x9E3779B97F4A7C15u ^ (count > 2 ? strtoull(words[2], NULL, 10) : 1);
  if (planted) bug = !strcmp(planted, "slot") ? SLOT_NOT_UPDATED : !strcmp(planted, "twice") ? COPIED_TWICE : TORN_COPY;
  h.start = aligned_alloc(4096, (size_t)REGIONS * REGION_BYTES);
  if (!h.start) return 2;
  h.current = REGIONS;
  while (n < collections && is_same) {
    if (!step(&h)) is_same = collect_judged(&h, ++n, debug && !strcmp(debug, "1"));
  }
  printf("vm: %u collections, error taken %u times, %s\n", n, atomic_load(&happened), is_same ? "no difference" : "difference");
  free(h.start);
  return is_same ? 0 : 1;
}
