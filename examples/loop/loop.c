/* A server of heaps for `tools/challenge.py --loop`: it reads lines `BEFORE AFTER SET`, builds the heap of the image BEFORE on
   the machine of examples/vm, has it collect, and writes the image AFTER. VM_BUG plants an error, as in examples/vm. */
#include "build.h"
#include "g1image.h"
#include <stdio.h>
#include <stdlib.h>
#include <string.h>

static void show(const char *path, uint32_t roots) {
  static uint64_t slots[REGION_BYTES / 8];
  const uint8_t *bytes;
  size_t length;
  g1_writer w;
  g1w_begin(&w, 4096);
  g1w_keep_stale(&w);
  for (uint32_t i = 0; i < roots; i++) g1w_root(&w, (uintptr_t)h.root[i]);
  for (uint32_t r = 0; r < REGIONS; r++) {
    object *o;
    for (uint32_t at = 0; at < h.used[r]; at += o->bytes) {
      o = (object *)(region_start(&h, r) + at);
      if (o->kind == FILLER) continue;
      for (uint32_t i = 0; i < o->slots; i++) slots[i] = (uintptr_t)o->slot[i];
      g1w_object(&w, (uintptr_t)o, slots, o->slots, object_data(o), o->length);
    }
  }
  FILE *file = fopen(path, "wb");
  if (file && !g1w_end(&w, &bytes, &length)) fwrite(bytes, 1, length, file);
  if (file) fclose(file);
  g1w_free(&w);
}

int main(void) {
  char before[4096], after[4096], set[65536];
  const char *planted = getenv("VM_BUG");
  if (planted) bug = !strcmp(planted, "slot") ? SLOT_NOT_UPDATED : !strcmp(planted, "twice") ? COPIED_TWICE : TORN_COPY;
  h.start = aligned_alloc(4096, (size_t)REGIONS * REGION_BYTES);
  while (h.start && scanf("%4095s %4095s %65535s", before, after, set) == 3) {
    uint32_t roots;
    int has_room = build(before, &roots);
    if (has_room) collect(&h);
    if (has_room) show(after, roots);
    puts(has_room ? "ok" : "room");
    fflush(stdout);
  }
  return 0;
}
