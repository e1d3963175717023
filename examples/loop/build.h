/* Builds the heap of an image file on the machine of examples/vm, as loop.c does for each line that it reads. docs/IMAGE.md
   describes the file. */
#include "vm.h"
#include <stdio.h>
#include <string.h>

static heap h;
static uint8_t image[1 << 24];
static object *named[1 << 21]; /* by address in the image */

static uint32_t number(const uint8_t *at) { return (uint32_t)at[0] | (uint32_t)at[1] << 8 | (uint32_t)at[2] << 16 | (uint32_t)at[3] << 24; }

/* The object that a reference word at this place of the file references. */
static object *referenced(const uint8_t *at) { return number(at) ? named[number(at) - 1] : NULL; }

/* A new object, or NULL once half of the regions are in use. */
static object *make(uint32_t slots, uint32_t words) {
  uint32_t bytes = (uint32_t)sizeof(object) + 8 * (slots + words), r = h.current;
  if (h.used[r] + bytes > REGION_BYTES) r = ++h.current;
  if (r >= REGIONS / 2 || bytes > REGION_BYTES) return NULL;
  object *o = (object *)(region_start(&h, r) + h.used[r]);
  *o = (object){.bytes = bytes, .slots = slots, .kind = 1, .length = 8 * words};
  h.used[r] += bytes;
  return o;
}

/* Goes over the objects of the image: makes each, or fills each. 0 if the machine has no room. The words of a humongous object
   lie one after another in the file, too. */
static int walk(const uint8_t *at, int is_filled) {
  uint32_t width = number(image + 8), regions = number(image + 16);
  for (uint32_t r = 0; r < regions; r++) {
    uint32_t kind = number(image + 32 + 12 * r), top = number(image + 36 + 12 * r), size;
    for (uint32_t i = 0; kind != 3 && i < top; i += size, at += 8 * size) {
      uint32_t slots = number(at);
      object **o = &named[r * width + i];
      size = number(at + 4);
      if (!is_filled && !(*o = make(slots, size - 1 - slots))) return 0;
      for (uint32_t s = 0; is_filled && s < slots; s++) (*o)->slot[s] = referenced(at + 8 + 8 * s);
      if (is_filled) memcpy(object_data(*o), at + 8 + 8 * slots, (*o)->length);
    }
  }
  return 1;
}

static int build(const char *path, uint32_t *roots) {
  FILE *file = fopen(path, "rb");
  size_t length = file ? fread(image, 1, sizeof image, file) : 0;
  const uint8_t *root = image + 32 + 12 * number(image + 16), *at;
  if (file) fclose(file);
  *roots = number(image + 20);
  if (!length || length == sizeof image || *roots > ROOTS) return 0;
  memset(h.used, 0, sizeof h.used);
  h.current = 0;
  at = root + 8 * *roots + 4 * number(image + 24);
  for (uint32_t r = 0; r < number(image + 16); r++) at += 4 + 4 * number(at);
  if (!walk(at, 0)) return 0;
  for (uint32_t i = 0; i < ROOTS; i++) h.root[i] = i < *roots ? referenced(root + 8 * i) : NULL;
  return walk(at, 1);
}
