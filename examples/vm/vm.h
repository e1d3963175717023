/* A small virtual machine: objects in regions, a program that makes and links them, and a collector that copies what the
   program can still reach into free regions, with four threads. */
#ifndef VM_H
#define VM_H

#include <stdatomic.h>
#include <stddef.h>
#include <stdint.h>

enum { REGIONS = 64, REGION_BYTES = 16384, THREADS = 4, ROOTS = 256, BUFFER_BYTES = 512 };

/* The header is the machine's own: 24 bytes, of which `forward` is used by a collection alone. */
typedef struct object {
  _Atomic(struct object *) forward; /* while a collection runs: the copy */
  uint32_t bytes;                   /* of all of it, a multiple of 8 */
  uint32_t slots;                   /* references, which come first; then the data */
  uint32_t kind;                    /* what the program thinks it is; FILLER is room that a local buffer left */
  uint32_t length;                  /* bytes of data that count */
  struct object *slot[];
} object;

enum { FILLER = 0 };

typedef struct heap {
  unsigned char *start;
  uint32_t used[REGIONS];    /* bytes of each region; 0 in a free one */
  unsigned char old[REGIONS]; /* while a collection runs: is it collected */
  uint32_t current;          /* the region that the program fills */
  object *root[ROOTS];
} heap;

static inline unsigned char *region_start(const heap *h, uint32_t region) { return h->start + (size_t)region * REGION_BYTES; }
static inline unsigned char *object_data(object *o) { return (unsigned char *)(o->slot + o->slots); }

/* The wrong turn that VM_BUG asks for. Each counts how often it was really taken. */
enum bug { NO_BUG, SLOT_NOT_UPDATED, COPIED_TWICE, TORN_COPY };
extern enum bug bug;
extern atomic_uint happened;

void collect(heap *h);

/* The judge of a collection: an image of the heap before it is kept, and compared with one of the heap afterwards. 1 if
   both show the same; else the first difference is printed, in the machine's own pointers. */
typedef struct judge judge;
judge *judge_before(const heap *h);
int judge_after(judge *j, const heap *h, unsigned collection);

#endif
