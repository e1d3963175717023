/* The collector. All regions in use are collected. Four threads take objects to be looked at from one list, copy what
   their slots reference, and put the copies on the list. Each thread copies into a local buffer, a piece of the region that
   is being filled, so that only the taking of a buffer is locked. Who copies an object first is decided by one compare and
   exchange of its forwarding pointer. */
#include "vm.h"

#include <pthread.h>
#include <sched.h>
#include <stdio.h>
#include <stdlib.h>
#include <string.h>

enum { MOST_GREY = REGIONS * REGION_BYTES / (int)sizeof(object) };

enum bug bug;
atomic_uint happened;

static pthread_mutex_t lock = PTHREAD_MUTEX_INITIALIZER;
static heap *collected;
static uint32_t filled;          /* the region that buffers are taken from, or REGIONS */
static object *grey[MOST_GREY];  /* copies whose slots are still to be looked at */
static size_t grey_count, next_root;
static int working;              /* threads that may still find something */
static atomic_uint copies;

typedef struct buffer {
  unsigned char *at, *end;
} buffer;

/* Room that nobody will use any more is one object, so that a region can be walked. */
static void fill(unsigned char *at, unsigned char *end) {
  object *o = (object *)at;
  if (at == end) return;
  memset(at, 0, (size_t)(end - at));
  o->bytes = (uint32_t)(end - at);
  o->kind = FILLER;
}

/* A piece of the region that is filled, or of the next free one. */
static buffer take(uint32_t bytes) {
  buffer b;
  pthread_mutex_lock(&lock);
  if (filled == REGIONS || collected->used[filled] + bytes > REGION_BYTES) {
    for (filled = 0; filled < REGIONS && (collected->used[filled] || collected->old[filled]); filled++) {
    }
    if (filled == REGIONS) {
      fprintf(stderr, "vm: no free region\n");
      exit(2);
    }
  }
  b.at = region_start(collected, filled) + collected->used[filled];
  b.end = b.at + bytes;
  collected->used[filled] += bytes;
  pthread_mutex_unlock(&lock);
  return b;
}

/* Room for a copy. What is left of a buffer is at least an object or nothing. */
static unsigned char *room(buffer *b, uint32_t bytes) {
  size_t left = (size_t)(b->end - b->at);
  unsigned char *at;
  if (left != bytes && left < bytes + sizeof(object)) {
    fill(b->at, b->end);
    *b = take(bytes + sizeof(object) > BUFFER_BYTES ? bytes : BUFFER_BYTES);
  }
  at = b->at;
  b->at += bytes;
  return at;
}

static void copy_words(object *to, const object *from) {
  uint32_t bytes = from->bytes;
  const unsigned char *last = (const unsigned char *)from + bytes - 4;
  memcpy(&to->bytes, &from->bytes, bytes - offsetof(object, bytes)); /* others may look at the forwarding pointer */
  atomic_init(&to->forward, NULL);
  if (bug == TORN_COPY && from->length > 7 && atomic_fetch_add(&copies, 1) % 50 == 49) {
    static const unsigned char other[4] = {0xee, 0xee, 0xee, 0xee}; /* half of the last word is what stood there */
    if (memcmp(last, other, 4)) atomic_fetch_add(&happened, 1);
    memcpy((unsigned char *)to + bytes - 4, other, 4);
  }
}

/* The copy of an object, made now if nobody else was first. */
static object *copy_of(object *o, buffer *b, int *is_mine) {
  object *to = atomic_load(&o->forward), *none = NULL;
  *is_mine = 0;
  if (to) return to;
  to = (object *)room(b, o->bytes);
  copy_words(to, o);
  if (bug == COPIED_TWICE) { /* a store in place of the exchange: two threads that come at once both have a copy */
    sched_yield();
    if (atomic_exchange(&o->forward, to)) atomic_fetch_add(&happened, 1);
  } else if (!atomic_compare_exchange_strong(&o->forward, &none, to)) {
    b->at = (unsigned char *)to; /* the room of the copy that came too late is used again */
    return none;
  }
  *is_mine = 1;
  return to;
}

static void push(object *o) {
  pthread_mutex_lock(&lock);
  grey[grey_count++] = o;
  pthread_mutex_unlock(&lock);
}

/* Has a slot or a root reference the copy. */
static void update(object **slot, buffer *b) {
  object *o = *slot, *to;
  int is_mine;
  if (!o) return;
  to = copy_of(o, b, &is_mine);
  if (is_mine) push(to);
  if (bug == SLOT_NOT_UPDATED && atomic_fetch_add(&copies, 1) % 1000 == 999) {
    atomic_fetch_add(&happened, 1);
    return;
  }
  *slot = to;
}

/* A root or an object to look at. 0 once no thread can find any more. */
static int next(object **o, object ***root) {
  *o = NULL;
  *root = NULL;
  pthread_mutex_lock(&lock);
  while (next_root == ROOTS && !grey_count) {
    working--;
    while (working && !grey_count) { /* the others may still put something there */
      pthread_mutex_unlock(&lock);
      sched_yield();
      pthread_mutex_lock(&lock);
    }
    if (!grey_count) break;
    working++;
  }
  if (next_root < ROOTS) *root = &collected->root[next_root++];
  else if (grey_count) *o = grey[--grey_count];
  pthread_mutex_unlock(&lock);
  return *root || *o;
}

static void *run(void *unused) {
  buffer b = {NULL, NULL};
  object *o, **root;
  (void)unused;
  while (next(&o, &root)) {
    if (root) update(root, &b);
    for (uint32_t i = 0; o && i < o->slots; i++) update(&o->slot[i], &b);
  }
  fill(b.at, b.end);
  return NULL;
}

void collect(heap *h) {
  pthread_t threads[THREADS];
  collected = h;
  filled = REGIONS;
  grey_count = next_root = 0;
  working = THREADS;
  for (uint32_t r = 0; r < REGIONS; r++) h->old[r] = h->used[r] != 0;
  for (int i = 0; i < THREADS; i++) pthread_create(&threads[i], NULL, run, NULL);
  for (int i = 0; i < THREADS; i++) pthread_join(threads[i], NULL);
  for (uint32_t r = 0; r < REGIONS; r++) {
    if (!h->old[r]) continue;
    h->used[r] = 0;
    memset(region_start(h, r), 0xdd, REGION_BYTES);
  }
  h->current = REGIONS;
}
