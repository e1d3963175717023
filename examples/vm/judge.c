/* How the machine judges a collection: an image of what it shows before, another of what it shows afterwards, and one call
   between the two. All that is the machine's own is in `show`. */
#include "g1report.h"
#include "vm.h"

struct judge {
  g1_writer before, after;
};

static uint64_t number(const void *pointer) { return (uint64_t)(uintptr_t)pointer; }

/* Says every object of the heap: its slots, and as data what the program thinks it is, its length, and its bytes. The
   forwarding pointer is left out, since only a collection uses it, and so is room that nobody uses. */
static void show(const heap *h, g1_writer *w, const char *when) {
  static uint64_t slots[REGION_BYTES / 8];
  static uint8_t data[REGION_BYTES];
  const uint8_t *bytes;
  size_t length;
  g1w_begin(w, 4096);
  g1w_keep_stale(w);
  for (int i = 0; i < ROOTS; i++) g1w_root(w, number(h->root[i]));
  for (uint32_t r = 0; r < REGIONS; r++) {
    const object *o;
    for (uint32_t at = 0; at < h->used[r]; at += o->bytes) {
      o = (const object *)(region_start(h, r) + at);
      if (o->kind == FILLER) continue;
      for (uint32_t i = 0; i < o->slots; i++) slots[i] = number(o->slot[i]);
      memcpy(data, &o->kind, 8); /* and the length behind it */
      memcpy(data + 8, object_data((object *)o), o->length);
      g1w_object(w, number(o), slots, o->slots, data, 8 + (size_t)o->length);
    }
  }
  if (!g1w_end(w, &bytes, &length)) return;
  printf("vm: no image %s: %s\n", when, g1w_text(w->fault));
  exit(2);
}

judge *judge_before(const heap *h) {
  judge *j = malloc(sizeof *j);
  if (!j) exit(2);
  show(h, &j->before, "before");
  return j;
}

/* What a report calls things: the first data word of an object has its kind. */
static int name_of(void *context, int what, int image, uint64_t object, uint64_t word, char *text, size_t room) {
  (void)context, (void)image, (void)object;
  return what == G1R_DATA && word == 0 ? snprintf(text, room, "kind and length") : 0;
}

int judge_after(judge *j, const heap *h, unsigned collection) {
  uint64_t path[64];
  g1_answer answer;
  show(h, &j->after, "after");
  g1_report report = g1r_of_writers(&j->before, &j->after);
  report.name = name_of;
  uint32_t status = g1r_same(&report, path, 64, &answer);
  if (status != G1_GOOD) {
    printf("vm: collection %u: ", collection);
    g1r_print(stdout, &report, status, &answer, path, 64);
  }
  g1w_free(&j->before);
  g1w_free(&j->after);
  free(j);
  return status == G1_GOOD;
}
