/* g1report.h: an answer of the judge as one line of text, as `g1heap same` prints it (docs/COMPARE.md), in your own pointers
   and names. C99 or C++, with nothing beside the standard library: it asks for no memory and keeps nothing.

     g1_report report = g1r_of_writers(&before, &after);       (or g1r_of_images, of bytes)
     report.name = name_of;                                    (if your program has names, else leave it out)
     status = g1r_same(&report, path, 64, &answer);            (g1_same of the two images)
     if (status != G1_GOOD) g1r_print(stdout, &report, status, &answer, path, 64);

   Of bytes alone, the line is that of g1heap, byte for byte: objects are addresses. A fault is behind `before: ` or `after: `.
   With writers, objects are your pointers, and so is a stale word. With `name`, the path and the data words have your
   names, and data are in hexadecimal, too. */
#ifndef G1REPORT_H
#define G1REPORT_H

#include "g1image.h"
#include "g1judge.h"

#include <stdarg.h>
#include <stdio.h>

/* What `name` is asked for. `object` is an address, or your pointer if the image is a writer's. */
enum {
  G1R_ROOT, /* the root with the number `number` */
  G1R_SLOT, /* slot `number` of an object before; a name that begins with '[' gets no dot in front of it */
  G1R_DATA, /* data word `number` of an object before */
  G1R_TYPE  /* the type of an object, before or after; after a collection your old objects may be gone */
};

typedef struct g1_report {
  const uint8_t *before, *after; /* the bytes of both images */
  size_t before_length, after_length;
  const g1_writer *before_writer, *after_writer; /* those that wrote them, or NULL */
  /* Writes the name of a thing into text[0 .. room), as snprintf does, and returns its length; 0 if it has none. `image` is
     1 before and 2 after. NULL if nothing has a name. */
  int (*name)(void *context, int what, int image, uint64_t object, uint64_t number, char *text, size_t room);
  void *context;
} g1_report;

static inline g1_report g1r_of_images(const uint8_t *before, size_t before_length, const uint8_t *after, size_t after_length) {
  g1_report r;
  memset(&r, 0, sizeof r);
  r.before = before;
  r.before_length = before_length;
  r.after = after;
  r.after_length = after_length;
  return r;
}

/* The same of two writers that have ended their images. */
static inline g1_report g1r_of_writers(const g1_writer *before, const g1_writer *after) {
  g1_report r = g1r_of_images(g1w_bytes(before), g1w_length(before), g1w_bytes(after), g1w_length(after));
  r.before_writer = before;
  r.after_writer = after;
  return r;
}

/* g1_same of the two images. */
static inline uint32_t g1r_same(const g1_report *r, uint64_t *path, size_t room, g1_answer *answer) {
  return g1_same(r->before, r->before_length, r->after, r->after_length, path, room, answer);
}

/* ---- where the text goes: a file, or room for so many characters */

typedef struct g1r_text {
  FILE *file;
  char *to;
  size_t room, length;
} g1r_text;

#ifdef __GNUC__
static inline void g1r_put(g1r_text *t, const char *format, ...) __attribute__((format(printf, 2, 3)));
#endif
static inline void g1r_put(g1r_text *t, const char *format, ...) {
  const size_t at = t->length < t->room ? t->length : t->room;
  va_list words;
  int count;
  va_start(words, format);
  count = t->file ? vfprintf(t->file, format, words) : vsnprintf(t->room ? t->to + at : NULL, t->room - at, format, words);
  va_end(words);
  if (count > 0) t->length += (size_t)count;
}

static inline void g1r_number(g1r_text *t, const char *lead, uint64_t number) {
  g1r_put(t, "%s%llu", lead, (unsigned long long)number);
}

/* ---- an image of either version, G1IMAGE1 or G1IMAGE2, read as far as a line needs it; what is not there is 0 */

typedef struct g1r_image {
  const uint8_t *bytes;
  size_t length, entry, words; /* where the words of the heap begin */
  uint32_t region_words, regions, roots;
} g1r_image;

static inline uint64_t g1r_get(const g1r_image *i, size_t at, size_t size) {
  uint64_t number = 0;
  size_t k;
  if (at > i->length || size > i->length - at) return 0;
  for (k = size; k > 0; k--) number = number << 8 | i->bytes[at + k - 1];
  return number;
}

static inline g1r_image g1r_open(const uint8_t *bytes, size_t length) {
  g1r_image i = {bytes, length, length > 7 && bytes[7] == '1' ? 8u : 12u, 0, 0, 0, 0};
  uint32_t r;
  i.region_words = (uint32_t)g1r_get(&i, 8, 4);
  i.regions = (uint32_t)g1r_get(&i, 16, 4);
  i.roots = (uint32_t)g1r_get(&i, 20, 4);
  i.words = 32 + i.entry * i.regions + 8 * (size_t)i.roots + 4 * (size_t)g1r_get(&i, 24, 4);
  for (r = 0; r < i.regions && i.words < length; r++) i.words += 4 + 4 * (size_t)g1r_get(&i, i.words, 4);
  return i;
}

static inline uint32_t g1r_kind(const g1r_image *i, uint64_t region) {
  return (uint32_t)g1r_get(i, 32 + i->entry * (size_t)region, 4);
}

static inline uint32_t g1r_top(const g1r_image *i, uint64_t region) {
  return (uint32_t)g1r_get(i, 36 + i->entry * (size_t)region, 4);
}

static inline uint64_t g1r_root(const g1r_image *i, uint64_t root) {
  return root < i->roots ? g1r_get(i, 32 + i->entry * i->regions + 8 * (size_t)root, 8) : 0;
}

/* Where the words of a region begin. */
static inline size_t g1r_place(const g1r_image *i, uint64_t region) {
  size_t at = i->words;
  uint64_t r;
  for (r = 0; r < region; r++) at += 8 * (size_t)g1r_top(i, r);
  return at;
}

/* The region of an address; there is none behind the last one. */
static inline uint64_t g1r_region(const g1r_image *i, uint64_t address) {
  return i->region_words && address / i->region_words < i->regions ? address / i->region_words : i->regions;
}

/* The word at an address. */
static inline uint64_t g1r_at(const g1r_image *i, uint64_t address) {
  const uint64_t region = g1r_region(i, address);
  if (region == i->regions || address % i->region_words >= g1r_top(i, region)) return 0;
  return g1r_get(i, g1r_place(i, region) + 8 * (size_t)(address % i->region_words), 8);
}

/* Whether an object starts at an address: a large one does at the start of its first region, and others lie end to end. */
static inline int g1r_starts(const g1r_image *i, uint64_t address) {
  const uint64_t region = g1r_region(i, address);
  uint64_t at = 0, size = 1, wanted;
  size_t place;
  if (region == i->regions || g1r_kind(i, region) == 0 || g1r_kind(i, region) == 3) return 0;
  wanted = address % i->region_words;
  if (g1r_kind(i, region) == 2 || wanted >= g1r_top(i, region)) return !wanted;
  for (place = g1r_place(i, region); at < wanted && size; at += size) size = g1r_get(i, place + 8 * (size_t)at, 8) >> 32;
  return at == wanted;
}

/* ---- names and objects */

static inline const g1_writer *g1r_writer(const g1_report *r, int image) {
  return image == 1 ? r->before_writer : r->after_writer;
}

/* The caller's pointer to the object at an address, or the address. */
static inline uint64_t g1r_pointer(const g1_report *r, int image, uint64_t address) {
  const g1_writer *w = g1r_writer(r, image);
  return w ? g1w_named(w, address + 1) : address;
}

/* A name of the caller's, cut to the room; empty if there is none. */
static inline const char *g1r_name(const g1_report *r, int what, int image, uint64_t address, uint64_t number, char *text,
                                   size_t room) {
  text[0] = 0;
  if (r->name && r->name(r->context, what, image, g1r_pointer(r, image, address), number, text, room) <= 0) text[0] = 0;
  return text;
}

static inline void g1r_object(g1r_text *t, const g1_report *r, int image, const char *lead, uint64_t address) {
  if (g1r_writer(r, image)) g1r_put(t, "%s0x%llx", lead, (unsigned long long)g1r_pointer(r, image, address));
  else g1r_number(t, lead, address);
}

/* The object or the null that a reference word is, and its type. */
static inline void g1r_word(g1r_text *t, const g1_report *r, int image, const char *lead, uint64_t word) {
  char name[256];
  if (!word) {
    g1r_put(t, "%snull", lead);
    return;
  }
  g1r_put(t, "%s", lead);
  g1r_object(t, r, image, "object ", word - 1);
  if (*g1r_name(r, G1R_TYPE, image, word - 1, 0, name, sizeof name)) g1r_put(t, " (%s)", name);
}

/* ---- the path */

enum { G1R_NAME = 256, G1R_RUN = 3, G1R_END = 20 };

/* A step of a path by the names: its text, and the word that it leads to before. */
static inline uint64_t g1r_step(const g1_report *r, const g1r_image *before, uint64_t word, uint64_t slot, char *text) {
  char name[G1R_NAME - 1];
  g1r_name(r, G1R_SLOT, 1, word - 1, slot, name, sizeof name);
  if (*name) snprintf(text, G1R_NAME, "%s%s", *name == '[' ? "" : ".", name);
  else snprintf(text, G1R_NAME, " slot %llu", (unsigned long long)slot);
  return g1r_at(before, word + slot);
}

/* Steps that are equal: those from G1R_RUN on are one run, and fewer are a run each. Writes the runs of a path, of many only
   the first and the last G1R_END; or counts them, without a text. */
static inline size_t g1r_runs(g1r_text *t, const g1_report *r, uint64_t root, const uint64_t *path, size_t steps, size_t runs) {
  const g1r_image before = g1r_open(r->before, r->before_length);
  char step[G1R_NAME], next[G1R_NAME];
  uint64_t word = g1r_root(&before, root), left_out = 0;
  size_t i = 0, equal, run = 0, k;
  int apart = 0;
  if (steps) word = g1r_step(r, &before, word, path[0], next);
  while (i < steps) {
    memcpy(step, next, sizeof step);
    for (equal = 1, i++; i < steps; equal++, i++) {
      word = g1r_step(r, &before, word, path[i], next);
      if (strcmp(step, next)) break;
    }
    for (k = 0; k < (equal < G1R_RUN ? equal : 1); k++, run++) {
      const size_t count = equal < G1R_RUN ? 1 : equal;
      if (!t) continue;
      if (run >= G1R_END && run + G1R_END < runs) {
        left_out += count;
        continue;
      }
      if (left_out) {
        g1r_put(t, " .. %llu steps ..", (unsigned long long)left_out);
        left_out = 0;
        apart = 1;
      }
      g1r_put(t, "%s%s", apart && *step != ' ' ? " " : "", step);
      apart = count > 1;
      if (apart) g1r_number(t, " x ", count);
    }
  }
  return run;
}

/* A path, as far as the caller has it. */
static inline void g1r_path(g1r_text *t, const g1_report *r, const g1_answer *a, const uint64_t *path, size_t path_length) {
  const size_t known = a->slots < path_length ? (size_t)a->slots : path_length;
  char name[G1R_NAME];
  size_t i;
  if (*g1r_name(r, G1R_ROOT, 1, 0, a->root, name, sizeof name)) g1r_put(t, "%s", name);
  else g1r_number(t, "root ", a->root);
  if (r->name) g1r_runs(t, r, a->root, path, known, g1r_runs(NULL, r, a->root, path, known, 0));
  else
    for (i = 0; i < known; i++) g1r_number(t, " slot ", path[i]);
  if (known < a->slots) g1r_put(t, " and %llu slots more", (unsigned long long)(a->slots - known));
}

/* ---- how two images differ */

/* An object that an earlier path leads to, each with the image that it is of. */
static inline void g1r_met(g1r_text *t, const g1_report *r, int image, uint64_t object, uint64_t other) {
  static const char *const sides[] = {"", "before", "after"};
  g1r_object(t, r, image, "; ", object);
  g1r_put(t, " %s is ", sides[image]);
  g1r_object(t, r, 3 - image, "", other);
  g1r_put(t, " %s on an earlier path", sides[3 - image]);
}

static inline void g1r_data(g1r_text *t, const g1_report *r, const g1_answer *a) {
  const unsigned long long old = a->second, now = a->third;
  char name[G1R_NAME];
  g1r_number(t, "; data word ", a->first);
  if (!r->name) {
    g1r_put(t, " is %llu before, %llu after", old, now);
    return;
  }
  if (*g1r_name(r, G1R_DATA, 1, a->before - 1, a->first, name, sizeof name)) g1r_put(t, ", %s,", name);
  g1r_put(t, " is %llu (0x%llx) before, %llu (0x%llx) after", old, old, now, now);
}

static inline void g1r_difference(g1r_text *t, const g1_report *r, const g1_answer *a, const uint64_t *path,
                                  size_t path_length) {
  static const char *const kinds[] = {"", "roots", "null", "null", "split", "joined", "size", "slots", "data"};
  if (a->kind == G1_ROOTS) {
    g1r_put(t, "differ roots: %llu before, %llu after", (unsigned long long)a->first, (unsigned long long)a->second);
    return;
  }
  g1r_put(t, "differ %s at ", kinds[a->kind]);
  g1r_path(t, r, a, path, path_length);
  g1r_word(t, r, 1, ": ", a->before);
  g1r_put(t, " before");
  g1r_word(t, r, 2, ", ", a->after);
  g1r_put(t, " after");
  if (a->kind == G1_SPLIT) g1r_met(t, r, 1, a->first, a->second);
  if (a->kind == G1_JOINED) g1r_met(t, r, 2, a->third, a->first);
  if (a->kind == G1_SIZE || a->kind == G1_SLOTS)
    g1r_put(t, "; %s %llu before, %llu after", kinds[a->kind], (unsigned long long)a->first, (unsigned long long)a->second);
  if (a->kind == G1_DATA) g1r_data(t, r, a);
}

/* A stale word of the second image: your pointer, or the word, where it leads, and what was there before. */
static inline void g1r_stale(g1r_text *t, const g1_report *r, const g1_answer *a, const uint64_t *path, size_t path_length) {
  static const char *const kinds[] = {"free", "ordinary", "humongous", "continuation"};
  const g1_writer *old = r->before_writer, *now = r->after_writer;
  const g1r_image before = g1r_open(r->before, r->before_length), after = g1r_open(r->after, r->after_length);
  const uint64_t pointer = now ? g1w_stale(now, a->after) : 0, address = a->after - 1;
  const uint64_t region = g1r_region(&after, address);
  const int is_same = old ? pointer && pointer == g1w_named(old, a->before) : !now && a->before == a->after;
  g1r_put(t, "differ stale at ");
  g1r_path(t, r, a, path, path_length);
  g1r_word(t, r, 1, ": ", a->before);
  g1r_put(t, " before; the word %s ", is_same ? "still is" : "is");
  if (pointer) {
    g1r_put(t, "0x%llx, which no object after has", (unsigned long long)pointer);
    return;
  }
  g1r_number(t, "", a->after);
  if (region == after.regions) {
    g1r_put(t, ", outside the heap");
    return;
  }
  g1r_put(t, ", in region %llu, %s after", (unsigned long long)region, kinds[g1r_kind(&after, region) & 3]);
  if (old) return;
  g1r_put(t, ", where %s", !g1r_starts(&before, address)    ? "no object starts"
                           : a->before == a->after ? "the object was before"
                                                   : "another object was before");
}

/* What the second image does not keep. */
static inline void g1r_loss(g1r_text *t, const g1_report *r, const g1_answer *a) {
  static const char *const of_tables[] = {"sizes: the heaps have other regions",
                                          "roots: the heaps have other numbers of roots"};
  static const char *const of_regions[] = {"in the set, and not free after", "outside the set, with another kind or top after",
                                           "outside the set, pinned before and not after",
                                           "outside the set, pinned after and not before"};
  static const char *const of_copies[] = {" after is in a region that was not free", " after has another size or number of slots",
                                          " after", " after references another object, or none"};
  if (a->kind < G1_LOST_SET) g1r_put(t, "differ %s", of_tables[a->kind - G1_LOST_SIZES]);
  else if (a->kind < G1_LOST_ROOT)
    g1r_put(t, "differ region %llu: %s", (unsigned long long)a->first, of_regions[a->kind - G1_LOST_SET]);
  else if (a->kind == G1_LOST_ROOT) g1r_put(t, "differ root %llu: another object after, or none", (unsigned long long)a->first);
  else {
    g1r_object(t, r, 1, "differ object ", a->first);
    if (a->kind == G1_LOST_DATA) g1r_put(t, ": data word %llu is another in ", (unsigned long long)a->third);
    else if (a->kind == G1_LOST_SLOT) g1r_put(t, ": slot %llu in ", (unsigned long long)a->third);
    else g1r_put(t, ": ");
    g1r_object(t, r, 2, "", a->second);
    g1r_put(t, "%s", of_copies[a->kind - G1_LOST_COPY]);
  }
}

/* Behind a word that references no object: whose it is, and the pointer that it was written for. */
static inline void g1r_stray(g1r_text *t, const g1_report *r, const g1_answer *a) {
  const g1_writer *w = a->fault == 7 ? g1r_writer(r, (int)a->image) : NULL;
  uint64_t number, holder, word;
  if (!w) return;
  holder = a->place == G1_SLOT ? g1w_at(w, a->at, &number) : 0;
  word = holder ? g1w_slot_word(w, a->at - number + 1, number - 1) : g1w_root_word(w, a->at);
  if (holder) g1r_put(t, ", which is slot %llu of object 0x%llx", (unsigned long long)(number - 1), (unsigned long long)holder);
  g1r_put(t, ": it is 0x%llx, which no object has", (unsigned long long)g1w_stale(w, word));
}

/* A fault, behind the image that has it. */
static inline void g1r_fault(g1r_text *t, const g1_report *r, const g1_answer *a) {
  static const char *const texts[] = {"", "magic", "geometry", "short", "trailing", "kind of", "shape of", "reference in",
                                      "card", "uncovered", "set", "room", "setting", "memory", "device", "line", "flags of"};
  static const char *const places[] = {"", "region", "root", "slot", "log place"};
  g1r_put(t, "%sfault %u: %s", a->image == 1 ? "before: " : a->image == 2 ? "after: " : "", (unsigned)a->fault,
          texts[a->fault < sizeof texts / sizeof *texts ? a->fault : 0]);
  if (a->fault == 8) g1r_put(t, a->place == G1_LOG ? " in" : " of");
  if (a->place && a->place <= G1_LOG) g1r_put(t, " %s %llu", places[a->place], (unsigned long long)a->at);
  g1r_stray(t, r, a);
}

static inline void g1r_all(g1r_text *t, const g1_report *r, uint32_t status, const g1_answer *a, const uint64_t *path,
                           size_t room) {
  if (status == G1_GOOD) {
    g1r_number(t, "same objects ", a->objects);
    g1r_number(t, " words ", a->words);
  } else if (status != G1_DIFFER) g1r_fault(t, r, a);
  else if (a->kind >= G1_LOST_SIZES && a->kind <= G1_LOST_SLOT) g1r_loss(t, r, a);
  else if (a->kind >= G1_ROOTS && a->kind <= G1_DATA) g1r_difference(t, r, a, path, room);
  else if (a->kind == G1_STALE) g1r_stale(t, r, a, path, room);
}

/* ---- the calls */

/* Writes the line of an answer into text[0 .. room) as snprintf does, with 0 behind it, and returns its length. The answer is
   that of g1_same of the report's images, with its path; or that of another call, which has none. For g1_kept the line of
   G1_GOOD is not this one, since its answer counts nothing. */
static inline size_t g1r_line(char *text, size_t room, const g1_report *r, uint32_t status, const g1_answer *a,
                              const uint64_t *path, size_t path_length) {
  g1r_text t = {NULL, text, room, 0};
  if (room) text[0] = 0;
  g1r_all(&t, r, status, a, path, path_length);
  return t.length;
}

/* Prints the line to a file, with its end. */
static inline void g1r_print(FILE *file, const g1_report *r, uint32_t status, const g1_answer *a, const uint64_t *path,
                             size_t path_length) {
  g1r_text t = {file, NULL, 0, 0};
  g1r_all(&t, r, status, a, path, path_length);
  g1r_put(&t, "\n");
}

#endif
