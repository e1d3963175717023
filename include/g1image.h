/* g1image.h: writes the image of any heap, in plain C99 or C++, with nothing beside the standard library. docs/IMAGE.md
   has the format. Say what is in the heap, by your own pointers:

     g1_writer w;
     g1w_begin(&w, 4096);                          (words of an image's region)
     for each root:   g1w_root(&w, pointer);
     for each object: g1w_object(&w, pointer, slots, count, data, bytes);
     if (g1w_end(&w, &image, &length) != G1W_GOOD) puts(g1w_text(w.fault));
     .. g1_same(before, before_length, image, length, path, room, &answer), g1w_named(&w, answer.after) ..
     g1w_free(&w);

   The writer lays the objects out by itself, in regions of its own and runs of them for large objects. So your regions
   and addresses do not matter, nor does the order in which you say objects and roots, except for the order of
   the roots among themselves: root I before a collection is compared with root I after it. A pointer is any number of
   64 bits but 0, which is null; two objects have two pointers.

   A call after a fault does nothing and returns the fault again, so it is enough to look at what g1w_end returns. The
   bytes belong to the writer, which keeps which pointer each object had, until g1w_free.

   It takes less than 3 times the bytes of the image, by one block for the words and a small one for each object, and
   time in the number of words, slots and objects. Define G1W_REALLOC(block, size) and G1W_FREE(block) for an allocator
   of your own. Several writers may be at work at once, each in one thread. */
#ifndef G1IMAGE_H
#define G1IMAGE_H

#include <stddef.h>
#include <stdint.h>
#include <stdlib.h>
#include <string.h>

#if defined(__BYTE_ORDER__) && __BYTE_ORDER__ != __ORDER_LITTLE_ENDIAN__
#error "g1image.h copies words as memory has them, and an image has the lowest byte first"
#endif

#ifndef G1W_REALLOC
#define G1W_REALLOC(block, size) realloc(block, size)
#define G1W_FREE(block) free(block)
#endif

/* The limits of an image: those of g1heap and of the judge. (g1pause takes regions of 65,536 words and 2^24 words.) */
#define G1W_MOST_REGION_WORDS 0x400000u
#define G1W_MOST_WORDS 0x10000000u /* words of the heap, and so of an object */
#define G1W_MOST_REGIONS 4096u
#define G1W_MOST_ROOTS 65536u

/* Why there is no image. */
enum {
  G1W_GOOD = 0,
  G1W_MEMORY,       /* a request for memory was refused */
  G1W_REGION_WORDS, /* the words of a region are no power of two from 16 to 2^22 */
  G1W_ROOTS,        /* more roots than an image has */
  G1W_WORDS,        /* more words or regions than an image has; larger regions may help, up to 2^28 words in all */
  G1W_NULL_OBJECT,  /* an object with the pointer 0 */
  G1W_TWICE,        /* two objects with the pointer `pointer` */
  G1W_NOTHING,      /* `pointer` is no object's: slot `slot` of the object `holder` has it, or root `slot` if `holder` is 0 */
  G1W_ENDED         /* a root, an object or an end after the end */
};

/* Objects end to end, and the header of each, in the same order. Until the end an object's pointer is in the place of its
   header; then they change places. */
typedef struct g1w_part {
  uint64_t *words, *others;
  size_t count, room, objects, others_room;
} g1w_part;

/* A region of the image: where its words begin among all words, and which object is its first. */
typedef struct g1w_region {
  uint32_t kind, top, start, first;
} g1w_region;

typedef struct g1_writer {
  /* for the caller to read */
  int fault;
  uint64_t pointer, holder, slot;
  uint64_t stale; /* how many words were written as stale; `strays` has their pointers */
  /* the writer's own */
  int keeps_stale, is_ended;
  uint32_t region_words, shift, regions, run_regions; /* 1 << shift is region_words */
  g1w_part small, large; /* the objects of ordinary regions, and those with runs of their own */
  uint32_t *tops;        /* of the ordinary regions */
  uint64_t *roots, *strays;
  size_t tops_room, root_count, root_room, strays_room;
  g1w_region *table;     /* from the end on, with one more behind the last */
  uint32_t *places;      /* while pointers are looked up: 1 more than an object's address, by its pointer */
  uint64_t place_count;
  uint32_t address_bits; /* of an entry of `places`; the others are a mark of the pointer */
  size_t front;          /* the words before those of the objects */
} g1_writer;

static inline const char *g1w_text(int fault) {
  static const char *const texts[] = {"no fault", "a request for memory was refused",
                                      "the words of a region are no power of two from 16 to 2^22", "more than 65,536 roots",
                                      "more words or regions than an image has", "an object with the pointer 0",
                                      "two objects with one pointer", "a pointer that is no object's", "a call after the end"};
  return fault >= 0 && fault <= G1W_ENDED ? texts[fault] : "no such fault";
}

static inline int g1w_fails(g1_writer *w, int fault) {
  if (!w->fault) w->fault = fault;
  return w->fault;
}

/* Begins an image with regions of so many words. Anything does; 65,536 and more leave room for the largest heaps. */
static inline int g1w_begin(g1_writer *w, uint32_t region_words) {
  memset(w, 0, sizeof *w);
  w->region_words = region_words;
  if (region_words < 16 || region_words > G1W_MOST_REGION_WORDS || (region_words & (region_words - 1)))
    return g1w_fails(w, G1W_REGION_WORDS);
  while (1u << w->shift < region_words) w->shift++;
  return G1W_GOOD;
}

/* Has a pointer that is no object's written as a stale word. Of the second image g1_same reports it as a difference, with
   its path, and of the first as a fault of that root or slot; g1w_stale has the pointer. Without this it is a fault of the
   writer. */
static inline void g1w_keep_stale(g1_writer *w) { w->keeps_stale = 1; }

/* Gives back all memory of the writer, the bytes of the image too. */
static inline void g1w_free(g1_writer *w) {
  G1W_FREE(w->small.words);
  G1W_FREE(w->small.others);
  G1W_FREE(w->large.words);
  G1W_FREE(w->large.others);
  G1W_FREE(w->tops);
  G1W_FREE(w->roots);
  G1W_FREE(w->strays);
  G1W_FREE(w->table);
  G1W_FREE(w->places);
  memset(w, 0, sizeof *w);
}

/* The block with room for so many elements. If memory is refused it is the old block, and the fault is noted. */
static inline void *g1w_more(g1_writer *w, void *block, size_t *room, size_t need, size_t size) {
  size_t most = *room + *room / 2 < need ? need : *room + *room / 2;
  void *more;
  if (need <= *room) return block;
  more = G1W_REALLOC(block, most * size);
  if (!more) {
    g1w_fails(w, G1W_MEMORY);
    return block;
  }
  *room = most;
  return more;
}

/* The block with exactly so many elements, at least one. */
static inline void *g1w_exactly(g1_writer *w, void *block, size_t count, size_t size) {
  void *more = G1W_REALLOC(block, (count ? count : 1) * size);
  if (more) return more;
  g1w_fails(w, G1W_MEMORY);
  return block;
}

/* Whether so many regions more are within the limits. */
static inline int g1w_fits(const g1_writer *w, size_t more) {
  size_t all = w->regions + w->run_regions + more;
  return all <= G1W_MOST_REGIONS && (uint64_t)all * w->region_words <= G1W_MOST_WORDS;
}

/* The next root: a pointer, or 0. */
static inline int g1w_root(g1_writer *w, uint64_t pointer) {
  if (w->is_ended) return g1w_fails(w, G1W_ENDED);
  if (w->fault) return w->fault;
  if (w->root_count == G1W_MOST_ROOTS) return g1w_fails(w, G1W_ROOTS);
  w->roots = (uint64_t *)g1w_more(w, w->roots, &w->root_room, w->root_count + 1, sizeof *w->roots);
  if (!w->fault) w->roots[w->root_count++] = pointer;
  return w->fault;
}

/* Lays an object behind the others, with its pointer in the place of its header. */
static inline int g1w_lay(g1_writer *w, g1w_part *part, size_t size, const uint64_t *slots, size_t count, const void *data,
                          size_t bytes) {
  uint64_t *words;
  part->words = (uint64_t *)g1w_more(w, part->words, &part->room, part->count + size, 8);
  part->others = (uint64_t *)g1w_more(w, part->others, &part->others_room, part->objects + 1, 8);
  if (w->fault) return w->fault;
  words = part->words + part->count;
  words[0] = w->pointer;
  if (count) memcpy(words + 1, slots, count * 8);
  if (bytes) {
    words[size - 1] = 0;
    memcpy(words + 1 + count, data, bytes);
  }
  part->count += size;
  part->others[part->objects++] = (uint64_t)size << 32 | count;
  return G1W_GOOD;
}

/* An object: its pointer, then its reference slots, which are pointers or 0, then its data, byte by byte, with zeros
   to fill the last word. Two objects whose data differ in length alone, within one word and by zeros, look
   the same: if the length matters, put it into the data. */
static inline int g1w_object(g1_writer *w, uint64_t pointer, const uint64_t *slots, size_t count, const void *data,
                             size_t bytes) {
  const size_t width = w->region_words;
  size_t size, regions = 0;
  if (w->is_ended) return g1w_fails(w, G1W_ENDED);
  if (w->fault) return w->fault;
  if (!pointer) return g1w_fails(w, G1W_NULL_OBJECT);
  w->pointer = pointer;
  if (count >= G1W_MOST_WORDS || bytes >= 8 * (size_t)G1W_MOST_WORDS) return g1w_fails(w, G1W_WORDS);
  size = 1 + count + (bytes + 7) / 8;
  if (4 * size > 3 * width) {
    regions = (size + width - 1) / width;
    if (!g1w_fits(w, regions)) return g1w_fails(w, G1W_WORDS);
    w->run_regions += (uint32_t)regions;
    return g1w_lay(w, &w->large, size, slots, count, data, bytes);
  }
  if (!w->regions || w->tops[w->regions - 1] + size > width) {
    if (!g1w_fits(w, 1)) return g1w_fails(w, G1W_WORDS);
    w->tops = (uint32_t *)g1w_more(w, w->tops, &w->tops_room, w->regions + (size_t)1, sizeof *w->tops);
    if (w->fault) return w->fault;
    w->tops[w->regions++] = 0;
  }
  w->tops[w->regions - 1] += (uint32_t)size;
  return g1w_lay(w, &w->small, size, slots, count, data, bytes);
}

/* Puts the runs behind the ordinary regions, and room for all that comes before the words in front of them. */
static inline int g1w_join(g1_writer *w, uint32_t regions) {
  g1w_part *all = &w->small, *large = &w->large;
  size_t first = all->objects;
  w->front = 4 + 2 * (size_t)regions + w->root_count;
  all->words = (uint64_t *)g1w_exactly(w, all->words, w->front + all->count + large->count, 8);
  all->others = (uint64_t *)g1w_exactly(w, all->others, first + large->objects, 8);
  if (w->fault) return w->fault;
  memmove(all->words + w->front, all->words, all->count * 8);
  if (large->objects) {
    memcpy(all->words + w->front + all->count, large->words, large->count * 8);
    memcpy(all->others + first, large->others, large->objects * 8);
  }
  G1W_FREE(large->words);
  G1W_FREE(large->others);
  large->words = large->others = NULL;
  all->count += large->count;
  all->objects += large->objects;
  return G1W_GOOD;
}

/* Which words and objects each region has: first the ordinary regions, then the runs. */
static inline int g1w_tabulate(g1_writer *w, uint32_t regions) {
  size_t first = w->small.objects - w->large.objects;
  uint32_t r, start = 0, object = 0;
  w->table = (g1w_region *)g1w_exactly(w, NULL, regions + (size_t)1, sizeof *w->table);
  if (w->fault) return w->fault;
  memset(w->table, 0, (regions + (size_t)1) * sizeof *w->table);
  for (r = 0; r < w->regions; r++) {
    uint32_t at = start, end = start + w->tops[r];
    g1w_region region = {1, w->tops[r], start, object};
    w->table[r] = region;
    for (; at < end; at += (uint32_t)(w->small.others[object++] >> 32)) {
    }
    start = end;
  }
  for (; first < w->small.objects; first++) {
    uint32_t left = (uint32_t)(w->small.others[first] >> 32), kind = 2;
    for (; left; r++, kind = 3) {
      uint32_t top = left < w->region_words ? left : w->region_words;
      g1w_region region = {kind, top, start, (uint32_t)first};
      w->table[r] = region;
      start += top;
      left -= top;
    }
  }
  w->table[r].start = start;
  return G1W_GOOD;
}

/* The address of the object whose words begin there among all words. The region goes along from object to object. */
static inline uint64_t g1w_address(const g1_writer *w, uint64_t start, uint32_t *region) {
  while (w->table[*region + 1].start <= start) ++*region;
  return (uint64_t)*region * w->region_words + (start - w->table[*region].start);
}

/* The word at an address that is in use. */
static inline uint64_t *g1w_place(const g1_writer *w, uint64_t address) {
  return w->small.words + w->front + w->table[address >> w->shift].start + (address & (w->region_words - 1));
}

/* The search for a pointer: the place where it is now, and the bits that its entry has beside the address, three or more
   of them. They spare most looks at the words of other objects. */
typedef struct g1w_search {
  uint64_t at;
  uint32_t mark;
} g1w_search;

static inline g1w_search g1w_begin_search(const g1_writer *w, uint64_t pointer) {
  uint64_t hash = pointer * 0x9E3779B97F4A7C15u;
  g1w_search search = {(hash >> 32) * w->place_count >> 32, (uint32_t)(hash >> 3) << w->address_bits};
  return search;
}

/* Goes on to the pointer's entry, and returns 1 more than the address there; or to the first empty place, and returns 0. */
static inline uint64_t g1w_find(const g1_writer *w, g1w_search *search, uint64_t pointer) {
  for (;; search->at = search->at + 1 == w->place_count ? 0 : search->at + 1) {
    uint32_t entry = w->places[search->at], address = entry & ((1u << w->address_bits) - 1);
    if (!entry) return 0;
    if ((entry ^ search->mark) >> w->address_bits == 0 && *g1w_place(w, address - 1) == pointer) return address;
  }
}

/* Enters an object; a pointer that is there already is a fault. */
static inline int g1w_enter(g1_writer *w, uint64_t pointer, uint64_t address) {
  g1w_search search = g1w_begin_search(w, pointer);
  if (g1w_find(w, &search, pointer)) {
    w->pointer = pointer;
    return g1w_fails(w, G1W_TWICE);
  }
  w->places[search.at] = search.mark | ((uint32_t)address + 1);
  return G1W_GOOD;
}

/* 1 more than the address of a pointer's object, or 0. */
static inline uint64_t g1w_lookup(const g1_writer *w, uint64_t pointer) {
  g1w_search search = g1w_begin_search(w, pointer);
  return g1w_find(w, &search, pointer);
}

/* The least stale word: it leads behind the heap, where no object begins. */
static inline uint64_t g1w_first_stale(const g1_writer *w) {
  const uint64_t regions = w->regions + w->run_regions;
  return (regions ? regions : 1) * w->region_words + 1;
}

/* Keeps a pointer that is no object's, and returns a word of its own for it. */
static inline uint64_t g1w_stray(g1_writer *w, uint64_t pointer) {
  w->strays = (uint64_t *)g1w_more(w, w->strays, &w->strays_room, (size_t)w->stale + 1, sizeof *w->strays);
  if (w->fault) return 0;
  w->strays[w->stale] = pointer;
  return g1w_first_stale(w) + w->stale++;
}

/* The reference word for a pointer that a slot or a root holds. */
static inline uint64_t g1w_reference(g1_writer *w, uint64_t pointer, uint64_t holder, uint64_t slot) {
  uint64_t word = pointer ? g1w_lookup(w, pointer) : 0;
  if (word || !pointer) return word;
  if (w->keeps_stale) return g1w_stray(w, pointer);
  if (!w->fault) {
    w->pointer = pointer;
    w->holder = holder;
    w->slot = slot;
  }
  g1w_fails(w, G1W_NOTHING);
  return 0;
}

/* Enters all objects by their pointers. */
static inline int g1w_enter_all(g1_writer *w) {
  const size_t count = w->small.objects;
  uint64_t start = 0;
  uint32_t region = 0;
  size_t i;
  w->place_count = count + count / 2 + 1;
  for (w->address_bits = 1; ((uint64_t)w->regions + w->run_regions) * w->region_words >> w->address_bits;) w->address_bits++;
  w->places = (uint32_t *)g1w_exactly(w, NULL, w->place_count, sizeof *w->places);
  if (w->fault) return w->fault;
  memset(w->places, 0, w->place_count * sizeof *w->places);
  for (i = 0; i < count && !w->fault; start += w->small.others[i++] >> 32)
    g1w_enter(w, w->small.words[w->front + start], g1w_address(w, start, &region));
  return w->fault;
}

/* Makes reference words of all pointers in slots and roots. */
static inline int g1w_refer_all(g1_writer *w) {
  uint64_t *words = w->small.words + w->front;
  size_t i, slot;
  for (i = 0; i < w->root_count; i++) w->roots[i] = g1w_reference(w, w->roots[i], 0, i);
  for (i = 0; i < w->small.objects && !w->fault; words += w->small.others[i++] >> 32)
    for (slot = 0; slot < (uint32_t)w->small.others[i]; slot++) words[1 + slot] = g1w_reference(w, words[1 + slot], words[0], slot);
  return w->fault;
}

/* Lets each header and its object's pointer change places. */
static inline void g1w_exchange(g1_writer *w) {
  uint64_t *words = w->small.words + w->front;
  size_t i;
  for (i = 0; i < w->small.objects; i++) {
    uint64_t header = w->small.others[i];
    w->small.others[i] = words[0];
    words[0] = header;
    words += header >> 32;
  }
}

static inline uint8_t *g1w_put(uint8_t *out, const void *number, size_t size) {
  memcpy(out, number, size);
  return out + size;
}

/* What comes before the words: cards as large as may be, no dirty ones, no current region, empty remembered sets. */
static inline void g1w_put_front(g1_writer *w, uint32_t regions) {
  uint8_t *out = (uint8_t *)w->small.words;
  const uint32_t zero = 0, roots = (uint32_t)w->root_count;
  uint32_t heading[6] = {w->region_words, w->region_words < 64 ? w->region_words : 64, regions, roots, 0, regions}, r;
  out = g1w_put(out, "G1IMAGE2", 8);
  out = g1w_put(out, heading, sizeof heading);
  for (r = 0; r < regions; r++) {
    out = g1w_put(out, &w->table[r].kind, 4);
    out = g1w_put(out, &w->table[r].top, 4);
    out = g1w_put(out, &zero, 4);
  }
  if (roots) out = g1w_put(out, w->roots, 8 * (size_t)roots);
  memset(out, 0, 4 * (size_t)regions);
}

/* After the end: the bytes of the image, and how many there are. */
static inline const uint8_t *g1w_bytes(const g1_writer *w) { return w->is_ended ? (const uint8_t *)w->small.words : NULL; }
static inline size_t g1w_length(const g1_writer *w) { return w->is_ended ? 8 * (w->front + w->small.count) : 0; }

/* Ends the image: all pointers are made references, and the bytes are those of the image. They stay until g1w_free. */
static inline int g1w_end(g1_writer *w, const uint8_t **bytes, size_t *length) {
  uint32_t regions = w->regions + w->run_regions;
  *bytes = NULL;
  *length = 0;
  if (w->is_ended) return g1w_fails(w, G1W_ENDED);
  if (!regions) regions = 1; /* an image has a region, if only a free one */
  if (w->fault || g1w_join(w, regions) || g1w_tabulate(w, regions) || g1w_enter_all(w) || g1w_refer_all(w)) return w->fault;
  G1W_FREE(w->places);
  w->places = NULL;
  g1w_exchange(w);
  g1w_put_front(w, regions);
  w->is_ended = 1;
  w->pointer = w->holder = w->slot = 0;
  *bytes = g1w_bytes(w);
  *length = g1w_length(w);
  return G1W_GOOD;
}

/* After the end: the pointer of the object that the word at an address belongs to, and which of its words that is: 0 its
   header, then its slots from 1 on, then its data. 0 if no object has the address. */
static inline uint64_t g1w_at(const g1_writer *w, uint64_t address, uint64_t *word) {
  uint32_t object, r = (uint32_t)(address >> w->shift);
  uint64_t at = (uint64_t)r * w->region_words;
  *word = 0;
  if (!w->is_ended || address >= (uint64_t)(w->regions + w->run_regions) * w->region_words) return 0;
  if (address - at >= w->table[r].top) return 0;
  while (w->table[r].kind == 3) at = (uint64_t)--r * w->region_words;
  for (object = w->table[r].first; address - at >= *g1w_place(w, at) >> 32; object++) at += *g1w_place(w, at) >> 32;
  *word = address - at;
  return w->small.others[object];
}

/* After the end: the pointer of the object that a reference word references, as `before` and `after` of an answer do; 0
   for null and for a word that references none, such as `after` of G1_STALE. */
static inline uint64_t g1w_named(const g1_writer *w, uint64_t reference) {
  uint64_t word, pointer = reference ? g1w_at(w, reference - 1, &word) : 0;
  return pointer && !word ? pointer : 0;
}

/* After the end: the pointer that a stale word was written for, as `after` of G1_STALE; 0 if the word is none. */
static inline uint64_t g1w_stale(const g1_writer *w, uint64_t word) {
  const uint64_t first = g1w_first_stale(w);
  return w->is_ended && word >= first && word - first < w->stale ? w->strays[word - first] : 0;
}

/* After the end: the reference word that a root holds, and the one that a slot of the object that a word references
   holds; 0 if there is no such root or slot. So a path is followed. */
static inline uint64_t g1w_root_word(const g1_writer *w, uint64_t root) {
  return w->is_ended && root < w->root_count ? w->roots[root] : 0;
}

static inline uint64_t g1w_slot_word(const g1_writer *w, uint64_t reference, uint64_t slot) {
  if (!g1w_named(w, reference) || slot >= (uint32_t)*g1w_place(w, reference - 1)) return 0;
  return *g1w_place(w, reference + slot);
}

typedef struct g1w_step {
  uint32_t address, from, slot;
} g1w_step;

/* Notes the object that a word references, if no earlier step did. */
static inline void g1w_note(const g1_writer *w, uint8_t *seen, g1w_step *steps, size_t *count, uint64_t word, uint32_t from,
                            uint32_t slot) {
  uint64_t at = word - 1;
  g1w_step step = {(uint32_t)at, from, slot};
  if (!g1w_named(w, word) || seen[at >> 3] >> (at & 7) & 1) return;
  seen[at >> 3] |= (uint8_t)(1 << (at & 7));
  steps[(*count)++] = step;
}

/* After the end: the shortest path from a root to the object that the word at an address belongs to. path[0 .. room) gets
   its slots as far as there is room, *length how many there are. 0 if no root reaches it, or if memory was refused. It
   serves for a fault, whose answer has no path. */
static inline int g1w_path(const g1_writer *w, uint64_t address, uint64_t *root, uint64_t *path, size_t room, size_t *length) {
  uint64_t word, wanted = g1w_at(w, address, &word) ? address - word : ~(uint64_t)0;
  uint8_t *seen = (uint8_t *)G1W_REALLOC(NULL, (size_t)(w->regions + w->run_regions) * w->region_words / 8 + 1);
  g1w_step *steps = (g1w_step *)G1W_REALLOC(NULL, (w->small.objects + 1) * sizeof *steps);
  size_t count = 0, i, n = 0;
  int found = 0;
  if (seen && steps && w->is_ended) {
    memset(seen, 0, (size_t)(w->regions + w->run_regions) * w->region_words / 8 + 1);
    for (i = 0; i < w->root_count; i++) g1w_note(w, seen, steps, &count, w->roots[i], 0, (uint32_t)i);
    for (i = 0; i < count && steps[i].address != wanted; i++) {
      uint64_t *at = g1w_place(w, steps[i].address);
      uint32_t slot, slots = (uint32_t)*at;
      for (slot = 0; slot < slots; slot++) g1w_note(w, seen, steps, &count, at[1 + slot], (uint32_t)i + 1, slot);
    }
    found = i < count;
  }
  if (found) {
    g1w_step step;
    size_t left;
    for (step = steps[i]; step.from; step = steps[step.from - 1]) n++;
    *root = step.slot;
    *length = left = n;
    for (step = steps[i]; step.from; step = steps[step.from - 1])
      if (--left < room) path[left] = step.slot;
  }
  G1W_FREE(seen);
  G1W_FREE(steps);
  return found;
}

#endif
