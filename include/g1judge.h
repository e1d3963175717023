/* g1judge.h: the judge of heap images, for a program that has the images in its own memory. C99 and C++.
   Link libg1judge.a; docs/LINK.md says how it is made and what is proved of it.

   An image is the bytes of docs/IMAGE.md, of version 1 or 2; g1image.h writes one of any heap.

   Every call
   - takes the bytes of an image by their address and their length, reads them, and keeps nothing of them;
   - writes its answer into *answer whole, whatever it returns, and returns a status;
   - starts no thread, opens no file, and keeps nothing for the next call: calls of several threads may overlap;
   - asks for memory by malloc and realloc, or by what g1_set_memory was given, and has freed all of it when it returns.

   The caller's part
   - What a pointer is given for has that length, is aligned for its type, and no thread changes it during the call.
   - What is written, *answer and path, overlaps nothing else that the call is given.
   - A pointer may be NULL if its length is 0 (this is tested; the proofs ask for a pointer).
   - No call is made from a signal handler, nor in the forked child of a process with several threads. */
#ifndef G1JUDGE_H
#define G1JUDGE_H

#include <stddef.h>
#include <stdint.h>

#ifdef __cplusplus
extern "C" {
#endif

/* The version of this header. A program compares it with g1_version() before its first call. A new field or another
   meaning is a new version. */
#define G1_VERSION 2u

/* What a call returns: the statuses of g1heap and g1pause. */
#define G1_GOOD 0u      /* it is so */
#define G1_DIFFER 1u    /* the images show two graphs, or the second has a stale word or does not keep something */
#define G1_NO_IMAGE 3u  /* bytes that are no image's: a fault */
#define G1_UNCOVERED 4u /* a slot that is not covered */
#define G1_NO_SET 5u    /* a set of regions that the first image does not allow: a fault */
#define G1_MEMORY 6u    /* a request for memory was refused; nothing else is known */

/* answer.kind: how two images differ, with the numbers of each kind in first, second, third. `before` and `after` are
   the reference words that the path leads to; an object is said by its address, and that is 1 less than the reference
   word. Of G1_STALE `after` is the stale word: it is not null and references no object, as the word of a slot that was not
   updated. All addresses count words of 8 bytes from the start of the image's heap. */
#define G1_ROOTS 1u       /* how many roots before, after; there is no path */
#define G1_NULL_BEFORE 2u /* null before, an object after */
#define G1_NULL_AFTER 3u  /* an object before, null after */
#define G1_SPLIT 4u       /* an object before is two after: the object before, the one after on an earlier path, this one */
#define G1_JOINED 5u      /* two objects before are one after: the one before on an earlier path, this one, the object after */
#define G1_SIZE 6u        /* words before, after */
#define G1_SLOTS 7u       /* slots before, after */
#define G1_DATA 8u        /* which data word, from 0; its value before, after */
#define G1_STALE 20u      /* a stale word after; it has no other numbers */

/* answer.kind of g1_kept: what the second image does not keep, with its numbers in first, second, third. An object is said
   by its two addresses, before and after: the two are one object, or the second was found as the copy of the first. */
#define G1_LOST_SIZES 9u     /* the sizes of the heap: words a region, words a card, regions */
#define G1_LOST_ROOTS 10u    /* the number of roots */
#define G1_LOST_SET 11u      /* the region of the set with this number is not free */
#define G1_LOST_REGION 12u   /* the region outside the set with this number has another kind or top */
#define G1_LOST_UNPINNED 13u /* this one was pinned, and is not */
#define G1_LOST_PINNED 14u   /* this one was not pinned, and is */
#define G1_LOST_ROOT 15u     /* the root with this number references another object, or none */
#define G1_LOST_COPY 16u     /* object before, after: the second is in a region that was not free */
#define G1_LOST_HEADER 17u   /* object before, after: another size or number of slots */
#define G1_LOST_DATA 18u     /* object before, after; the data word, from 0, that has another value */
#define G1_LOST_SLOT 19u     /* object before, after; the slot, from 0, that references another object, or none */

/* answer.place: what a fault says of `at` */
#define G1_NOWHERE 0u
#define G1_REGION 1u /* the number of a region */
#define G1_ROOT 2u   /* the number of a root, from 0 */
#define G1_SLOT 3u   /* the address of a slot */
#define G1_LOG 4u    /* a place of the log of dirty cards, from 0 */

typedef struct g1_answer {
  uint32_t image;   /* whose fault it is: 1 the first image's, 2 the second's, 0 neither's */
  uint32_t fault;   /* its number in docs/IMAGE.md; 9 uncovered; 10 set; 13 memory; 0 none */
  uint32_t place;   /* G1_NOWHERE .. G1_LOG */
  uint32_t kind;    /* G1_ROOTS .. G1_DATA, G1_STALE, of g1_kept G1_LOST_SIZES .. G1_LOST_SLOT, or 0 */
  uint64_t at;
  uint64_t root;    /* the path to a difference: this root, */
  uint64_t slots;   /* and so many slots, however many the caller's buffer holds */
  uint64_t before;
  uint64_t after;
  uint64_t first;
  uint64_t second;
  uint64_t third;
  uint64_t objects; /* G1_GOOD of g1_same: how many objects the roots reach, */
  uint64_t words;   /* and how many words these have, headers too */
} g1_answer;      /* what a call does not say is 0 */

#ifdef __cplusplus
static_assert(sizeof(g1_answer) == 96, "g1_answer has 96 bytes");
static_assert(offsetof(g1_answer, at) == 16, "g1_answer has no gaps");
static_assert(offsetof(g1_answer, words) == 88, "g1_answer has no gaps");
static_assert(sizeof(size_t) == 8, "lengths have 64 bits");
#elif defined(__STDC_VERSION__) && __STDC_VERSION__ >= 201112L
_Static_assert(sizeof(g1_answer) == 96, "g1_answer has 96 bytes");
_Static_assert(offsetof(g1_answer, at) == 16, "g1_answer has no gaps");
_Static_assert(offsetof(g1_answer, words) == 88, "g1_answer has no gaps");
_Static_assert(sizeof(size_t) == 8, "lengths have 64 bits");
#endif

/* The version of the archive. */
uint32_t g1_version(void);

/* Do two images show one graph from their roots? Regions, addresses, cards, remembered sets and dead objects do not count.
   G1_GOOD: they do; objects and words say how much is reached.
   G1_DIFFER: they do not. The answer is the first difference: of all paths from a root that lead to one, the shortest,
     and of those the one with the lowest numbers. path[0 .. path_length) gets its slots, counted from 0, as far as there
     is room; the path is whole if answer->slots <= path_length. The rest of the buffer stays as it is.
     A stale word of the second image is a difference, too, if a path leads to it and the second bytes have no other
     fault. A stale word in an object that no root reaches does not count if there is another difference.
   G1_NO_IMAGE: a fault of the first bytes, else of the second. A stale word of the first image is one, and so is one of
     the second if nothing differs, or if the second bytes have another fault, too.
   G1_MEMORY.
   It takes time in the length of both images, and memory of 4 bytes for each word of both heaps, and 24 for each reached
   object, beside the heaps themselves, and 16 for each stale word. 2^28 words are the most that a heap can have. */
uint32_t g1_same(const uint8_t *before, size_t before_length, const uint8_t *after, size_t after_length, uint64_t *path,
                 size_t path_length, g1_answer *answer);

/* Are the bytes an image? A stale word is a fault here, as it is to all calls below. G1_GOOD, G1_NO_IMAGE, G1_MEMORY. It takes time in their length, and memory for the heap. */
uint32_t g1_image(const uint8_t *bytes, size_t length, g1_answer *answer);

/* Are they an image, and is each slot that leads into another region covered, by that region's remembered set or by the
   log? G1_GOOD, G1_NO_IMAGE, G1_MEMORY, or G1_UNCOVERED with fault 9, and `at` the lowest address of such a slot.
   It takes time and memory as g1_image does. */
uint32_t g1_covered(const uint8_t *bytes, size_t length, g1_answer *answer);

/* Why are the bytes no image, or which slot is not covered? What g1_covered returns, with its answer; and the rule that they
   break, with the place, the card or the word that breaks it: one sentence in ASCII, which g1heap has behind the fault.
   rule[0 .. room) gets it as far as there is room, with no 0 behind it, and the rest stays as it is. *rule_length says how
   long it is: 0 if no rule is broken. It takes time and memory as g1_image does. */
uint32_t g1_broken(const uint8_t *bytes, size_t length, uint8_t *rule, size_t room, uint64_t *rule_length, g1_answer *answer);

/* Does the second image keep what a pause keeps that takes these regions of the first? The regions of the set are free in
   it. Every other object is at its old address with its data words, even if no root leads to it; the exceptions are
   humongous objects whose regions are free, too. What led into the set leads to one copy of each object, in a region that
   was free. Where regions were free, other objects may be, too. Images of heaps with other regions, such as those that
   g1image.h lays out, have nothing in common that this call could find.
   set[0 .. set_length) are numbers of regions of the first image, in any order: each ordinary, not pinned, and once.
   G1_GOOD: it keeps it. Then g1_same finds the images the same, too.
   G1_DIFFER: it does not. The kind and its numbers say what is lost; of several losses, which one docs/COMPARE.md says.
   G1_NO_IMAGE: a fault of the first bytes, else of the second.
   G1_NO_SET: fault 10, and `at` the first region of the set that is not there, not ordinary, pinned, or given before.
   G1_MEMORY.
   It takes time in the length of both images, and memory of 4 bytes for each word of both heaps, and 16 for each copy,
   beside the heaps themselves. */
uint32_t g1_kept(const uint8_t *before, size_t before_length, const uint8_t *after, size_t after_length, const uint32_t *set,
                 size_t set_length, g1_answer *answer);

/* Where the calls get their memory. get and resize return NULL if there is none, and else a block that is aligned to 16
   bytes; resize keeps the content, and if it fails the block stays as it was; release takes what they returned. All three are given
   `context`. They are called by whichever thread made the call, so they have to bear several at once if calls overlap. */
typedef struct g1_memory {
  void *(*get)(void *context, size_t size);
  void *(*resize)(void *context, void *block, size_t size);
  void (*release)(void *context, void *block);
  void *context;
} g1_memory;

/* Has all later calls get their memory there; with NULL, from malloc, as at the start. *memory is copied. No other call
   may run meanwhile. This is all that the library keeps. */
void g1_set_memory(const g1_memory *memory);

#ifdef __cplusplus
}
#endif
#endif
