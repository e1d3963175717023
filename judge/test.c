/* What tools/test_judge.py runs: the calls of the archive and of the writer, one command each. Its lines are for that
   script. */
#define G1W_REALLOC(block, size) counted_realloc(block, size)
#define G1W_FREE(block) counted_free(block)
#include <stddef.h>
static void *counted_realloc(void *block, size_t size);
static void counted_free(void *block);
#include "g1image.h"
#include "g1judge.h"
#include "g1report.h"

#include <pthread.h>
#include <stdio.h>
#include <time.h>

enum { PATH = 4096 };

/* ---- memory that counts what is in use, and refuses a request */

typedef struct counter {
  long requests, refused, used, most;
  long refuse_at, refuse_from; /* the request to refuse, and the one from which on all are; -1 none */
  size_t bytes, most_bytes;
} counter;

static counter of_writer = {0, 0, 0, 0, -1, -1, 0, 0}, of_judge = {0, 0, 0, 0, -1, -1, 0, 0};

static int refuses(counter *c) {
  long n = c->requests++;
  int no = n == c->refuse_at || (c->refuse_from >= 0 && n >= c->refuse_from);
  c->refused += no;
  return no;
}

static void *change(counter *c, void *block, size_t size) {
  size_t *old = block ? (size_t *)block - 2 : NULL, had = old ? *old : 0, *new;
  if (refuses(c)) return NULL;
  new = realloc(old, size + 16);
  if (!new) return NULL;
  *new = size;
  c->bytes += size - had;
  c->used += !old;
  if (c->bytes > c->most_bytes) c->most_bytes = c->bytes;
  return new + 2;
}

static void drop(counter *c, void *block) {
  size_t *old = block ? (size_t *)block - 2 : NULL;
  if (!old) return;
  c->bytes -= *old;
  c->used--;
  free(old);
}

static void *counted_realloc(void *block, size_t size) { return change(&of_writer, block, size); }
static void counted_free(void *block) { drop(&of_writer, block); }
static void *judge_get(void *c, size_t size) { return change(c, NULL, size); }
static void *judge_resize(void *c, void *block, size_t size) { return change(c, block, size); }
static void judge_release(void *c, void *block) { drop(c, block); }

/* ---- files and lines */

typedef struct file {
  uint8_t *bytes;
  size_t length;
} file;

/* The file in a block of its own size, so that a read past its end is seen. */
static file read_file(const char *name) {
  file f = {NULL, 0};
  FILE *in = fopen(name, "rb");
  if (!in || fseek(in, 0, SEEK_END)) exit(7);
  f.length = (size_t)ftell(in);
  rewind(in);
  f.bytes = malloc(f.length ? f.length : 1);
  if (!f.bytes || fread(f.bytes, 1, f.length, in) != f.length) exit(6);
  fclose(in);
  return f;
}

static void print_answer(uint32_t status, const g1_answer *a, const uint64_t *path, size_t room) {
  const uint64_t numbers[] = {a->image, a->fault, a->place, a->kind,   a->at,    a->root,    a->slots,
                              a->before, a->after, a->first, a->second, a->third, a->objects, a->words};
  printf("%u", status);
  for (size_t i = 0; i < sizeof numbers / sizeof *numbers; i++) printf(" %llu", (unsigned long long)numbers[i]);
  for (size_t i = 0; i < a->slots && i < room; i++) printf(" %llu", (unsigned long long)path[i]);
  printf("\n");
}

static const uint64_t MARK = 0xabababababababab;

/* One call with so much room for the path, in a block of that size; the rest of the room has to stay as it was. */
static uint32_t same(file a, file b, size_t room, g1_answer *answer, uint64_t *path) {
  uint64_t *given = malloc(room ? room * 8 : 1);
  uint32_t status;
  if (!given) exit(6);
  for (size_t i = 0; i < room; i++) given[i] = MARK;
  memset(answer, 0xcd, sizeof *answer);
  status = g1_same(a.bytes, a.length, b.bytes, b.length, given, room, answer);
  for (size_t i = answer->slots; i < room; i++)
    if (given[i] != MARK) printf("path written behind its end\n");
  for (size_t i = 0; i < room && i < answer->slots; i++) path[i] = given[i];
  free(given);
  return status;
}

/* One pair, with room for the path, and the same with too little. */
static void pair(const char *before, const char *after) {
  static uint64_t path[PATH], few[PATH];
  file a = read_file(before), b = read_file(after);
  g1_answer answer, again;
  uint32_t status = same(a, b, PATH, &answer, path);
  const size_t rooms[] = {0, 1, answer.slots ? answer.slots - 1 : 0, answer.slots};
  print_answer(status, &answer, path, PATH);
  for (int k = 0; k < 4; k++) {
    uint32_t other = same(a, b, rooms[k], &again, few);
    size_t there = rooms[k] < answer.slots ? rooms[k] : answer.slots;
    if (other != status || memcmp(&again, &answer, sizeof answer)) printf("another answer with room for %zu\n", rooms[k]);
    if (memcmp(few, path, there * 8)) printf("another path with room for %zu\n", rooms[k]);
  }
  free(a.bytes);
  free(b.bytes);
}

/* all FILE ..: each pair. pairs: the pairs that standard input names, two names a line. */
static void all(int count, char **names) {
  for (int i = 0; i < count; i++)
    for (int j = 0; j < count; j++) pair(names[i], names[j]);
}

static void pairs(void) {
  char before[400], after[400];
  while (scanf("%399s %399s", before, after) == 2) pair(before, after);
}

/* each FILE ..: g1_image and g1_covered. */
static void each(int count, char **names) {
  for (int i = 0; i < count; i++) {
    file f = read_file(names[i]);
    g1_answer answer;
    uint32_t status;
    memset(&answer, 0xcd, sizeof answer);
    status = g1_image(f.bytes, f.length, &answer);
    print_answer(status, &answer, NULL, 0);
    memset(&answer, 0xcd, sizeof answer);
    status = g1_covered(f.bytes, f.length, &answer);
    print_answer(status, &answer, NULL, 0);
    free(f.bytes);
  }
}

/* broken FILE ..: g1_broken with room for the rule, and with too little; the rule on a line behind the answer. */
static void broken(int count, char **names) {
  for (int i = 0; i < count; i++) {
    static uint8_t whole[1000];
    file f = read_file(names[i]);
    g1_answer answer, again;
    uint64_t length, other;
    uint32_t status;
    memset(&answer, 0xcd, sizeof answer);
    status = g1_broken(f.bytes, f.length, whole, sizeof whole, &length, &answer);
    print_answer(status, &answer, NULL, 0);
    printf("%.*s\n", (int)length, (char *)whole);
    for (size_t room = 0; room <= length + 1; room += room < length ? length : 1) {
      uint8_t *rule = malloc(room + 1);
      const size_t there = room < length ? room : length;
      if (!rule) exit(6);
      memset(rule, 0xab, room + 1);
      if (g1_broken(f.bytes, f.length, rule, room, &other, &again) != status || other != length) printf("another rule\n");
      if (memcmp(rule, whole, there) || rule[there] != 0xab || memcmp(&again, &answer, sizeof answer)) printf("another text\n");
      free(rule);
    }
    free(f.bytes);
  }
}

/* null FILE: no bytes at all, and no room for the path, by NULL. */
static void null(const char *name) {
  file f = read_file(name), none = {NULL, 0};
  g1_answer answer;
  print_answer(g1_same(none.bytes, 0, none.bytes, 0, NULL, 0, &answer), &answer, NULL, 0);
  print_answer(g1_same(f.bytes, f.length, none.bytes, 0, NULL, 0, &answer), &answer, NULL, 0);
  print_answer(g1_same(none.bytes, 0, f.bytes, f.length, NULL, 0, &answer), &answer, NULL, 0);
  print_answer(g1_same(f.bytes, f.length, f.bytes, f.length, NULL, 0, &answer), &answer, NULL, 0);
  print_answer(g1_image(none.bytes, 0, &answer), &answer, NULL, 0);
  print_answer(g1_covered(none.bytes, 0, &answer), &answer, NULL, 0);
  print_answer(g1_kept(none.bytes, 0, none.bytes, 0, NULL, 0, &answer), &answer, NULL, 0);
  print_answer(g1_kept(f.bytes, f.length, f.bytes, f.length, NULL, 0, &answer), &answer, NULL, 0);
  free(f.bytes);
}

/* The regions of a set, as words on a line, in a block of their own size. */
static uint32_t *regions_of(char *words, size_t *count) {
  uint32_t *set = malloc((strlen(words) / 2 + 1) * sizeof *set);
  char *end;
  *count = 0;
  if (!set) exit(6);
  for (; *words && *words != '\n'; words = end) {
    set[*count] = (uint32_t)strtoul(words, &end, 10);
    if (end == words) break;
    ++*count;
  }
  return realloc(set, *count ? *count * sizeof *set : 1);
}

/* kept: the pairs and the sets that standard input gives, a line each: two names, and the regions of the set. A set of no
   region is asked twice, the second time by NULL. */
static void kept(void) {
  static char line[4096];
  while (fgets(line, sizeof line, stdin)) {
    char before[400], after[400];
    int used = 0;
    if (sscanf(line, "%399s %399s%n", before, after, &used) != 2) continue;
    size_t count;
    uint32_t *set = regions_of(line + used, &count);
    file a = read_file(before), b = read_file(after);
    g1_answer answer, again;
    memset(&answer, 0xcd, sizeof answer);
    memset(&again, 0xcd, sizeof again);
    uint32_t status = g1_kept(a.bytes, a.length, b.bytes, b.length, set, count, &answer);
    uint32_t other = g1_kept(a.bytes, a.length, b.bytes, b.length, count ? set : NULL, count, &again);
    print_answer(status, &answer, NULL, 0);
    if (other != status || memcmp(&again, &answer, sizeof answer)) printf("another answer to the same set\n");
    free(a.bytes);
    free(b.bytes);
    free(set);
  }
}

/* ---- threads */

typedef struct job {
  file a, b;
  long calls, wrong;
} job;

static void *run(void *given) {
  job *j = given;
  uint64_t path[16], first_path[16];
  g1_answer first, answer;
  uint32_t first_status = same(j->a, j->b, 16, &first, first_path);
  for (long i = 0; i < j->calls; i++) {
    uint32_t status = same(j->a, j->b, 16, &answer, path);
    size_t there = answer.slots < 16 ? answer.slots : 16;
    j->wrong += status != first_status || memcmp(&answer, &first, sizeof first) || memcmp(path, first_path, there * 8);
  }
  print_answer(first_status, &first, first_path, 16);
  return NULL;
}

/* threads CALLS A B A B A B A B: four threads, each on images of its own. */
static void threads(long calls, char **names) {
  job jobs[4];
  pthread_t ids[4];
  long wrong = 0;
  for (int i = 0; i < 4; i++) {
    job j = {read_file(names[2 * i]), read_file(names[2 * i + 1]), calls, 0};
    jobs[i] = j;
  }
  for (int i = 0; i < 4; i++) pthread_create(&ids[i], NULL, run, &jobs[i]);
  for (int i = 0; i < 4; i++) pthread_join(ids[i], NULL);
  for (int i = 0; i < 4; i++) {
    wrong += jobs[i].wrong;
    free(jobs[i].a.bytes);
    free(jobs[i].b.bytes);
  }
  printf("wrong %ld\n", wrong);
}

/* ---- requests for memory refused */

enum { CALLS = 5 };

static uint32_t call(int which, file a, file b, uint32_t region, g1_answer *answer) {
  uint64_t path[4];
  if (which == 0) return g1_same(a.bytes, a.length, b.bytes, b.length, path, 4, answer);
  if (which == 4) {
    uint8_t rule[4];
    return g1_broken(a.bytes, a.length, rule, 4, path, answer);
  }
  if (which == 3) return g1_kept(a.bytes, a.length, b.bytes, b.length, &region, 1, answer);
  return which == 1 ? g1_image(a.bytes, a.length, answer) : g1_covered(a.bytes, a.length, answer);
}

/* One call with a request refused, or all from one on. 1 if the answer is memory's, or if none was refused. */
static int is_memory(int which, file a, file b, uint32_t region, long at, long from) {
  g1_answer answer, blank;
  uint32_t status;
  memset(&blank, 0, sizeof blank);
  blank.fault = 13;
  of_judge.requests = of_judge.refused = 0;
  of_judge.refuse_at = at;
  of_judge.refuse_from = from;
  status = call(which, a, b, region, &answer);
  if (of_judge.used) printf("%ld blocks are left\n", of_judge.used);
  if (!of_judge.refused) return 1;
  /* a request that is asked again in a smaller size may be refused once and not matter */
  if (status != G1_MEMORY && from < 0) return status == G1_GOOD || status == G1_DIFFER || status == G1_UNCOVERED;
  return status == G1_MEMORY && !memcmp(&answer, &blank, sizeof blank);
}

/* refuse A B REGION: each request of each call; of g1_kept with a set of this region. */
static void refuse(const char *first, const char *second, uint32_t region) {
  file a = read_file(first), b = read_file(second);
  const g1_memory memory = {judge_get, judge_resize, judge_release, &of_judge};
  long tried = 0, wrong = 0, most[CALLS];
  g1_set_memory(&memory);
  for (int which = 0; which < CALLS; which++) {
    g1_answer answer;
    of_judge.requests = 0;
    of_judge.refuse_at = of_judge.refuse_from = -1;
    call(which, a, b, region, &answer);
    most[which] = of_judge.requests;
    for (long n = 0; n < most[which]; n++) {
      wrong += !is_memory(which, a, b, region, n, -1) + !is_memory(which, a, b, region, -1, n);
      tried += 2;
    }
  }
  g1_set_memory(NULL);
  printf("requests");
  for (int which = 0; which < CALLS; which++) printf(" %ld", most[which]);
  printf(" tried %ld wrong %ld\n", tried, wrong);
  free(a.bytes);
  free(b.bytes);
}

/* ---- the writer */

static uint64_t numbers[1 << 16];

/* Reads the lines of one image: `image W`, `stale`, `root P`, `object P SLOTS BYTES` and that many slots and words of data,
   until `end FILE`, the name of a file. 0 if there is none. */
static int show_one(FILE *in, g1_writer *w, char *name) {
  char word[16];
  size_t slots, size;
  unsigned long long n;
  memset(w, 0, sizeof *w);
  while (fscanf(in, "%15s", word) == 1) {
    if (!strcmp(word, "end")) return fscanf(in, "%399s", name) == 1;
    if (!strcmp(word, "stale")) g1w_keep_stale(w);
    if (!strcmp(word, "image") && fscanf(in, "%llu", &n) == 1) g1w_begin(w, (uint32_t)n);
    if (!strcmp(word, "root") && fscanf(in, "%llu", &n) == 1) g1w_root(w, n);
    if (!strcmp(word, "object") && fscanf(in, "%llu %zu %zu", &n, &slots, &size) == 3) {
      uint64_t pointer = n, *data;
      for (size_t i = 0; i < slots + (size + 7) / 8; i++) {
        if (fscanf(in, "%llu", &n) != 1) return 0;
        numbers[i] = n;
      }
      data = malloc(size ? size : 1); /* of its own size, so that a read past its end is seen */
      memcpy(data, numbers + slots, size);
      g1w_object(w, pointer, slots ? numbers : NULL, slots, size ? data : NULL, size);
      free(data);
    }
  }
  return 0;
}

/* Writes one image to its file, and prints its fault, or its length and the pointer at each object's address. */
static int write_one(FILE *in) {
  char name[400];
  g1_writer w;
  const uint8_t *bytes;
  size_t length;
  if (!show_one(in, &w, name)) return 0;
  if (g1w_end(&w, &bytes, &length)) {
    printf("fault %d pointer %llu holder %llu slot %llu\n", w.fault, (unsigned long long)w.pointer,
           (unsigned long long)w.holder, (unsigned long long)w.slot);
  } else {
    FILE *out = fopen(name, "wb");
    uint64_t heap = (uint64_t)(w.regions + w.run_regions) * w.region_words, within;
    if (!out || fwrite(bytes, 1, length, out) != length) exit(6);
    fclose(out);
    printf("length %zu stale %llu at", length, (unsigned long long)w.stale);
    for (uint64_t at = 0; at < heap; at++) {
      uint64_t pointer = g1w_at(&w, at, &within);
      if (pointer && !within) printf(" %llu %llu", (unsigned long long)at, (unsigned long long)pointer);
    }
    printf("\n");
  }
  fflush(stdout);
  g1w_free(&w);
  if (of_writer.used) printf("%ld blocks are left\n", of_writer.used);
  return 1;
}

/* ---- lines of answers */

/* Names that a map of `--names` can give, too: of even roots, and of what is at even addresses. */
static int name_of(void *context, int what, int image, uint64_t object, uint64_t number, char *text, size_t room) {
  const unsigned long long n = number;
  (void)context;
  if (what == G1R_ROOT) return number % 2 ? 0 : snprintf(text, room, "r%llu", n);
  if (image != 1 || object % 2) return 0;
  if (what == G1R_TYPE) return snprintf(text, room, "%s", object % 4 ? "T" : "T note");
  if (what == G1R_SLOT) return n < 2 ? snprintf(text, room, "s%llu", n) : snprintf(text, room, "a[%llu]", n - 2);
  return number ? 0 : snprintf(text, room, "d0");
}

/* The line as a file gets it, and in blocks of several sizes, in which it has to be cut as snprintf cuts. */
static void print_line(const g1_report *r, uint32_t status, const g1_answer *a, const uint64_t *path, size_t room) {
  static char whole[1 << 16];
  const size_t length = g1r_line(whole, sizeof whole, r, status, a, path, room);
  const size_t rooms[] = {0, 1, length / 2, length, length + 1};
  for (int k = 0; k < 5; k++) {
    char *some = malloc(rooms[k] ? rooms[k] : 1);
    const size_t there = rooms[k] ? (rooms[k] <= length ? rooms[k] - 1 : length) : 0;
    if (!some) exit(6);
    if (g1r_line(some, rooms[k], r, status, a, path, room) != length) printf("another length with room for %zu\n", rooms[k]);
    if (rooms[k] && (memcmp(some, whole, there) || some[there])) printf("another line with room for %zu\n", rooms[k]);
    free(some);
  }
  g1r_print(stdout, r, status, a, path, room);
}

/* lines HOW ROOM: the line of each pair that standard input gives, two names and a set; of g1_kept if there is a set. HOW is
   `plain`, or `named` for one with names. ROOM is that for the path. */
static void lines(const char *how, size_t room) {
  static char line[4096];
  static uint64_t path[PATH];
  while (fgets(line, sizeof line, stdin)) {
    char before[400], after[400];
    int used = 0;
    size_t count;
    if (sscanf(line, "%399s %399s%n", before, after, &used) != 2) continue;
    uint32_t *set = regions_of(line + used, &count);
    file a = read_file(before), b = read_file(after);
    g1_report report = g1r_of_images(a.bytes, a.length, b.bytes, b.length);
    g1_answer answer;
    uint32_t status;
    if (!strcmp(how, "named")) report.name = name_of;
    if (count) status = g1_kept(a.bytes, a.length, b.bytes, b.length, set, count, &answer);
    else status = g1r_same(&report, path, room, &answer);
    print_line(&report, status, &answer, path, room);
    free(a.bytes);
    free(b.bytes);
    free(set);
  }
}

/* told: the line of two images that are shown one after the other, in pointers. */
static int tell_one(FILE *in) {
  static uint64_t path[PATH];
  char name[400];
  g1_writer before, after;
  const uint8_t *bytes;
  size_t length;
  g1_answer answer;
  if (!show_one(in, &before, name) || !show_one(in, &after, name)) return 0;
  if (g1w_end(&before, &bytes, &length) || g1w_end(&after, &bytes, &length)) exit(6);
  g1_report report = g1r_of_writers(&before, &after);
  print_line(&report, g1r_same(&report, path, PATH, &answer), &answer, path, PATH);
  g1w_free(&before);
  g1w_free(&after);
  return 1;
}

/* A tree of so many objects of `words` words, two slots and data, or fewer slots in smaller ones. */
static int tree(g1_writer *w, uint64_t objects, uint32_t words, const uint8_t **bytes, size_t *length) {
  uint32_t slots = words > 2 ? 2 : words - 1, data = words - 1 - slots;
  uint64_t content[64] = {0};
  g1w_begin(w, 4096);
  g1w_root(w, 0x10000);
  for (uint64_t i = 0; i < objects; i++) {
    uint64_t to[2] = {2 * i + 1 < objects ? 0x10000 + 48 * (2 * i + 1) : 0, 2 * i + 2 < objects ? 0x10000 + 48 * (2 * i + 2) : 0};
    content[0] = i;
    g1w_object(w, 0x10000 + 48 * i, to, slots, content, 8 * (size_t)data);
  }
  return g1w_end(w, bytes, length);
}

static double seconds(void) { return (double)clock() / CLOCKS_PER_SEC; }

/* many OBJECTS WORDS: two images of so many objects, each the same, what they cost, and the judge. */
static void many(uint64_t objects, uint32_t words) {
  g1_writer w, v;
  const uint8_t *a, *b;
  size_t n, m, most;
  g1_answer answer;
  double start = seconds(), written, judged;
  of_writer.bytes = of_writer.most_bytes = 0;
  if (tree(&w, objects, words, &a, &n)) exit(6);
  written = seconds() - start;
  most = of_writer.most_bytes;
  if (tree(&v, objects, words, &b, &m)) exit(6);
  start = seconds();
  print_answer(g1_same(a, n, b, m, NULL, 0, &answer), &answer, NULL, 0);
  judged = seconds() - start;
  printf("length %zu memory %zu written %.3f judged %.3f\n", n, most, written, judged);
  g1w_free(&w);
  g1w_free(&v);
}

/* scarce OBJECTS: each request of the writer refused in turn, and all from one on. */
static void scarce(uint64_t objects) {
  long most, wrong = 0, tried = 0;
  g1_writer w;
  const uint8_t *bytes;
  size_t length;
  of_writer.requests = 0;
  if (tree(&w, objects, 4, &bytes, &length)) exit(6);
  g1w_free(&w);
  most = of_writer.requests;
  for (long n = 0; n < 2 * most; n++) {
    int fault;
    of_writer.requests = 0;
    of_writer.refuse_at = n < most ? n : -1;
    of_writer.refuse_from = n < most ? -1 : n - most;
    fault = tree(&w, objects, 4, &bytes, &length);
    wrong += fault != G1W_MEMORY || bytes || length;
    tried++;
    g1w_free(&w);
    wrong += of_writer.used != 0;
  }
  printf("requests %ld tried %ld wrong %ld\n", most, tried, wrong);
}

int main(int count, char **words) {
  const char *command = count > 1 ? words[1] : "";
  if (g1_version() != G1_VERSION) return 9;
  if (!strcmp(command, "all")) all(count - 2, words + 2);
  else if (!strcmp(command, "pairs")) pairs();
  else if (!strcmp(command, "kept")) kept();
  else if (!strcmp(command, "each")) each(count - 2, words + 2);
  else if (!strcmp(command, "broken")) broken(count - 2, words + 2);
  else if (!strcmp(command, "null") && count == 3) null(words[2]);
  else if (!strcmp(command, "threads") && count == 11) threads(atol(words[2]), words + 3);
  else if (!strcmp(command, "refuse") && count == 5) refuse(words[2], words[3], (uint32_t)atol(words[4]));
  else if (!strcmp(command, "write")) while (write_one(stdin)) continue;
  else if (!strcmp(command, "lines") && count == 4) lines(words[2], strtoull(words[3], NULL, 10));
  else if (!strcmp(command, "told")) while (tell_one(stdin)) continue;
  else if (!strcmp(command, "many") && count == 4) many(strtoull(words[2], NULL, 10), (uint32_t)atol(words[3]));
  else if (!strcmp(command, "scarce") && count == 3) scarce(strtoull(words[2], NULL, 10));
  else return 2;
  return 0;
}
