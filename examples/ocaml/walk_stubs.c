/* g1_walk(path, value) writes what an OCaml value references, as lines of objects by name for `g1heap same`, and returns how
 * many objects it has. The name of an object is its address. It allocates nothing in OCaml's heap, so no object moves
 * while it walks.
 *
 * A field of OCaml is an immediate or a pointer, and only its lowest bit says which. So each field is written twice: as a
 * slot, which is null for an immediate, and as a data word, which is 0 for a pointer. The header's tag is a data word, too.
 * For OCaml 4.13 and later 4.x.
 */
#define CAML_INTERNALS
#include <caml/address_class.h>
#include <caml/fail.h>
#include <caml/mlvalues.h>
#include <stdio.h>
#include <stdlib.h>
#include <string.h>

/* The objects in the order in which they were found, and a table of their numbers by address (number + 1; 0 is empty). */
struct found {
    value *objects;
    size_t count, room;
    size_t *table, slots;
};

static void *checked(void *memory) {
    if (!memory) caml_raise_out_of_memory();
    return memory;
}

static size_t hash(value object) {
    return (size_t)object / sizeof(value) * 0x9E3779B97F4A7C15u >> 20;
}

static size_t entry_of(const struct found *found, value object) {
    size_t at = hash(object) & (found->slots - 1);
    while (found->table[at] && found->objects[found->table[at] - 1] != object) at = (at + 1) & (found->slots - 1);
    return at;
}

static void grow(struct found *found) {
    found->room = found->room ? 2 * found->room : 1 << 15;
    found->objects = checked(realloc(found->objects, found->room * sizeof *found->objects));
    free(found->table);
    found->slots = 2 * found->room;
    found->table = checked(calloc(found->slots, sizeof *found->table));
    for (size_t i = 0; i < found->count; i++) found->table[entry_of(found, found->objects[i])] = i + 1;
}

/* Adds an object if it is new. */
static void add(struct found *found, value object) {
    if (found->count == found->room) grow(found);
    size_t at = entry_of(found, object);
    if (!found->table[at]) {
        found->objects[found->count++] = object;
        found->table[at] = found->count;
    }
}

/* The block that a pointer leads into: a closure may be referenced at one of its later functions. */
static value block_of(value pointer) {
    return Tag_val(pointer) == Infix_tag ? pointer - Infix_offset_val(pointer) : pointer;
}

static int has_fields(value object) {
    return Tag_val(object) < No_scan_tag;
}

/* The first field that may be a pointer: a closure begins with code. */
static mlsize_t first_field(value object) {
    return Tag_val(object) == Closure_tag ? Start_env_closinfo(Closinfo_val(object)) : 0;
}

static int is_pointer(value object, mlsize_t field) {
    return has_fields(object) && field >= first_field(object) && Is_block(Field(object, field));
}

static mlsize_t slots_of(value object) {
    return has_fields(object) ? Wosize_val(object) : 0;
}

/* A header, the slots, the tag, the data words. */
static size_t words_of(value object) {
    return 1 + slots_of(object) + 1 + Wosize_val(object);
}

static void find_all(struct found *found, value root) {
    add(found, block_of(root));
    for (size_t i = 0; i < found->count; i++) {
        value object = found->objects[i];
        for (mlsize_t field = 0; field < slots_of(object); field++)
            if (is_pointer(object, field)) add(found, block_of(Field(object, field)));
    }
}

static void write_object(FILE *lines, value object) {
    fprintf(lines, "object %zu %zu/%zu", (size_t)object, words_of(object), (size_t)slots_of(object));
    for (mlsize_t field = 0; field < slots_of(object); field++) {
        if (is_pointer(object, field)) fprintf(lines, " %zu", (size_t)block_of(Field(object, field)));
        else fputs(" -", lines);
    }
    fprintf(lines, " %d", Tag_val(object));
    for (mlsize_t field = 0; field < Wosize_val(object); field++)
        fprintf(lines, " %zu", is_pointer(object, field) ? (size_t)0 : (size_t)Field(object, field));
    fputc('\n', lines);
}

static void write_all(FILE *lines, const struct found *found) {
    fprintf(lines, "graph\nroot %zu\n", (size_t)found->objects[0]);
    for (size_t i = 0; i < found->count; i++) write_object(lines, found->objects[i]);
}

CAMLprim value g1_walk(value path, value root) {
    struct found found = {0};
    FILE *lines = fopen(String_val(path), "w");
    if (!lines) caml_failwith("g1_walk: cannot write the file");
    find_all(&found, root);
    write_all(lines, &found);
    int failed = fclose(lines);
    size_t count = found.count;
    free(found.objects);
    free(found.table);
    if (failed) caml_failwith("g1_walk: cannot write the file");
    return Val_long(count);
}
