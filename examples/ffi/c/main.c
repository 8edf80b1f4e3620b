/* Assembles recipes, lists and outlines what modules hold, and shortens padded sections and
   modules. */
#include "dolzhytik.h"
#include <inttypes.h>
#include <stdio.h>
#include <string.h>

#define ROOM 256

/* Says what is wrong, by its text. */
static void say(uint64_t (*text_of)(uint32_t, uint8_t *, size_t), uint32_t cause) {
    uint8_t text[32];
    uint64_t size = text_of(cause, text, sizeof text);
    if (size <= sizeof text)
        printf("%.*s\n", (int)size, (const char *)text);
    else
        printf("cause %" PRIu32 "\n", cause);
}

static void list(const uint8_t *module, size_t len) {
    dz_section sections[16];
    uint64_t place;
    uint32_t cause;
    uint64_t count = dz_list(module, len, sections, 16, &place, &cause);
    if (count == DZ_NO_ANSWER) {
        printf("section %" PRIu64 ": ", place);
        say(dz_cause, cause);
        return;
    }
    for (uint64_t i = 0; i < count && i < 16; i++) {
        printf("%" PRIu32 " %" PRIu32 " ", sections[i].id, sections[i].size);
        if (sections[i].items == DZ_NO_ANSWER)
            printf("-\n");
        else
            printf("%" PRIu64 "\n", sections[i].items);
    }
}

/* dz_assemble or dz_assemble_versioned. */
typedef uint64_t assembler(const uint8_t *recipe, size_t recipe_len, uint8_t *out, size_t out_len, uint64_t *line, uint32_t *cause);

static void assemble_by(assembler *call, const void *recipe, size_t len, size_t room) {
    uint8_t out[ROOM] = {0};
    uint64_t line;
    uint32_t cause;
    uint64_t size = call(recipe, len, out, room, &line, &cause);
    if (size == DZ_NO_ANSWER) {
        printf("line %" PRIu64 ": ", line);
        say(dz_recipe_cause, cause);
        return;
    }
    if (size > room) {
        printf("%" PRIu64 " bytes, and room for %zu\n", size, room);
        return;
    }
    for (uint64_t i = 0; i < size; i++)
        printf("%02x", out[i]);
    printf("\n");
    list(out, size);
}

static void assemble(const void *recipe, size_t len, size_t room) {
    assemble_by(dz_assemble, recipe, len, room);
}

static void assemble_versioned(const char *recipe) {
    assemble_by(dz_assemble_versioned, recipe, strlen(recipe), ROOM);
}

static void shorten(uint32_t kind, const void *bytes, size_t len) {
    uint8_t out[ROOM] = {0};
    uint64_t taken;
    uint32_t cause;
    uint64_t size = dz_shorten(kind, bytes, len, out, ROOM, &taken, &cause);
    if (size == DZ_NO_ANSWER) {
        say(dz_cause, cause);
        return;
    }
    printf("%" PRIu64 ":", taken);
    for (uint64_t i = 0; i < size && i < ROOM; i++)
        printf(" %02x", out[i]);
    printf("\n");
}

static void outline(const uint8_t *module, size_t len) {
    dz_outlined sections[16];
    uint64_t place;
    uint32_t cause;
    uint64_t count = dz_outline(module, len, sections, 16, &place, &cause);
    if (count == DZ_NO_ANSWER) {
        printf("section %" PRIu64 ": ", place);
        say(dz_cause, cause);
        return;
    }
    for (uint64_t i = 0; i < count && i < 16; i++) {
        const dz_outlined *s = &sections[i];
        printf("%" PRIu32 " at %" PRIu64 ", %" PRIu32 " bytes", s->id, s->offset, s->size);
        if (s->items != DZ_NO_ANSWER)
            printf(", %" PRIu64 " items", s->items);
        if (s->name_size != DZ_NO_ANSWER)
            printf(", %.*s", (int)s->name_size, (const char *)module + s->name_offset);
        printf("\n");
    }
}

static void shorten_module(const void *module, size_t len, uint32_t drop_offsets) {
    uint8_t out[ROOM] = {0};
    uint64_t kept, place;
    uint32_t cause;
    uint64_t size = dz_shorten_module(module, len, drop_offsets, out, ROOM, &kept, &place, &cause);
    if (size == DZ_NO_ANSWER) {
        printf("section %" PRIu64 ": ", place);
        say(dz_cause, cause);
        return;
    }
    printf("%" PRIu64 " kept:", kept);
    for (uint64_t i = 0; i < size && i < ROOM; i++)
        printf(" %02x", out[i]);
    printf("\n");
}

/* Prints the bytes of a module that a call returned, or its error. */
static void say_edited(uint64_t size, const uint8_t *out, uint64_t offset, uint32_t cause) {
    if (size == DZ_NO_ANSWER) {
        printf("at %" PRIu64 ": ", offset);
        say(dz_cause, cause);
        return;
    }
    for (uint64_t i = 0; i < size && i < ROOM; i++)
        printf("%02x", out[i]);
    printf("\n");
}

static void remap(const void *module, size_t len, uint32_t space, const uint32_t *indices, size_t count) {
    uint8_t out[ROOM] = {0};
    uint64_t offset;
    uint32_t cause;
    uint64_t size = dz_remap_module(module, len, space, indices, count, 0, out, ROOM, &offset, &cause);
    say_edited(size, out, offset, cause);
}

static void insert(const void *module, size_t len, const char *name, uint32_t drop_offsets) {
    uint8_t out[ROOM] = {0};
    uint64_t offset;
    uint32_t cause;
    uint64_t size = dz_insert_import(module, len, (const uint8_t *)"host", 4, (const uint8_t *)name, strlen(name), 0, drop_offsets, out, ROOM, &offset, &cause);
    say_edited(size, out, offset, cause);
}

/* A function that calls itself and is exported. */
static const char calls[] = "\0asm\x01\0\0\0" "\x01\x04\x01\x60\0\0" "\x03\x02\x01\0" "\x07\x05\x01\x01" "f\0\0" "\x0A\x06\x01\x04\0\x10\0\x0B";

/* A type, a custom section of padded numbers called `name`, one without a name, and a function
   section that counts seven functions and ends before them. */
static const char outlined[] = "\0asm\x01\0\0\0" "\x01\x04\x01\x60\0\0" "\0\x87\0\x84\0name\xFF" "\0\x01\x05" "\x03\x01\x07";

/* A padded code section, and symbols, which hold offsets into it. */
static const char symbols[] = "\0asm\x01\0\0\0" "\x0A\x84\0\x01\x02\0\x0B" "\0\x08\x07linking";

int main(void) {
    const char *module = "type 60027f7f017f\nfunc 0\nexport f func 0\nbody 200020016a0b";
    assemble(module, strlen(module), ROOM);
    assemble(module, strlen(module), 38);
    assemble(module, strlen(module), 0);
    assemble("", 0, ROOM);
    assemble("body 0b\nbody zz", 15, ROOM);
    assemble("\xFF", 1, ROOM);
    assemble_versioned("version 2\nlocals 1 i32\nbody 20000b # local 0");
    assemble_versioned("version 2\nfunc 0 1");
    list((const uint8_t *)"\0asm\x01\0\0\0\x03\x01\x00\x00\x01\x05", 14);
    list((const uint8_t *)"\0asm", 4);
    shorten(DZ_FUNCTIONS, "\x86\x00\x01\x85\x80\x80\x80\x00", 8);
    shorten(DZ_GLOBALS, "\x0A\x01\x7F\x00\x41\xFF\xFF\xFF\xFF\x7F\x0B", 11);
    shorten(DZ_NAMES, "\x0C\x84\x00name\x00\x83\x00\x82\x00m", 13);
    shorten(DZ_NAMES, "\x0C\x84\x00name\x00\x83\x00\x81\x00m", 13);
    shorten(DZ_TAGS, "\x03\x01\x01\x00", 4);
    shorten(32, "", 0);
    outline((const uint8_t *)outlined, sizeof outlined - 1);
    outline((const uint8_t *)outlined, 9);
    shorten_module(outlined, sizeof outlined - 1, 0);
    shorten_module(symbols, sizeof symbols - 1, 0);
    shorten_module(symbols, sizeof symbols - 1, 1);
    shorten_module(outlined, 9, 1);
    uint32_t indices[] = {7};
    remap(calls, sizeof calls - 1, DZ_SPACE_FUNCTIONS, indices, 1);
    remap(calls, sizeof calls - 1, DZ_SPACE_FUNCTIONS, indices, 0);
    remap(calls, sizeof calls - 1, 8, indices, 1);
    remap(symbols, sizeof symbols - 1, DZ_SPACE_TYPES, indices, 1);
    insert(calls, sizeof calls - 1, "hit", 0);
    insert(calls, sizeof calls - 1, "\xFF", 0);
    insert(symbols, sizeof symbols - 1, "hit", 1);
    return 0;
}
