/* Calls that read whole modules, for a profiler. See README.md.

       modules list|outline|shorten|nothing FILE    makes one call with the module in the file
       modules write NAME                           writes a module of about 1 MB of this shape
       modules                                      writes the names of the shapes */
#include <dolzhytik.h>
#include <stdio.h>
#include <stdlib.h>
#include <string.h>

enum { BYTES = 1000000 };

/* A section of this id: bytes that are repeated, between a front and an end. */
typedef struct {
    const char *name;
    int id;
    int framed; /* the byte before the size prefix of all, such as a subsection's id, or 0 without one */
    int counted; /* whether the number of repetitions is before them */
    size_t name_len, before_len, item_len, after_len;
    const char *custom, *before, *item, *after;
} shape;

#define TEXT(s) sizeof(s) - 1
#define SHAPE(name, id, framed, counted, custom, before, item, after) {name, id, framed, counted, TEXT(custom), TEXT(before), TEXT(item), TEXT(after), custom, before, item, after}

static const shape SHAPES[] = {
    SHAPE("one body of nop", 10, 1, 0, "", "\0", "\x01", "\x0B"),
    SHAPE("one body of local.get", 10, 1, 0, "", "\0", "\x20\0", "\x0B"),
    SHAPE("bodies of 10 bytes", 10, 0, 1, "", "", "\x09\0\x20\0\x20\0\x6A\x1A\x01\x0B", ""),
    SHAPE("one br_table", 10, 1, 1, "", "\0\x0E", "\0", "\0\x0B"),
    SHAPE("one try_table", 10, 1, 1, "", "\0\x1F\x40", "\0\0\0", "\x0B\x0B"),
    SHAPE("one resume", 10, 1, 1, "", "\0\xE3\0", "\0\0\0", "\x0B"),
    SHAPE("one segment of functions", 9, 0, 1, "", "\x01\0\x41\0\x0B", "\0", ""),
    SHAPE("one segment of expressions", 9, 0, 1, "", "\x01\x05\x70", "\xD2\0\x0B", ""),
    SHAPE("globals", 6, 0, 1, "", "", "\x7F\0\x41\0\x0B", ""),
    SHAPE("one global", 6, 0, 0, "", "\x01\x7F\0", "\x41\0", "\x0B"),
    SHAPE("data segments", 11, 0, 1, "", "", "\0\x41\0\x0B\x04\1\2\3\4", ""),
    SHAPE("imports", 2, 0, 1, "", "", "\1m\1f\0\0", ""),
    SHAPE("one group of imports", 2, 0, 1, "", "\1\1m\0\x7F", "\1f\0\0", ""),
    SHAPE("exports", 7, 0, 1, "", "", "\1e\0\0", ""),
    SHAPE("functions", 3, 0, 1, "", "", "\0", ""),
    SHAPE("function types", 1, 0, 1, "", "", "\x60\0\0", ""),
    SHAPE("empty structs", 1, 0, 1, "", "", "\x5F\0", ""),
    SHAPE("names", 0, 1, 1, "\4name", "", "\0\1f", ""),
    SHAPE("one field of producers", 0, 0, 1, "\x09producers", "\1\3sdk", "\1a\1b", ""),
    SHAPE("target features", 0, 0, 1, "\x0Ftarget_features", "", "+\1a", ""),
    SHAPE("branch hints of one function", 0, 0, 1, "\x19metadata.code.branch_hint", "\1\0", "\0\1\1", ""),
    SHAPE("one core instance", 0, 0, 1, "\x0D" "coreinstances", "\1\0\0", "\0", "\0"),
    SHAPE("one core frame", 0, 0, 1, "\x09" "corestack", "\0\1t\1\0\0\0\0", "\x7F\0", "\0"),
    SHAPE("relocations", 0, 0, 1, "\x0Areloc.CODE", "\3", "\0\4\0", ""),
    SHAPE("needed libraries", 0, 2, 1, "\x08" "dylink.0", "", "\1l", ""),
    SHAPE("one symbol table", 0, 8, 1, "\7linking\2", "", "\0\0\0\1f", ""),
    SHAPE("one custom section", 0, 0, 0, "\1c", "", "\0", ""),
    SHAPE("empty sections", -1, 0, 0, "", "", "\1\0", ""),
};
enum { COUNT = sizeof SHAPES / sizeof *SHAPES };

static size_t number(uint8_t *out, size_t n) {
    size_t len = 0;
    for (; n >= 0x80; n >>= 7) out[len++] = (uint8_t)n | 0x80;
    out[len++] = (uint8_t)n;
    return len;
}

/* Inserts the size prefix before a payload. */
static size_t frame(uint8_t *out, size_t len) {
    uint8_t size[10];
    size_t more = number(size, len);
    memmove(out + more, out, len);
    memcpy(out, size, more);
    return more + len;
}

static size_t content(const shape *s, uint8_t *out) {
    size_t len = 0, items = BYTES / s->item_len;
    memcpy(out, s->before, s->before_len);
    len += s->before_len;
    if (s->counted) len += number(out + len, items);
    for (size_t i = 0; i < items; i++, len += s->item_len) memcpy(out + len, s->item, s->item_len);
    memcpy(out + len, s->after, s->after_len);
    len += s->after_len;
    if (s->framed) {
        len = frame(out, len);
        memmove(out + 1, out, len++);
        out[0] = (uint8_t)s->framed;
    }
    memmove(out + s->name_len, out, len);
    memcpy(out, s->custom, s->name_len);
    return s->name_len + len;
}

static void write_shape(const shape *s) {
    uint8_t *out = malloc(2 * BYTES);
    size_t len = content(s, out);
    fwrite("\0asm\1\0\0\0", 1, 8, stdout);
    if (s->id >= 0) {
        putchar(s->id);
        len = frame(out, len);
    }
    fwrite(out, 1, len, stdout);
}

int main(int argc, char **argv) {
    if (argc < 3) {
        for (int i = 0; i < COUNT; i++) puts(SHAPES[i].name);
        return 0;
    }
    if (strcmp(argv[1], "write") == 0) {
        for (int i = 0; i < COUNT; i++)
            if (strcmp(argv[2], SHAPES[i].name) == 0) write_shape(&SHAPES[i]);
        return 0;
    }
    FILE *file = fopen(argv[2], "rb");
    if (!file) return 1;
    setvbuf(file, NULL, _IONBF, 0);
    fseek(file, 0, SEEK_END);
    size_t len = (size_t)ftell(file);
    rewind(file);
    uint8_t *module = malloc(len);
    if (fread(module, 1, len, file) != len) return 1;
    uint64_t place = 0, kept = 0, answer = len;
    uint32_t cause = 0;
    dz_section lines[1];
    dz_outlined outlined[1];
    uint8_t text[1];
    if (strcmp(argv[1], "list") == 0) answer = dz_list(module, len, lines, 0, &place, &cause);
    if (strcmp(argv[1], "outline") == 0) answer = dz_outline(module, len, outlined, 0, &place, &cause);
    if (strcmp(argv[1], "shorten") == 0) answer = dz_shorten_module(module, len, 1, text, 0, &kept, &place, &cause);
    fprintf(stderr, "%llu\n", (unsigned long long)answer);
    return cause == 0 ? 0 : 1;
}
