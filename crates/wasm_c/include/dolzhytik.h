/* Assembles, lists, outlines and minimizes WebAssembly modules, and maps their indices. The page
   docs/C.md has an example and the limits. */
#ifndef DOLZHYTIK_H
#define DOLZHYTIK_H

#include <stddef.h>
#include <stdint.h>

#ifdef __cplusplus
extern "C" {
#endif

/* Returned by a call that fails. Also the number of items of a section whose items are not counted,
   and the offset and length of a name that a section does not have. */
#define DZ_NO_ANSWER UINT64_MAX

/* The causes of an error in a recipe. dz_recipe_cause returns their texts. */
enum dz_recipe_cause {
    DZ_UNKNOWN_COMMAND = 1,
    DZ_BAD_NUMBER = 2,
    DZ_BAD_HEX = 3,
    DZ_MISSING_WORD = 4,
    DZ_RECIPE_OUT_OF_MEMORY = 5,
    DZ_TOO_LONG = 6,
    DZ_NOT_TEXT = 7,
    DZ_SURPLUS_WORD = 8,
    DZ_UNKNOWN_TYPE = 9,
    DZ_UNUSED_LOCALS = 10
};

/* The causes of an error in a section or a module. dz_cause returns their texts. No call sets
   DZ_NOT_SHORTEST, since padded LEB128 decodes. Only dz_shorten and dz_remap_module set DZ_NO_KIND.
   Only the calls that write modules set DZ_OFFSETS, and those that map indices DZ_NO_INDEX and
   DZ_OVERLONG. */
enum dz_fault {
    DZ_ENDED = 1,
    DZ_NOT_SHORTEST = 2,
    DZ_TOO_LARGE = 3,
    DZ_UNKNOWN_TAG = 4,
    DZ_UNKNOWN_OPCODE = 5,
    DZ_NOT_UTF8 = 6,
    DZ_SIZE_MISMATCH = 7,
    DZ_OUT_OF_MEMORY = 8,
    DZ_NO_KIND = 9,
    DZ_OFFSETS = 10,
    DZ_NO_INDEX = 11,
    DZ_OVERLONG = 12
};

/* The kinds of sections, which select how dz_shorten decodes a payload. DZ_CUSTOM decodes a custom
   section as its name and data, and DZ_RAW any section as bytes. */
enum dz_kind {
    /* begin: written by tools/kinds */
    DZ_BODIES,
    DZ_SEGMENTS,
    DZ_DATA_COUNT,
    DZ_ELEMENTS,
    DZ_EXPORTS,
    DZ_FUNCTIONS,
    DZ_GLOBALS,
    DZ_IMPORTS,
    DZ_MEMORIES,
    DZ_START,
    DZ_TABLES,
    DZ_TAGS,
    DZ_NAMES,
    DZ_LINKING,
    DZ_PRODUCERS,
    DZ_HINTS,
    DZ_CORE,
    DZ_CORE_MODULES,
    DZ_CORE_INSTANCES,
    DZ_CORE_STACK,
    DZ_CUSTOM,
    DZ_RAW,
    DZ_TYPES,
    DZ_TARGET_FEATURES,
    DZ_SOURCE_MAPPING_URL,
    DZ_EXTERNAL_DEBUG_INFO,
    DZ_BUILD_ID,
    DZ_DYLINK,
    DZ_RELOCATIONS,
    DZ_INSTRUCTION_FREQUENCIES,
    DZ_COMPILATION_ORDERS,
    DZ_CALL_TARGETS
    /* end: written by tools/kinds */
};

/* A section that dz_list returns: the number of its items, the size of its payload in bytes, and
   its id. */
typedef struct {
    uint64_t items;
    uint32_t size;
    uint32_t id;
} dz_section;

/* A section that dz_outline returns. The number of items is there if the payload decodes as its
   kind and its items are counted; a recursion group of a type section is one item. `offset` is that
   of the payload in the module, and `size` is the size of the payload in bytes. `name_offset` and
   `name_size` are of the name of a custom section, in the module; both are DZ_NO_ANSWER if there is
   no name. No 0 ends a name. */
typedef struct {
    uint64_t items;
    uint64_t offset;
    uint64_t name_offset;
    uint64_t name_size;
    uint32_t size;
    uint32_t id;
} dz_outlined;

/* What each call requires:
   - A pointer is valid for as many elements as its length says. It is not null, also for a length
     of 0.
   - No other thread reads or writes the memory that the call writes.
   - That memory overlaps no other argument.

   Each call that has `out` returns the size of its result, and copies the result to the front of
   `out` only if all of it fits. A call that fails returns DZ_NO_ANSWER and leaves `out` unchanged.
   */

/* Assembles a recipe of version 1, and returns the size of the module in bytes. On an error,
   `*line` is the first line with one, counted from 1, or 0 for an error after the last line, and
   `*cause` is one of dz_recipe_cause. On success both are 0. */
uint64_t dz_assemble(const uint8_t *recipe, size_t recipe_len, uint8_t *out, size_t out_len, uint64_t *line, uint32_t *cause);

/* Assembles a recipe of version 1 or 2, as dz_assemble does. The causes from DZ_SURPLUS_WORD on are
   those of version 2. */
uint64_t dz_assemble_versioned(const uint8_t *recipe, size_t recipe_len, uint8_t *out, size_t out_len, uint64_t *line, uint32_t *cause);

/* Lists the sections of a module, and returns their number. Each is decoded as the kind of its id,
   but a type section is any bytes. On an error, `*place` is the number of the first section that is
   not of its kind, counted from 1, or 0 for the header, and `*cause` is one of dz_fault: DZ_ENDED
   or DZ_UNKNOWN_TAG for the header. If an allocation failed, `*cause` is DZ_OUT_OF_MEMORY. On
   success both are 0. */
uint64_t dz_list(const uint8_t *module, size_t module_len, dz_section *out, size_t out_len, uint64_t *place, uint32_t *cause);

/* Writes the minimal encoding of the section of this kind (one of dz_kind) at the front of the
   bytes, from its size prefix on, without its id. Returns the size of the encoding in bytes, which
   is at most `*taken`, the size of the section in the input. On an error, `*taken` is 0, and
   `*cause` is one of dz_fault: DZ_NO_KIND if no kind has the number, DZ_OUT_OF_MEMORY if an
   allocation failed. On success `*cause` is 0.

   The bytes after padded LEB128 move. Offsets into the section from elsewhere (relocations, branch
   hints, DWARF, source maps) are then wrong. A section with one-byte reference types other than
   0x70 and 0x6F does not decode, and neither does a linking section with comdats or section
   symbols, as most of LLVM's object files have. */
uint64_t dz_shorten(uint32_t kind, const uint8_t *bytes, size_t bytes_len, uint8_t *out, size_t out_len, uint64_t *taken, uint32_t *cause);

/* Outlines a module, and returns the number of its sections, whether they decode as their kinds or
   not. The entries of a type section are counted, a recursion group as one. Custom sections are not
   decoded: they have no number of items. On an error, `*place` is the number of the first section
   that is not an id and a size-prefixed payload, counted from 1, or 0 for the header, and `*cause`
   is one of dz_fault. If an allocation failed, `*cause` is DZ_OUT_OF_MEMORY. On success both are 0.
   */
uint64_t dz_outline(const uint8_t *module, size_t module_len, dz_outlined *out, size_t out_len, uint64_t *place, uint32_t *cause);

/* Writes a module with each section in its minimal encoding, and returns the size of that module in
   bytes, which is at most the size of the input. `*kept` sections are unchanged, since they do not
   decode as their kinds.

   The bytes after padded LEB128 move. These custom sections hold offsets: `linking`,
   `external_debug_info`, `build_id`, `.gdb_index`, `sourceMappingURL`, and names that begin with
   `reloc.`, `.debug_`, `.apple_` or `metadata.code.`. If `drop_offsets` is not 0, they are left out. If it is 0, the
   call fails for a module whose offsets might become wrong: with any of these sections, the code
   and data sections must keep their bytes; with `reloc.`, so must the custom sections; with
   `sourceMappingURL`, so must the number of bytes before each code section. `*place` is then the
   number of the first section whose offsets would be wrong, counted from 1, and `*cause` is
   DZ_OFFSETS.

   If the bytes are no module, or an allocation failed, `*place` and `*cause` are those of
   dz_outline. On an error `*kept` is 0, and on success `*place` and `*cause` are 0. */
uint64_t dz_shorten_module(const uint8_t *module, size_t module_len, uint32_t drop_offsets, uint8_t *out, size_t out_len, uint64_t *kept, uint64_t *place, uint32_t *cause);

/* The index spaces of a module. */
enum dz_space {
    DZ_SPACE_FUNCTIONS,
    DZ_SPACE_TYPES,
    DZ_SPACE_TABLES,
    DZ_SPACE_MEMORIES,
    DZ_SPACE_GLOBALS,
    DZ_SPACE_TAGS,
    DZ_SPACE_ELEMENTS,
    DZ_SPACE_DATA
};

/* Writes a module in which each index of a dz_space is replaced, and returns the module's size in
   bytes. `indices` has the new index of each old one. All sections are encoded anew, in their
   minimal encoding.

   An index that is not below `indices_len`, or whose new one is UINT32_MAX, is an error: `*cause` is
   DZ_NO_INDEX. A name in the section `name` is a use of its index too. For an unknown space,
   `*cause` is DZ_NO_KIND. If `drop_offsets` is not 0, the custom sections
   that hold offsets, as dz_shorten_module lists them, are left out. If it is 0, such a section is an
   error: `*cause` is DZ_OFFSETS. If the bytes are no module, or a section does not decode,
   `*cause` is that of the decoder. If a section would be too long, it is DZ_OVERLONG. `*offset` is
   where the bytes do not decode, or that of the section that holds offsets, or 0. On success both
   are 0. */
uint64_t dz_remap_module(const uint8_t *module, size_t module_len, uint32_t space, const uint32_t *indices, size_t indices_len, uint32_t drop_offsets, uint8_t *out, size_t out_len, uint64_t *offset, uint32_t *cause);

/* Writes a module with one more import, of a function of the type `type_index`, and returns the
   module's size in bytes. The import is the first one, so that the function has index 0. Each other
   index of a function is one higher, wherever it is in the module.

   If a name is not UTF-8, `*cause` is DZ_NOT_UTF8. If an index would be more than UINT32_MAX, it is
   DZ_NO_INDEX. Other errors are those of dz_remap_module. */
uint64_t dz_insert_import(const uint8_t *module, size_t module_len, const uint8_t *module_name, size_t module_name_len, const uint8_t *name, size_t name_len, uint32_t type_index, uint32_t drop_offsets, uint8_t *out, size_t out_len, uint64_t *offset, uint32_t *cause);

/* Writes the text of a number of dz_fault in ASCII, such as `Ended`, and returns its length in
   bytes. No 0 ends the text. Fails if no cause has the number. */
uint64_t dz_cause(uint32_t cause, uint8_t *out, size_t out_len);

/* Writes the text of a number of dz_recipe_cause, such as `bad hex`, as dz_cause does. */
uint64_t dz_recipe_cause(uint32_t cause, uint8_t *out, size_t out_len);

#ifdef __cplusplus
}
#endif

#endif
