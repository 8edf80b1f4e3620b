/* Calls the static library that Rust builds without std, and compares its module with the bytes of
   the format. Prints the size of the module. */
#include <stddef.h>
#include <stdio.h>
#include <string.h>

size_t bare_adding(unsigned char *out, size_t out_len);

static const unsigned char expected[] = {
    0x00, 'a', 's', 'm', 0x01, 0x00, 0x00, 0x00,
    /* Types: one of a function of two i32 to an i32. */
    0x01, 0x07, 0x01, 0x60, 0x02, 0x7F, 0x7F, 0x01, 0x7F,
    /* Functions: one of type 0. */
    0x03, 0x02, 0x01, 0x00,
    /* Exports: "add", function 0. */
    0x07, 0x07, 0x01, 0x03, 'a', 'd', 'd', 0x00, 0x00,
    /* Code: local.get 0, local.get 1, i32.add, end. */
    0x0A, 0x09, 0x01, 0x07, 0x00, 0x20, 0x00, 0x20, 0x01, 0x6A, 0x0B,
};

int main(void)
{
    unsigned char out[64] = {0};
    size_t size = bare_adding(out, 0);

    if (size != sizeof expected || out[0] != 0 || out[1] != 0)
        return 1;
    size = bare_adding(out, sizeof out);
    if (size != sizeof expected || memcmp(out, expected, size) != 0)
        return 1;
    printf("%u bytes\n", (unsigned)size);
    return 0;
}
