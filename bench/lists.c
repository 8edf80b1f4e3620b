/* The cost of lists of arguments alone: COUNT requests of SIZE bytes, each written to, and freed in
   the order of the requests. See README.md. */
#include <stdio.h>
#include <stdlib.h>

__attribute__((noinline)) size_t lists(void **made, size_t count, size_t size) {
    for (size_t i = 0; i < count; i++) {
        made[i] = malloc(size);
        if (!made[i]) return i;
        *(volatile char *)made[i] = 0;
    }
    for (size_t i = 0; i < count; i++) free(made[i]);
    return count;
}

int main(int argc, char **argv) {
    if (argc < 3) return 2;
    size_t count = strtoul(argv[1], NULL, 10), size = strtoul(argv[2], NULL, 10);
    void **made = malloc(count * sizeof *made);
    printf("%zu\n", lists(made, count, size));
    return 0;
}
