/* What C has beside objects.cpp: objects compiles both. */
#include <stdarg.h>

/* Symbols: weak and undefined, common or zero data, and one that is local to a function. */
extern int missing(int) __attribute__((weak));
extern int far_away[];
int zeros[64];
static const char *const words[] = {"zero", "one", "two", 0};

/* Relocations with addends, also below zero, and the addresses of functions. */
int *inner = &zeros[9];
const char *tail = &"a tail"[2];
int *before = far_away - 3;
static int twice(int n) { return n * 2; }
static int thrice(int n) { return n * 3; }
static int (*const table[])(int) = {twice, thrice, missing};

int applied(unsigned which, int n) {
    static int calls;
    calls += 1;
    return which < 3 && table[which] ? table[which](n) + calls : far_away[n + 5];
}

/* A list of arguments, and a struct that is passed and returned in memory. */
struct Pair {
    long long first;
    double second;
};
long long sum(int count, ...) {
    va_list list;
    long long all = 0;
    va_start(list, count);
    while (count-- > 0) all += va_arg(list, int);
    va_end(list);
    return all;
}
struct Pair swapped(struct Pair pair) {
    struct Pair other = {(long long)pair.second, (double)pair.first};
    return other;
}

/* Numbers of 128 bits call the runtime. */
__int128 product(__int128 a, __int128 b) { return a * b / 7; }

/* Blocks, loops, and a large frame. */
int collatz(unsigned n) {
    int steps = 0, seen[600];
    for (; n != 1 && steps < 600; steps += 1) {
        seen[steps] = (int)n;
        n = n % 2 ? 3 * n + 1 : n / 2;
    }
    return steps + seen[steps / 2];
}

/* Copies, which bulk memory has instructions for. */
void copied(char *to, const char *from, unsigned long size) {
    __builtin_memcpy(to, from, size);
    __builtin_memset(to + size, 7, size);
    __builtin_memmove(to, to + 1, 4096);
}

/* Atomic operations, which are plain ones without threads. */
int counter;
int next(void) { return __atomic_fetch_add(&counter, 1, __ATOMIC_SEQ_CST); }

/* Loops that a compiler unrolls, and a function that it copies into its callers. */
static unsigned mixed(unsigned hash, const int *numbers) {
    for (int at = 0; at < 8; at += 1) hash = (hash ^ (unsigned)numbers[at]) * 16777619u;
    return hash ^ hash >> 13;
}
unsigned hashed(const int *numbers, int count) {
    unsigned hash = 2166136261u;
    for (int at = 0; at + 8 <= count; at += 8) hash = mixed(hash, numbers + at);
    return count > 64 ? mixed(hash, zeros) + mixed(~hash, zeros + 8) : mixed(hash, zeros + 16);
}

/* Memory, floats and a long switch. */
unsigned long grown(unsigned long pages) { return __builtin_wasm_memory_grow(0, pages) + __builtin_wasm_memory_size(0); }
float rounded(float value, int how) {
    switch (how) {
    case 0: return __builtin_floorf(value);
    case 1: return __builtin_ceilf(value);
    case 2: return __builtin_truncf(value);
    case 3: return __builtin_nearbyintf(value);
    case 4: return __builtin_sqrtf(value);
    default: return value + (float)words[how & 3][0] + *inner + *tail;
    }
}
