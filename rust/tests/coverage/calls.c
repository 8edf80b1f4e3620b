// Functions whose numbers of calls are known. Compiled without optimizations, each call is a call.

// fib(n) makes 2 * fib(n + 1) - 1 calls, its own included, if fib(1) = fib(2) = 1.
__attribute__((export_name("fib"))) int fib(int n) {
    return n < 2 ? n : fib(n - 1) + fib(n - 2);
}

int is_odd(int n);

__attribute__((export_name("is_even"))) int is_even(int n) {
    return n == 0 ? 1 : is_odd(n - 1);
}

__attribute__((export_name("is_odd"))) int is_odd(int n) {
    return n == 0 ? 0 : is_even(n - 1);
}

__attribute__((export_name("unused"))) int unused(void) {
    return 0;
}

// Calls through a table.
__attribute__((export_name("apply"))) int apply(int n) {
    int (*functions[])(int) = {is_even, is_odd, fib};
    return functions[n % 3](n);
}
