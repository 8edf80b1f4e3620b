// The C side of examples/object.rs.

// In the object: returns the sum of the squares, by `add_squares`, which gets an array of its
// frame.
int sum_of_squares(int a, int b);
// In the object: increments `calls`.
void count(void);

int calls;

int add_squares(int squares[2], int a, int b) {
    squares[0] = a * a;
    squares[1] = b * b;
    return squares[0] + squares[1];
}

__attribute__((export_name("run"))) int run(int a, int b) {
    count();
    return sum_of_squares(a, b);
}

__attribute__((export_name("calls"))) int calls_so_far(void) {
    return calls;
}
