// What makes the sections and symbols that object files have; `objects` compiles it.

struct Shape {
    virtual ~Shape() {}
    virtual int area() const { return 0; }
};

// Comdats: the functions and tables of each instance.
template <typename Side> struct Square : Shape {
    Side side = 2;
    int area() const override { return static_cast<int>(side * side); }
};

// A comdat with data.
inline int counted(int more) {
    static int count;
    return count += more;
}

// Init functions, with and without a priority.
__attribute__((constructor(101))) static void first() { counted(1); }
__attribute__((constructor)) static void second() { counted(2); }

// Data: thread-local, in a section of its own, weak, hidden, and an alias.
thread_local int local_count = 5;
__attribute__((section(".data.placed"))) int placed = 7;
__attribute__((weak)) int weak_count = 8;
__attribute__((visibility("hidden"))) const char hidden[] = "a string that a linker can merge";
extern int alias_of_placed __attribute__((alias("placed")));

// Imports, one with names of its own; an export name; functions that the linker keeps.
extern "C" {
int imported(int);
__attribute__((import_module("host"), import_name("log"))) int logged(int);
__attribute__((export_name("shown"))) int exported(int n) { return imported(n) + logged(n); }
__attribute__((used)) int kept(int n) { return n + local_count + placed + weak_count + hidden[n]; }
}

// A branch table, constants of each type, memory arguments, and an indirect call.
int chosen(int n) {
    switch (n) {
    case 0: return 31;
    case 1: return counted(7);
    case 2: return kept(3);
    case 3: return 1 << counted(2);
    case 4: return exported(1);
    case 5: return 77;
    default: return -1;
    }
}
double computed(const Shape *shape, float f, long long n) { return shape->area() * 1.5 + f * 2.5f + n * 12345678901LL; }
Square<int> square;
Square<double> exact;
const Shape *shapes[] = {&square, &exact};
int (*chooser)(int) = chosen;

#ifdef __EXCEPTIONS
// Tags, and the instructions and types of exceptions.
struct Guard {
    ~Guard() { counted(1); }
};
int caught(const Shape *shape) {
    Guard guard;
    try {
        if (!shape) throw 3;
        return shape->area();
    } catch (int n) {
        return n;
    } catch (...) {
        throw;
    }
}
#endif
