// Two builds of a module: with NEW one function grows, and one is added, removed and renamed.
const char greeting[] =
#ifdef NEW
    "hello, world, and the moon"
#else
    "hello, world"
#endif
    ;
int counters[16] = {1, 2, 3};

int stays(const int *numbers, int count) {
  int sum = 0;
  for (int i = 0; i < count; i++) sum += numbers[i];
  return sum;
}

int grows(int x) {
#ifdef NEW
  for (int i = 0; i < x; i++) counters[i & 15] += i;
#endif
  return counters[x & 15];
}

#ifdef NEW
const char *added(int x) { return &greeting[x]; }
int renamed_now(int x) { return x ^ 0x55aa; }
#else
int removed(int x) { return x - 7; }
int renamed_before(int x) { return x ^ 0x55aa; }
#endif
