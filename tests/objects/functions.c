/* Functions that call each other, one of them known in the file alone. */
int add(int a, int b) { return a + b; }

__attribute__((noinline)) static int twice(int a) { return add(a, a); }

int four_times(int a) { return twice(twice(a)); }
