// An inline function, which each object that uses it holds.
inline __attribute__((noinline)) int twice(int value) { static int calls; return value * 2 + calls++; }

int other();
extern "C" int run() { return twice(3) + other(); }
