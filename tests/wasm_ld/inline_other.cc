// The same inline function, in another object.
inline __attribute__((noinline)) int twice(int value) { static int calls; return value * 2 + calls++; }

int other() { return twice(4); }
