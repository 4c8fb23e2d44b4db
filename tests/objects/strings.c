/* String literals, which stand in segments that may be merged. */
const char *greeting(int formal) { return formal ? "good day" : "hello"; }

const char *const names[] = {"zero", "one", "two"};
