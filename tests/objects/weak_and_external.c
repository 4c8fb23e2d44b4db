/* Functions and data that other objects define, some of which may be missing. */
extern int external(int);
extern int external_data;
__attribute__((weak)) extern int maybe(int);
__attribute__((weak)) extern int maybe_data;
__attribute__((weak)) int overridable(int a) { return a + 1; }

int use(int a) {
    int sum = external(a) + external_data + overridable(a);
    if (maybe)
        sum += maybe(a);
    if (&maybe_data)
        sum += maybe_data;
    return sum;
}
