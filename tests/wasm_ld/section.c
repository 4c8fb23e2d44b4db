/* The two ends of a section with a name of its own. */
__attribute__((section("entries"), used)) int one = 1;
__attribute__((section("entries"), used)) int two = 2;
extern int __start_entries[], __stop_entries[];

int run(void) {
    int sum = 0;
    for (int *entry = __start_entries; entry != __stop_entries; entry++)
        sum += *entry;
    return sum;
}
