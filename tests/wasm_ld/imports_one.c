/* An import of the host. */
__attribute__((import_module("host"), import_name("f"))) int first(int);

int run(void) { return first(1); }
