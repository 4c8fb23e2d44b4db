/* The same import with another type. */
__attribute__((import_module("host"), import_name("f"))) int second(void);

int other(void) { return second(); }
