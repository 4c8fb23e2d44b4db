/* Two functions that ask for one name of an export. */
__attribute__((export_name("same"))) int first(void) { return 1; }

__attribute__((export_name("same"))) int second(void) { return 2; }
