/* The functions with their own types. */
int called(void) { return 1; }
int handed(void) { return 2; }
