/* What overrides the weak function. */
int choose(void) { return 2; }
