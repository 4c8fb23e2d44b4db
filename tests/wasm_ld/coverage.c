/* Compiled with -fprofile-instr-generate. */
int run(int value) { return value ? 1 : 2; }
