/* Hands out a function under another type than it has. */
int handed(int);

int (*run(void))(int) { return handed; }
