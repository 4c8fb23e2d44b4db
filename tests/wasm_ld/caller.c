/* Calls a function, and hands out one, under other types than they have. */
int called(int);
int handed(int);

int (*hand(void))(int) { return handed; }

int run(void) { return called(1); }
