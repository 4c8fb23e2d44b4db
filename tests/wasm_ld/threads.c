/* A variable of each thread. */
__attribute__((visibility("default"))) _Thread_local int first_own = 4;
__attribute__((visibility("default"))) _Thread_local int own = 5;

int run(void) { return own + first_own; }
