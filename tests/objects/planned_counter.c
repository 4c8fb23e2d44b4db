/* Data with values, data without, and data that holds an address of another file's. */
extern int limit;
static int counter = 7;
static int zeros[4];
static int *const where[3] = {&counter, &zeros[3], &limit};

int step(int i) {
    counter += zeros[i & 3];
    zeros[i & 3] = counter;
    return *where[i & 1];
}

int dropped(void) { return counter; }
