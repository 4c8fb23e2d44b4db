/* Data with values, data without, and data that holds addresses. */
static int counter = 7;
static int zeros[16];
static int *const where[2] = {&counter, &zeros[3]};

int step(int i) {
    counter += zeros[i & 15];
    zeros[i & 15] = counter;
    return *where[i & 1];
}
