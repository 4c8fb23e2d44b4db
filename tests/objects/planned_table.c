/* Functions that are called by their place in the table, one of them of another file. */
typedef int operation(int);

int step(int);
static int minus(int i) { return -i; }

static operation *const operations[] = {step, minus};

int apply(int chosen, int i) { return operations[chosen & 1](i); }
