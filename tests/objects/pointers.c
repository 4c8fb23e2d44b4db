/* Functions that are called by their place in the table. */
typedef int operation(int, int);

static int plus(int a, int b) { return a + b; }
static int minus(int a, int b) { return a - b; }

operation *const operations[] = {plus, minus};

int apply(operation *chosen, int a, int b) { return chosen(a, b); }

operation *choose(int i) { return i ? plus : minus; }
