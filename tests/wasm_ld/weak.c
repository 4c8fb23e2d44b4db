/* A function that another object overrides, and data that only it takes. */
static volatile int weak_data = 4;

__attribute__((weak)) int choose(void) { return weak_data; }

int run(void) { return choose(); }
