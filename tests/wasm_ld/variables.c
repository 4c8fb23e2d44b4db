/* Variables with values and without, and strings of which one ends another. */
int zeros[1000];
int five = 5;
static int seven = 7;

const char *whole(void) { return "hello world"; }
const char *end(void) { return "world"; }
int *zero(void) { return &zeros[3]; }
int *value(void) { return five ? &seven : &five; }
