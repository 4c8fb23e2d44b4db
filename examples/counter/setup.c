/* How far the counter goes at once: what is chosen of three steps. */
extern int step;
static const int steps[3] = {1, 5, 10};
unsigned chosen = 1;

__attribute__((constructor)) static void set_up(void) { step = steps[chosen % 3]; }
