/* Functions that run when the module starts. */
static int ready;

__attribute__((constructor)) static void prepare(void) { ready += 1; }
__attribute__((constructor(200))) static void prepare_early(void) { ready *= 2; }

int is_ready(void) { return ready; }
