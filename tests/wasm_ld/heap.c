/* A name of the linker's that an object defines. */
int __heap_base = 3;

int *run(void) { return &__heap_base; }
