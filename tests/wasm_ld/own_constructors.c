/* A name of the linker's that an object defines as a function. */
volatile int runs;

void __wasm_call_ctors(void) { runs++; }

int run(void) { return runs; }
