/* What a C library has that writes out its buffers at the end, and no constructor. */
volatile int written;

void __wasm_call_dtors(void) { written++; }

__attribute__((export_name("print"))) int print(void) { return written; }
