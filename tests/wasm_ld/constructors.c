/* A constructor, and a function that is exported; nothing calls __wasm_call_ctors. */
volatile int steps;

__attribute__((constructor)) static void set_up(void) { steps++; }

__attribute__((export_name("count"))) int count(void) { return steps; }
