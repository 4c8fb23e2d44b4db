/* Copies and fills of memory, and its size. */
typedef __SIZE_TYPE__ size_t;

void copy(char *to, const char *from, size_t n) { __builtin_memcpy(to, from, n); }
void move(char *to, const char *from, size_t n) { __builtin_memmove(to, from, n); }
void zero(char *to, size_t n) { __builtin_memset(to, 0, n); }
size_t pages(void) { return __builtin_wasm_memory_size(0); }
size_t grow(size_t n) { return __builtin_wasm_memory_grow(0, n); }
