/* A thread's own count and buffer, a total that all threads have in common, and what the linker says of a
   thread's block: its size, its alignment, and the function that makes it. */
_Thread_local int count = 5;
static _Thread_local char buffer[24] __attribute__((aligned(16)));
static int total;
int limit = 3;
int *const watched = &limit;

void __wasm_init_tls(void *);

int work(int step) {
    buffer[step & 15] += step;
    count += buffer[step & 15];
    return __atomic_add_fetch(&total, count, __ATOMIC_SEQ_CST) < *watched;
}

int begin_thread(char *room) {
    unsigned long align = __builtin_wasm_tls_align();
    char *block = (char *)(((unsigned long)room + align - 1) / align * align);
    __wasm_init_tls(block);
    return block + __builtin_wasm_tls_size() - room;
}
