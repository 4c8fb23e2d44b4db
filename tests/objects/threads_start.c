/* The function at which the program begins, and one that runs before it: they take another file's data of a
   thread, and its address. */
extern _Thread_local int count;
static _Thread_local int *last = 0;
static int ready;

int work(int);

__attribute__((constructor)) static void set_up(void) {
    count = 7;
    ready = 1;
}

void _start(void) {
    last = &count;
    while (ready && work(*last))
        ;
}
