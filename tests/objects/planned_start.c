/* The function at which the program begins: it calls a function of another file, one of the host, and
   a weak one that nothing defines. */
int limit = 3;

int apply(int, int);
void report(int) __attribute__((import_module("host"), import_name("report")));
void finish(void) __attribute__((weak));

void _start(void) {
    report(apply(limit, 5));
    if (finish)
        finish();
}
