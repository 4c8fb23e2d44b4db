// Compiled with -fwasm-exceptions.
void may_throw();

extern "C" int run() {
    try { may_throw(); } catch (...) { return 2; }
    return 3;
}
