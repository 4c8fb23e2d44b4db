// A table of virtual functions, of which one returns a type that isn't known yet.
struct Result;
struct Base { virtual int other(); virtual Result get(); };
int Base::other() { return 1; }

extern "C" Base *run() { static Base base; return &base; }
