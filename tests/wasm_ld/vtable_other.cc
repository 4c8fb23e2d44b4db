// The function where the type is known.
struct Result { int first, second, third; };
struct Base { virtual int other(); virtual Result get(); };
Result Base::get() { return {1, 2, 3}; }
