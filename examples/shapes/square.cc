// A square, which is made before anything else runs.
#include "shapes.h"

struct Square : Shape {
    int side;
    explicit Square(int side) : side(side) {}
    int area() const override { return side * side; }
};

static Square first(4);

extern "C" const Shape *first_shape() { return &first; }
extern "C" int shapes_made() { return made; }
