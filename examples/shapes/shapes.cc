// Counts the shapes that are made, and asks one for its area.
#include "shapes.h"

int made;

Shape::Shape() { made++; }
int Shape::area() const { return 0; }

extern "C" int area_of(const Shape *shape) { return shape->area(); }
