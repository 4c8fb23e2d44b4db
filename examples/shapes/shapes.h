// A shape that knows its area, and the shapes that were made.
struct Shape {
    Shape();
    virtual int area() const;
};

extern int made;
