/* Compiled with debug information. */
struct point {
    int x;
    int y;
};

static struct point origin = {1, 2};

int distance(const struct point *p) {
    int x = p->x - origin.x;
    int y = p->y - origin.y;
    return x * x + y * y;
}
