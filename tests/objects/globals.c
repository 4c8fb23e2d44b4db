/* Variables of all sizes, a hidden one, and one that lives on the stack. */
char small = 1;
short middle = 2;
long long large = 3;
double real = 4.5;
__attribute__((visibility("hidden"))) int hidden = 6;
__attribute__((aligned(64))) int aligned_far = 7;

extern void fill(int *);

double total(void) {
    int local[8];
    fill(local);
    return small + middle + large + real + hidden + aligned_far + local[2];
}
