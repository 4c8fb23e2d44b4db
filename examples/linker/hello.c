/* Prints a line without an end: it stays in a buffer until the destructors run. */
#include <stdio.h>

int main(void) {
    printf("hello from C: %d", 6 * 7);
    return 0;
}
