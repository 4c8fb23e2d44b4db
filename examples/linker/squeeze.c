/* Compresses a text by zlib, expands it again, and compares both. */
#include <stdio.h>
#include <string.h>
#include <zlib.h>

#define LENGTH 10000

int main(void) {
    static unsigned char text[LENGTH], small[LENGTH], again[LENGTH];
    uLongf small_length = LENGTH, length = LENGTH;
    for (int i = 0; i < LENGTH; i++) text[i] = "wildplan "[i % 9];
    if (compress(small, &small_length, text, LENGTH) != Z_OK) return 1;
    if (uncompress(again, &length, small, small_length) != Z_OK) return 2;
    int is_same = length == LENGTH && memcmp(text, again, LENGTH) == 0;
    const char *verdict = is_same ? "the same again" : "damaged";
    printf("zlib %s: %d bytes, %d compressed, %s\n", zlibVersion(), LENGTH, (int)small_length, verdict);
    return !is_same;
}
