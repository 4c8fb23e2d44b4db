/* Writes a picture as PNG into memory, reads it again, and compares both. */
#include <stdio.h>
#include <string.h>

#define STB_IMAGE_IMPLEMENTATION
#include <stb_image.h>
#define STB_IMAGE_WRITE_IMPLEMENTATION
#include <stb_image_write.h>

#define SIDE 64

static unsigned char file[1 << 16];
static int written;

static void take(void *context, void *bytes, int count) {
    (void)context;
    memcpy(file + written, bytes, count);
    written += count;
}

int main(void) {
    static unsigned char picture[SIDE][SIDE][3];
    for (int row = 0; row < SIDE; row++)
        for (int column = 0; column < SIDE; column++) {
            picture[row][column][0] = 4 * row;
            picture[row][column][1] = 4 * column;
            picture[row][column][2] = row ^ column;
        }
    if (!stbi_write_png_to_func(take, NULL, SIDE, SIDE, 3, picture, 3 * SIDE)) return 1;
    int width, height, parts;
    unsigned char *again = stbi_load_from_memory(file, written, &width, &height, &parts, 3);
    if (!again) return 2;
    int is_same = width == SIDE && height == SIDE && memcmp(picture, again, sizeof picture) == 0;
    const char *verdict = is_same ? "the same again" : "damaged";
    printf("PNG: %d bytes, %d written, %s\n", (int)sizeof picture, written, verdict);
    return !is_same;
}
