/* What `czi_tool FILE region pixel=BYTES-1 layer=1 x=0 y=0 w=W h=H` says of a file that make_mosaic.py made, by a plain C program that
makes the same reads and writes: the yardstick of region.sh.

usage: region FILE BYTES W H >PICTURE

It reads the directory in one piece and the front of each subblock, as `czi_tool` does when it opens a file; then, for each row, the
pixels of each tile that has some there, into their place. It takes the tiles to come in the order of their rows. */
#include "reading.h"
#include <fcntl.h>
#include <stdio.h>
#include <stdlib.h>

struct tile { int64_t pixels; int32_t x, y, width, height; };

/* The tiles of the directory at a place, or NULL. */
static struct tile *tiles_of(int file, int64_t directory, int32_t *count) {
    unsigned char head[36], front[80];
    if (!read_at(file, directory, head, 36)) return NULL;
    *count = int32_at(head + 32);
    int64_t length = 72 * (int64_t)*count;
    unsigned char *entries = malloc(length);
    struct tile *tiles = malloc(*count * sizeof *tiles);
    if (entries == NULL || tiles == NULL || !read_at(file, directory + 160, entries, length)) return NULL;
    for (int32_t i = 0; i < *count; i++) {
        const unsigned char *entry = entries + 72 * (int64_t)i;
        int64_t at = int64_at(entry + 6);
        if (!read_at(file, at, front, 80)) return NULL;
        tiles[i] = (struct tile){at + 288 + int32_at(front + 32), int32_at(entry + 36), int32_at(entry + 56), int32_at(entry + 40), int32_at(entry + 60)};
    }
    free(entries);
    return tiles;
}

static void turn_pairs(unsigned char *row, int64_t length) {
    for (int64_t i = 0; i + 1 < length; i += 2) {
        unsigned char first = row[i];
        row[i] = row[i + 1];
        row[i + 1] = first;
    }
}

int main(int count_of_words, char **words) {
    unsigned char front[112];
    int file = count_of_words == 5 ? open(words[1], O_RDONLY) : -1;
    if (file < 0 || !read_at(file, 0, front, 112)) return 1;
    int64_t bytes = atoll(words[2]), width = atoll(words[3]), height = atoll(words[4]);
    int32_t count, first = 0;
    struct tile *tiles = tiles_of(file, int64_at(front + 84), &count);
    unsigned char *row = malloc(width * bytes);
    if (tiles == NULL || row == NULL) return 1;
    if (dprintf(1, "P5\n%lld %lld\n%d\n", (long long)width, (long long)height, bytes == 2 ? 65535 : 255) < 0) return 1;
    for (int64_t j = 0; j < height; j++) {
        memset(row, 0, width * bytes);
        while (first < count && tiles[first].y + tiles[first].height <= j) first++;
        for (int32_t i = first; i < count && tiles[i].y <= j; i++) {
            const struct tile *t = &tiles[i];
            if (t->x >= width) continue;
            int64_t columns = t->x + t->width <= width ? t->width : width - t->x;
            if (!read_at(file, t->pixels + (j - t->y) * t->width * bytes, row + t->x * bytes, columns * bytes)) return 1;
        }
        if (bytes == 2) turn_pairs(row, width * bytes);
        if (write(1, row, width * bytes) != width * bytes) return 1;
    }
    return 0;
}
