/* What `czi_tool FILE list` says, by a plain C program that makes the same reads: the yardstick of list.sh. */
#include "reading.h"
#include <fcntl.h>
#include <stdio.h>
#include <stdlib.h>
#include <sys/stat.h>

/* A sound subblock whose contents end within AllocatedSize: its header and the front of its data are read together. */
static int is_subblock(int file, int64_t at, int64_t size) {
    unsigned char front[80];
    if (at < 0 || at + 288 > size || !read_at(file, at, front, 80)) return 0;
    int64_t allocated = int64_at(front + 16), used = int64_at(front + 24), data = int64_at(front + 40);
    int32_t meta = int32_at(front + 32), tail = int32_at(front + 36), dimensions = int32_at(front + 76);
    int64_t begin = 48 + 20 * (int64_t)dimensions;
    if (begin < 256) begin = 256;
    return memcmp(front, "ZISRAWSUBBLOCK", 15) == 0 && allocated <= size - 32 - at && 0 <= used && used <= allocated
        && 0 <= meta && 0 <= tail && 0 <= data && 0 <= dimensions && dimensions <= 40
        && begin + meta + data + tail <= allocated;
}

static void print_dimension(const unsigned char *record, int number) {
    int32_t start = int32_at(record + 4), size = int32_at(record + 8), stored = int32_at(record + 16);
    printf("%s%.4s%d:%d:%d", number == 0 ? "" : ",", (const char *)record, start, size, stored == 0 ? size : stored);
}

int main(int count_of_words, char **words) {
    unsigned char front[112], head[36];
    struct stat about;
    int file = count_of_words == 2 ? open(words[1], O_RDONLY) : -1;
    if (file < 0 || fstat(file, &about) != 0 || !read_at(file, 0, front, 112)) return 1;
    int64_t directory = int64_at(front + 84);
    if (!read_at(file, directory, head, 36)) return 1;
    int64_t allocated = int64_at(head + 16);
    int32_t count = int32_at(head + 32);
    unsigned char *entries = malloc(allocated - 128);
    if (entries == NULL || !read_at(file, directory + 160, entries, allocated - 128)) return 1;
    printf("tiles %d\n", count);
    const unsigned char *entry = entries;
    for (int32_t number = 0; number < count; number++) {
        int32_t dimensions = int32_at(entry + 28);
        if (!is_subblock(file, int64_at(entry + 6), about.st_size)) return 2;
        printf("tile %d %lld pixel=%d comp=%d dims=", number, (long long)int64_at(entry + 6), int32_at(entry + 2), int32_at(entry + 18));
        for (int32_t i = 0; i < dimensions; i++) print_dimension(entry + 32 + 20 * i, i);
        putchar('\n');
        entry += 32 + 20 * dimensions;
    }
    free(entries);
    return close(file);
}
