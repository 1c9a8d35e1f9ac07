/* Numbers and bytes of a file, for the C programs beside this. */
#ifndef READING_H
#define READING_H
#include <stdint.h>
#include <string.h>
#include <unistd.h>

static int32_t int32_at(const unsigned char *bytes) { int32_t value; memcpy(&value, bytes, 4); return value; }
static int64_t int64_at(const unsigned char *bytes) { int64_t value; memcpy(&value, bytes, 8); return value; }

static int read_at(int file, int64_t at, unsigned char *into, int64_t count) {
    while (count > 0) {
        ssize_t got = pread(file, into, count, at);
        if (got <= 0) return 0;
        into += got, at += got, count -= got;
    }
    return 1;
}
#endif
