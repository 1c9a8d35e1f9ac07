/* Makes the reads, writes, syncs and cuts of a traced run again, from and to the same files.

usage: replay PLAN IMAGE JOURNAL <INPUT

Each line of PLAN is a call: KIND FILE LENGTH PLACE, where FILE is i, j or s (standard input). bench/add.sh makes it from
strace's output. Bytes that are written are those that were read of the input, as many as there are, and else zeros. */
#define _GNU_SOURCE
#include <fcntl.h>
#include <stdio.h>
#include <stdlib.h>
#include <string.h>
#include <unistd.h>

int main(int argc, char **argv) {
    if (argc != 4) {
        return 2;
    }
    FILE *plan = fopen(argv[1], "r");
    int image = open(argv[2], O_RDWR);
    int journal = open(argv[3], O_RDWR | O_CREAT, 0666);
    size_t size = (size_t)1 << 27;
    char *bytes = malloc(size), *region = malloc(size);
    if (plan == NULL || image < 0 || journal < 0 || bytes == NULL || region == NULL) {
        return 2;
    }
    size_t held = 0;
    char kind[16], file;
    long long length, place;
    while (fscanf(plan, "%15s %c %lld %lld", kind, &file, &length, &place) == 4) {
        int which = file == 'i' ? image : journal;
        if (strcmp(kind, "take") == 0) {
            ssize_t got = read(0, bytes + held, (size_t)length);
            if (got < 0) {
                return 1;
            }
            held += (size_t)got;
        } else if (strcmp(kind, "read") == 0) {
            if (pread(which, region, (size_t)length, place) < 0) {
                return 1;
            }
        } else if (strcmp(kind, "write") == 0) {
            size_t some = (size_t)length < held ? (size_t)length : held;
            memcpy(region, bytes + held - some, some);
            memset(region + some, 0, (size_t)length - some);
            if (pwrite(which, region, (size_t)length, place) != length) {
                return 1;
            }
        } else if (strcmp(kind, "sync") == 0) {
            if (fsync(which) != 0) {
                return 1;
            }
        } else if (ftruncate(which, length) != 0) {
            return 1;
        }
    }
    return 0;
}
