/* What bench/journal compares with: the same groups of bytes, each by one pwrite and one fdatasync. */
#define _GNU_SOURCE
#include <fcntl.h>
#include <stdio.h>
#include <stdlib.h>
#include <string.h>
#include <time.h>
#include <unistd.h>

int main(int count, char **words) {
    if (count != 5) return 2;
    long groups = atol(words[2]), size = atol(words[3]) * 116 + 45, ahead = atol(words[4]), at = 60;
    char *group = malloc(size), *zeros = calloc(ahead + 1, 1);
    int file = open(words[1], O_RDWR | O_CREAT | O_TRUNC, 0600);
    if (file < 0 || !group || !zeros) return 1;
    memset(group, '7', size);
    if (pwrite(file, group, 60, 0) != 60) return 1;
    if (ahead && pwrite(file, zeros, ahead, at) != ahead) return 1;
    if (fdatasync(file)) return 1;
    struct timespec begun, ended;
    clock_gettime(CLOCK_MONOTONIC, &begun);
    for (long i = 0; i < groups; i++, at += size)
        if (pwrite(file, group, size, at) != size || fdatasync(file)) return 1;
    clock_gettime(CLOCK_MONOTONIC, &ended);
    printf("%ld well\n", (ended.tv_sec - begun.tv_sec) * 1000000 + (ended.tv_nsec - begun.tv_nsec) / 1000);
    return 0;
}
