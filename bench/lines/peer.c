/* A plain reader: goes over the bytes once, takes the numbers out and counts lines. It tests no rule. */
#include <stdio.h>
#include <stdlib.h>
#include <time.h>

int main(int argc, char **argv) {
    FILE *file = fopen(argv[1], "rb");
    if (!file || argc < 2) return 1;
    fseek(file, 0, SEEK_END);
    long size = ftell(file);
    rewind(file);
    char *text = malloc(size);
    if (fread(text, 1, size, file) != (size_t)size) return 1;
    struct timespec start, end;
    clock_gettime(CLOCK_MONOTONIC, &start);
    long lines = 0;
    long sum = 0;
    for (long i = 0; i < size;) {
        if (text[i] >= '0' && text[i] <= '9') {
            long number = 0;
            while (i < size && text[i] >= '0' && text[i] <= '9') number = number * 10 + (text[i++] - '0');
            sum += number;
        } else {
            lines += text[i++] == '\n';
        }
    }
    clock_gettime(CLOCK_MONOTONIC, &end);
    long nanoseconds = (end.tv_sec - start.tv_sec) * 1000000000L + (end.tv_nsec - start.tv_nsec);
    printf("%ld %ld %ld\n", lines, nanoseconds, sum);
    return 0;
}
