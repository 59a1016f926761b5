/* Times an operation on one file: best of 200 runs of 20 calls each, in nanoseconds per call.
   bench read FILE      oat_read
   bench sub A B FILE   oat_subtype */
#include <stdint.h>
#include <stdio.h>
#include <stdlib.h>
#include <string.h>
#include <time.h>

uint16_t oat_read(const uint8_t *file, size_t length, size_t parts, size_t depth);
uint16_t oat_subtype(const uint8_t *file, size_t length, size_t parts, size_t depth, size_t a, size_t b, uint8_t *yes, uint16_t *pairs);

static uint8_t file[65536];
static size_t length;

static double seconds(void) {
    struct timespec now;
    clock_gettime(CLOCK_MONOTONIC, &now);
    return now.tv_sec + now.tv_nsec * 1e-9;
}

int main(int argc, char **argv) {
    int asks = argc == 5 && strcmp(argv[1], "sub") == 0;
    FILE *in = argc == 3 || asks ? fopen(argv[argc - 1], "rb") : NULL;
    if (in == NULL) {
        fprintf(stderr, "usage: bench read FILE | bench sub A B FILE\n");
        return 1;
    }
    length = fread(file, 1, sizeof file, in);
    fclose(in);
    size_t a = asks ? strtoul(argv[2], NULL, 10) : 0;
    size_t b = asks ? strtoul(argv[3], NULL, 10) : 0;
    double best = 1e9;
    unsigned answer = 0;
    uint8_t yes = 0;
    uint16_t pairs = 0;
    for (int run = 0; run < 200; run++) {
        double from = seconds();
        for (int call = 0; call < 20; call++)
            answer = asks ? oat_subtype(file, length, 200, 100, a, b, &yes, &pairs) : oat_read(file, length, 200, 100);
        double took = (seconds() - from) / 20;
        if (took < best)
            best = took;
    }
    printf("%s, %zu bytes: answer %u, yes %u, pairs %u, %.0f ns a call\n", argv[1], length, answer, yes, pairs, best * 1e9);
    return 0;
}
