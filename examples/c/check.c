/* check FILE A B [PARTS DEPTH]: checks a program file, prints the answer and, where it is accepted, each node's number and row, then how many pairs of
   types were compared, and asks whether the file's type A is below its type B. PARTS and DEPTH are the limits, 200 and 100 where they are left out.

       tools/build.sh oat_c
       cc -I include examples/c/check.c -L target/staticlib -l:liboat_c.a -o check
       ./check examples/one_global.oat 0 1
       ./check examples/nested_calls.oat 0 1 200 5 */
#include "oat.h"
#include <stdio.h>
#include <stdlib.h>

static uint8_t file[OAT_MOST_BYTES + 1]; /* one byte more, so that a longer file is refused too */
static uint16_t rows[OAT_MOST_NUMBERS], work[OAT_MOST_NUMBERS];

/* How many nodes an accepted file has: the count of the last section, after those of five others with records of 4, 1, 2, 3 and 2 numbers. Of zero
   bytes the array has nothing but zeros, so there are none. */
static size_t node_count(void) {
    static const size_t size[5] = {4, 1, 2, 3, 2};
    size_t at = 0;
    for (int section = 0; section < 5; section++)
        at += 2 + 2 * size[section] * (file[at] + 256u * file[at + 1]);
    return file[at] + 256u * file[at + 1];
}

int main(int argc, char **argv) {
    FILE *in = argc == 4 || argc == 6 ? fopen(argv[1], "rb") : NULL;
    if (in == NULL) {
        fprintf(stderr, "usage: check FILE A B [PARTS DEPTH]\n");
        return 2;
    }
    size_t length = fread(file, 1, sizeof file, in);
    fclose(in);

    size_t parts = argc == 6 ? strtoul(argv[4], NULL, 10) : OAT_MOST_PARTS;
    size_t depth = argc == 6 ? strtoul(argv[5], NULL, 10) : OAT_MOST_DEPTH;
    uint16_t step, place;
    uint32_t sum;
    uint16_t number = oat_check(file, length, parts, depth, rows, OAT_MOST_NUMBERS, work, OAT_MOST_NUMBERS, &step, &place, &sum);
    printf("%d %d %d\n", number, step, place);
    size_t nodes = number == OAT_ACCEPTED ? node_count() : 0;
    for (size_t i = 0; i < nodes; i++)
        printf("%zu %d %d\n", i, rows[2 * i], rows[2 * i + 1]);
    printf("pairs %lu\n", (unsigned long)sum);

    uint8_t yes = 0;
    uint16_t pairs;
    uint16_t refused = oat_subtype(file, length, parts, depth, strtoul(argv[2], NULL, 10), strtoul(argv[3], NULL, 10), &yes, &pairs);
    if (refused != 0)
        printf("type %s below type %s: refused under %d, pairs %d\n", argv[2], argv[3], refused, pairs);
    else
        printf("type %s below type %s: %s, pairs %d\n", argv[2], argv[3], yes ? "yes" : "no", pairs);
    return 0;
}
