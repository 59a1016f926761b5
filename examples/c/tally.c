/* tally FILE [PARTS DEPTH]: checks a program file, prints the answer and, where it is accepted, how many expressions it has of each type and in each
   declaration. PARTS and DEPTH are the limits, 200 and 100 where they are left out.

       tools/build.sh oat_c
       cc -I include examples/c/tally.c -L target/staticlib -l:liboat_c.a -o tally
       ./tally examples/equal_types.oat */
#include "oat.h"
#include <stdio.h>
#include <stdlib.h>

static uint8_t file[OAT_MOST_BYTES + 1]; /* one byte more, so that a longer file is refused too */
static uint16_t rows[OAT_MOST_NUMBERS], work[OAT_MOST_NUMBERS];
static uint16_t by_type[OAT_MOST_TYPES], by_declaration[OAT_MOST_DECLARATIONS];

static size_t number_at(size_t at) { return file[at] + 256u * file[at + 1]; }

/* How many declarations an accepted file has: its nodes of kinds 1 and 2. The nodes are the last section, after five others with records of 4, 1, 2, 3
   and 2 numbers. Of zero bytes the array has nothing but zeros, so there are none. */
static size_t declaration_count(void) {
    static const size_t size[5] = {4, 1, 2, 3, 2};
    size_t at = 0, count = 0;
    for (int section = 0; section < 5; section++)
        at += 2 + 2 * size[section] * number_at(at);
    for (size_t node = 0; node < number_at(at); node++)
        count += number_at(at + 2 + 8 * node) <= 2;
    return count;
}

static void print_tally(const char *word, const uint16_t *tally, size_t count) {
    printf("%s", word);
    for (size_t i = 0; i < count; i++)
        printf(" %d", tally[i]);
    printf("\n");
}

int main(int argc, char **argv) {
    FILE *in = argc == 2 || argc == 4 ? fopen(argv[1], "rb") : NULL;
    if (in == NULL) {
        fprintf(stderr, "usage: tally FILE [PARTS DEPTH]\n");
        return 2;
    }
    size_t length = fread(file, 1, sizeof file, in);
    fclose(in);

    size_t parts = argc == 4 ? strtoul(argv[2], NULL, 10) : OAT_MOST_PARTS;
    size_t depth = argc == 4 ? strtoul(argv[3], NULL, 10) : OAT_MOST_DEPTH;
    uint16_t step, place;
    uint16_t number = oat_tally(file, length, parts, depth, rows, OAT_MOST_NUMBERS, work, OAT_MOST_NUMBERS, by_type, OAT_MOST_TYPES,
                                by_declaration, OAT_MOST_DECLARATIONS, &step, &place);
    printf("%d %d %d\n", number, step, place);
    if (number == OAT_ACCEPTED) {
        print_tally("types", by_type, length == 0 ? 4 : number_at(0)); /* zero bytes have types 0 to 3 */
        print_tally("declarations", by_declaration, declaration_count());
    }
    return 0;
}
