/* page FILE [PARTS DEPTH]: checks a program file, prints the answer with the number of bytes of its page and, where it is accepted, the page. PARTS and
   DEPTH are the limits, 200 and 100 where they are left out.

       tools/build.sh oat_c
       cc -I include examples/c/page.c -L target/staticlib -l:liboat_c.a -o page
       ./page examples/page_and_two_rows.oat */
#include "oat.h"
#include <stdio.h>
#include <stdlib.h>

static uint8_t file[OAT_MOST_BYTES + 1]; /* one byte more, so that a longer file is refused too */
static uint16_t rows[OAT_MOST_NUMBERS], work[OAT_MOST_NUMBERS];
static uint8_t page[OAT_MOST_PAGE];

int main(int argc, char **argv) {
    FILE *in = argc == 2 || argc == 4 ? fopen(argv[1], "rb") : NULL;
    if (in == NULL) {
        fprintf(stderr, "usage: page FILE [PARTS DEPTH]\n");
        return 2;
    }
    size_t length = fread(file, 1, sizeof file, in);
    fclose(in);

    size_t parts = argc == 4 ? strtoul(argv[2], NULL, 10) : OAT_MOST_PARTS;
    size_t depth = argc == 4 ? strtoul(argv[3], NULL, 10) : OAT_MOST_DEPTH;
    uint16_t step, place;
    size_t bytes;
    uint16_t number = oat_page(file, length, parts, depth, rows, OAT_MOST_NUMBERS, work, OAT_MOST_NUMBERS, page, sizeof page, &step, &place, &bytes);
    printf("%d %d %d %zu\n", number, step, place, bytes);
    fwrite(page, 1, bytes, stdout);
    return 0;
}
