/* Measures the stack that a check takes, the tallies and the page: every file of a packed file is checked, tallied and printed on a painted stack, and the
   most that was written to is printed. */
#include <pthread.h>
#include <stdint.h>
#include <stdio.h>
#include <stdlib.h>
#include <string.h>
#include "oat.h"

enum { SIZE = 1 << 20, PAINT = 0xA5 };
static uint8_t stack[SIZE] __attribute__((aligned(4096)));
static uint8_t file[65536];
static size_t length;
static uint16_t rows[OAT_MOST_NUMBERS], work[OAT_MOST_NUMBERS];
static uint16_t by_type[OAT_MOST_TYPES], by_declaration[OAT_MOST_DECLARATIONS];
static uint8_t page_buffer[OAT_MOST_PAGE];

static void *nothing(void *unused) {
    return unused;
}

static void *check(void *unused) {
    uint16_t step, place;
    uint32_t pairs;
    oat_check(file, length, OAT_MOST_PARTS, OAT_MOST_DEPTH, rows, OAT_MOST_NUMBERS, work, OAT_MOST_NUMBERS, &step, &place, &pairs);
    return unused;
}

static void *tally(void *unused) {
    uint16_t step, place;
    oat_tally(file, length, OAT_MOST_PARTS, OAT_MOST_DEPTH, rows, OAT_MOST_NUMBERS, work, OAT_MOST_NUMBERS, by_type, OAT_MOST_TYPES,
              by_declaration, OAT_MOST_DECLARATIONS, &step, &place);
    return unused;
}

static void *page(void *unused) {
    uint16_t step, place;
    size_t bytes;
    oat_page(file, length, OAT_MOST_PARTS, OAT_MOST_DEPTH, rows, OAT_MOST_NUMBERS, work, OAT_MOST_NUMBERS, page_buffer, sizeof page_buffer, &step,
             &place, &bytes);
    return unused;
}

static size_t more(size_t a, size_t b) {
    return a > b ? a : b;
}

static size_t used(void *(*run)(void *)) {
    pthread_attr_t attributes;
    pthread_t thread;
    memset(stack, PAINT, SIZE);
    pthread_attr_init(&attributes);
    pthread_attr_setstack(&attributes, stack, SIZE);
    if (pthread_create(&thread, &attributes, run, NULL) != 0)
        exit(1);
    pthread_join(thread, NULL);
    size_t low = 0;
    while (low < SIZE && stack[low] == PAINT)
        low++;
    return SIZE - low;
}

int main(int argc, char **argv) {
    FILE *in = argc == 2 ? fopen(argv[1], "rb") : NULL;
    if (in == NULL) {
        fprintf(stderr, "usage: stack FILE\n");
        return 1;
    }
    size_t empty = used(nothing), check_most = 0, tally_most = 0, page_most = 0;
    uint8_t head[4];
    while (fread(head, 1, 4, in) == 4) {
        length = head[0] + 256u * head[1];
        if (fread(file, 1, length, in) != length)
            return 1;
        check_most = more(check_most, used(check) - empty);
        tally_most = more(tally_most, used(tally) - empty);
        page_most = more(page_most, used(page) - empty);
    }
    printf("most stack of a check: %zu bytes, of the tallies: %zu bytes, of the page: %zu bytes\n", check_most, tally_most, page_most);
    return 0;
}
