/* The Oat v.2 checker for C and C++: reading a program file, the subtype question, the check, tallies of expressions, and a page of the rows.
   `tools/build.sh oat_c` writes target/staticlib/liboat_c.a with these functions, for x86-64 Linux.

   No function keeps anything between calls, allocates, prints or fails in another way than by its number, so that calls may run at the same
   time as long as no buffer is lent to two of them. A pointer points to as many elements as the length after it says; with the length 0
   it may be any pointer, but not a null pointer. The parts of memory that are lent to one call do not overlap.

   All else that a call uses is on the stack: local arrays of at most 15,404 bytes together, in oat_page of 15,448 and in oat_tally of 25,816, and the
   frames of nested calls, whose number no file raises past a bound. The most measured is 103,856 bytes on the stored files and 189,472 on a file made
   to need much, so a thread that calls should have 256 KiB of stack left. No theorem bounds the stack in bytes (docs/BENCHMARKS.md); a call with too
   little fails as any function of C does. */
#ifndef OAT_H
#define OAT_H

#include <stddef.h>
#include <stdint.h>

#ifdef __cplusplus
extern "C" {
#endif

/* The longest program file, in bytes, and how many nodes, types and declarations a file has at most. Rows and work of two numbers for each node are
   always enough with OAT_MOST_NUMBERS, tallies with OAT_MOST_TYPES and OAT_MOST_DECLARATIONS, and a page with OAT_MOST_PAGE bytes. */
#define OAT_MOST_BYTES 45068
#define OAT_MOST_NODES 4096
#define OAT_MOST_NUMBERS (2 * OAT_MOST_NODES)
#define OAT_MOST_TYPES 512
#define OAT_MOST_DECLARATIONS (OAT_MOST_NODES / 2)
#define OAT_MOST_PAGE (20 * OAT_MOST_NODES + 17)

/* A file of length 0 is that of a new pan: for every function it is the program of types 0 to 3 and nothing else, readable and accepted with 0 steps and no
   node, whatever lengths `rows` and `work` have. One byte is OAT_LENGTH. */

/* The two limits, `parts` and `depth` of every function: a type has at most so many parts, and nodes are at most so deep. Each is from 1 to the most named
   here, both ends in; these are document 01's limits. Under larger limits a file that was accepted stays accepted with the same rows, and 6 to 16 stay too,
   with their step and place: no file moves but those that the smaller limits alone refuse under 3 or 5. */
#define OAT_MOST_PARTS 200
#define OAT_MOST_DEPTH 100

/* In a row: no binder (and every number of the rows of a refused program); a built-in's number is added to OAT_BUILT_IN. */
#define OAT_NONE 65535
#define OAT_BUILT_IN 40000

/* What the functions answer. */
enum oat_number {
    OAT_ACCEPTED = 0,          /* accepted; of oat_read: readable; of oat_subtype: answered */
    OAT_LENGTH = 1,            /* length wrong */
    OAT_COUNT = 2,             /* count over its most */
    OAT_TYPES = 3,             /* types or type list broken */
    OAT_RECORDS = 4,           /* fields, structs or built-ins broken */
    OAT_TREE = 5,              /* node tree broken */
    OAT_SHORT = 6,             /* rows or work short */
    OAT_BOUND_TWICE = 7,       /* name bound twice; a local, in one block */
    OAT_UNKNOWN = 8,           /* name or field unknown */
    OAT_UNDECLARED = 9,        /* undeclared struct in a type */
    OAT_SORT = 10,             /* wrong sort of type */
    OAT_NOT_BELOW = 11,        /* not a subtype */
    OAT_NO_MATCH = 12,         /* arguments or fields don't match */
    OAT_VOID = 13,             /* void against value */
    OAT_RETURN = 14,           /* return mark wrong */
    OAT_FUNCTION_ASSIGNED = 15,/* function assigned */
    OAT_NO_DEFAULT = 16,       /* element without default */
    OAT_NO_TYPE = 17,          /* type not in file (oat_subtype alone) */
    OAT_PAGE_SHORT = 18,       /* the page buffer is too short (oat_page alone) */
    OAT_TALLY_SHORT = 19,      /* a tally buffer is too short (oat_tally alone) */
    OAT_LIMITS = 25            /* a limit out of its range; tested before everything else */
};

/* 0 where the file is readable, else 25 or 1 to 5. Changes nothing. */
uint16_t oat_read(const uint8_t *file, size_t length, size_t parts, size_t depth);

/* Whether the type a of the file is below its type b. Answers 0, with 1 for yes or 0 for no in *yes; or 25, or 1 to 5, or 17 where a or b is not the
   number of a type, and *yes stays as it was. *pairs gets how many pairs of types were compared, at most 399, and 0 where the question is
   refused. Neither `yes` nor `pairs` is null. */
uint16_t oat_subtype(const uint8_t *file, size_t length, size_t parts, size_t depth, size_t a, size_t b, uint8_t *yes, uint16_t *pairs);

/* Checks a program file. Answers its number, and puts the answer's step and place into *step and *place. *pairs gets how many pairs of types its
   subtype questions compared together, up to and including the broken premise, at most 1,200 for each node; it is 0 under 25 and 1 to 6.
   None of the three is null.

     number     *step, *place                       rows                                   work
     0          how many steps there are, 0         result and binder of each node         see below
     25         0, 0                                as before                              as before
     1 to 6     0, 0                                as before                              as before
     7 to 16    the step and where it broke         65,535 twice for each node             see below

   Under 0 and 7 to 16 `rows` changes in its first two numbers for each node: node i has its result at 2 * i and its binder at 2 * i + 1. `work` has any
   contents in as many of its first numbers. What lies past them stays in both. Both may hold anything before the call. 6 is answered where `rows` or
   `work` has fewer than two numbers for each node of a readable file. */
uint16_t oat_check(const uint8_t *file, size_t length, size_t parts, size_t depth, uint16_t *rows, size_t rows_length, uint16_t *work,
                   size_t work_length, uint16_t *step, uint16_t *place, uint32_t *pairs);

/* Checks a program file as oat_check does and, where it is accepted, tallies its expression nodes, those of kinds 10 to 21 and 23 to 26, twice: by type
   and by declaration. Answers the check's number, step and place. `rows` and `work` are as oat_check leaves them, on every outcome; they and the two
   tallies may hold anything before the call. Neither `step` nor `place` is null.

     number     *step, *place                       by_type                                by_declaration
     0          how many steps there are, 0         a number for each type                 a number for each declaration
     25, 1-16   those of oat_check                  as before                              as before
     19         0, 0                                as before                              as before

   Under 0 the number i of `by_type` is how many expressions have a type equal to the type i, where i is the lowest number of these types in the file;
   under any other number of the file's types it is 0. The number i of `by_declaration` is how many expressions are in the declaration i, globals and
   functions counted together from 0 in file order: a declaration is a node of kind 1 or 2. Each tally adds up to the count of all expression nodes.
   What lies past the last type and the last declaration stays. 19 is answered for an accepted file where `by_type` has fewer numbers than the file has
   types, or `by_declaration` fewer than it has declarations. Zero bytes have four zeros by type and no declaration. */
uint16_t oat_tally(const uint8_t *file, size_t length, size_t parts, size_t depth, uint16_t *rows, size_t rows_length, uint16_t *work,
                   size_t work_length, uint16_t *by_type, size_t by_type_length, uint16_t *by_declaration, size_t by_declaration_length,
                   uint16_t *step, uint16_t *place);

/* Checks a program file as oat_check does and, where it is accepted, prints its rows to the front of `page`, in ASCII. Answers the check's number, step and
   place, and puts the number of bytes that it wrote into *bytes. `rows` and `work` are as oat_check leaves them, on every outcome; they and `page` may
   hold anything before the call. None of `step`, `place` and `bytes` is null.

     number     *step, *place                       *bytes                page
     0          how many steps there are, 0         the page's length     the page; what lies past it stays
     25, 1-16   those of oat_check                  0                     as before
     18         0, 0                                0                     as before

   The page has a line of 20 bytes for each node, from byte 20 * i on for node i: its number in 4 columns, its kind in 2, its result in 5 and its binder in
   5, right aligned with blanks, one blank between, and a line end (byte 10). The last line is `pages P rows Q` and a line end: P full pages of 50 rows,
   and Q rows left, so that 50 * P + Q is the number of nodes. Nothing stands between pages. 18 is answered for an accepted file where `page` has fewer
   bytes than that. Zero bytes have no row and the 15 bytes of the last line, `pages 0 rows 0`. */
uint16_t oat_page(const uint8_t *file, size_t length, size_t parts, size_t depth, uint16_t *rows, size_t rows_length, uint16_t *work,
                  size_t work_length, uint8_t *page, size_t page_length, uint16_t *step, uint16_t *place, size_t *bytes);

#ifdef __cplusplus
}
#endif

#endif
