/* A log whose table lists a row twice: its counts, its row sum, the answer to an input that is in no table row, and that to a gamma by
 * which a denominator is 0. */
#include <hyperplonk.h>
#include <inttypes.h>
#include <stdio.h>

#define WORDS(a) (a), sizeof(a) / sizeof((a)[0])

/* k = 2. A table of codes is the preprocess column, polynomial 0; the log's codes are the witness column, polynomial 1. */
static const uint64_t circuit[] = {
    2, 0,                                              /* k; no maximum degree */
    22, 0,                                             /* instance lengths */
    22, 1,                                             /* preprocess columns */
    26, 1,                                             /* rounds */
    28, 2,                                             /* nodes */
    36, 0,                                             /* constraint roots */
    36, 1,                                             /* lookup widths */
    37, 1,                                             /* lookup pairs */
    39, 0,                                             /* cycle lengths */
    39, 0,                                             /* cells */
    39, 1,                                             /* group numbers */
    5, 7, 7, 9,                                        /* the table: 7 is listed twice */
    1, 0,                                              /* the round: one witness column, no challenge */
    HYPERPLONK_POLYNOMIAL, 1, 0, HYPERPLONK_SIGNED(0), /* node 0, the input */
    HYPERPLONK_POLYNOMIAL, 0, 0, HYPERPLONK_SIGNED(0), /* node 1, the table */
    1,                                                 /* the lookup's width */
    0, 1,                                              /* input root, table root */
    0,                                                 /* the lookup's group */
};
static const uint64_t witness[] = {7, 7, 5, 9};
static const uint64_t unlisted[] = {7, 6, 5, 9};
static const uint64_t challenges[] = {10, 100, 2}; /* beta, gamma, alpha */
static const uint64_t unlucky[] = {10, HYPERPLONK_P - 5}; /* beta, gamma: gamma + table is 0 on row 0 */
static const uint64_t y[] = {0, 2};

/* compressed input and table, m, h */
enum { ROWS = 4, M = 2 * ROWS, COLUMN_WORDS = 4 * ROWS, NODE_WORDS = 4 * 27 };

int main(void) {
    static const uint64_t instance[1]; /* never null, also where a slice is empty */
    uint64_t columns[COLUMN_WORDS], nodes[NODE_WORDS], built[3], sum[1], number;
    int b;

    number = hyperplonk_build(WORDS(circuit), instance, 0, WORDS(witness), challenges, 2, WORDS(columns), WORDS(nodes), WORDS(built));
    printf("build: number %" PRIu64 ", column words %" PRIu64 ", nodes %" PRIu64 ", z columns %" PRIu64 "\n", number, built[0], built[1],
           built[2]);
    printf("m:");
    for (b = 0; b < ROWS; b++)
        printf(" %" PRIu64, columns[M + b]);
    printf("\n");

    number = hyperplonk_row_sum(WORDS(circuit), WORDS(witness), columns, built[0], nodes, 4 * built[1], WORDS(challenges), WORDS(y),
                                WORDS(sum));
    printf("row sum: number %" PRIu64 ", sum %" PRIu64 "\n", number, sum[0]);

    number = hyperplonk_build(WORDS(circuit), instance, 0, WORDS(unlisted), challenges, 2, WORDS(columns), WORDS(nodes), WORDS(built));
    printf("build, input 6: number %" PRIu64 "\n", number);

    number = hyperplonk_build(WORDS(circuit), instance, 0, WORDS(witness), WORDS(unlucky), WORDS(columns), WORDS(nodes), WORDS(built));
    printf("build, gamma p - 5: number %" PRIu64 "%s\n", number,
           number == HYPERPLONK_ZERO_DENOMINATOR ? ", other challenges are to be drawn" : "");
    return 0;
}
