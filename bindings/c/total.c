/* A log of readings whose running total ends at a public value, written with the constants of hyperplonk.h alone. k = 3. Polynomials:
 * 0 the instance column, 1 the table of allowed readings, 2 the running total, 3 the readings. On every row but that at the last place
 * the total one row on is the total plus the reading; the total starts at 0; each reading is in the table; and the total at the last
 * place is the public value. The buffers are ordered by the circuit alone, before there is a log. */
#include <hyperplonk.h>
#include <inttypes.h>
#include <stdio.h>
#include <stdlib.h>
#include <string.h>

#define WORDS(a) (a), sizeof(a) / sizeof((a)[0])

enum { K = 3, ROWS = 1 << K, NODES = 16, CELL = 22 + 1 + ROWS + 2 + 4 * NODES + 2 + 1 + 2 + 1 };

static const uint64_t circuit[] = {
    K, 0,                                                /* words 0 and 1: k; no maximum degree */
    22, 1,                                               /* words 2 and 3: instance lengths start at word 22, and there is one */
    23, 1,                                               /* preprocess columns */
    31, 1,                                               /* rounds */
    33, NODES,                                           /* nodes */
    97, 2,                                               /* constraint roots */
    99, 1,                                               /* lookup widths */
    100, 1,                                              /* lookup pairs */
    102, 1,                                              /* cycle lengths */
    103, 2,                                              /* cells */
    107, 1,                                              /* group numbers */
    1,                                                   /* word 22: the instance column has one value, at place 1 */
    0, 1, 2, 5, 5, 10, 20, 50,                           /* word 23: the table, by rows; 5 is listed twice */
    2, 0,                                                /* word 31: the round has two witness columns and no challenge */
    HYPERPLONK_POLYNOMIAL, 2, 0, HYPERPLONK_SIGNED(1),   /* node 0, word 33: the total one row on */
    HYPERPLONK_POLYNOMIAL, 2, 0, HYPERPLONK_SIGNED(0),   /* node 1: the total */
    HYPERPLONK_POLYNOMIAL, 3, 0, HYPERPLONK_SIGNED(0),   /* node 2: the reading */
    HYPERPLONK_SUM, 1, 2, 0,                             /* node 3 */
    HYPERPLONK_NEGATED, 3, 0, 0,                         /* node 4 */
    HYPERPLONK_SUM, 0, 4, 0,                             /* node 5: total one row on - (total + reading) */
    HYPERPLONK_CONSTANT, 0, 0, 1,                        /* node 6 */
    HYPERPLONK_LAGRANGE, 0, 0, HYPERPLONK_SIGNED(-1),    /* node 7: 1 at the last place */
    HYPERPLONK_NEGATED, 7, 0, 0,                         /* node 8 */
    HYPERPLONK_SUM, 6, 8, 0,                             /* node 9: 0 at the last place, else 1 */
    HYPERPLONK_PRODUCT, 9, 5, 0,                         /* node 10: the first constraint */
    HYPERPLONK_LAGRANGE, 0, 0, HYPERPLONK_SIGNED(1),     /* node 11: 1 at place 1 */
    HYPERPLONK_POLYNOMIAL, 2, 0, HYPERPLONK_SIGNED(0),   /* node 12: the total, once more, since a node is named once */
    HYPERPLONK_PRODUCT, 11, 12, 0,                       /* node 13: the second constraint */
    HYPERPLONK_POLYNOMIAL, 3, 0, HYPERPLONK_SIGNED(0),   /* node 14: the lookup's input */
    HYPERPLONK_POLYNOMIAL, 1, 0, HYPERPLONK_SIGNED(0),   /* node 15: the lookup's table */
    10, 13,                                              /* word 97: the constraints' roots */
    1,                                                   /* word 99: the lookup has one pair */
    14, 15,                                              /* word 100: its input and its table */
    2,                                                   /* word 102: the cycle has two cells */
    0, 1,                                                /* word 103: the instance column at row 1, which is at place 1 */
    2, 5,                                                /* the total at row 5, which is at the last place */
    0,                                                   /* word 107: the lookup's group */
};

/* The log as it was taken, place by place. Row 0, at place 0, is one that no rotation leads to from another row. */
static const uint64_t totals[ROWS] = {0, 0, 5, 10, 11, 13, 23, 43};
static const uint64_t readings[ROWS] = {0, 5, 5, 1, 2, 10, 20, 0};
static const uint64_t public_total[] = {43};
static const uint64_t other_total[] = {44};
static const uint64_t challenges[] = {10, 100, 7}; /* beta, gamma, alpha */
static const uint64_t y[K] = {3, 4, 5};

/* instance, two permutation columns, compressed input and table, m, h, z */
enum { M = 5 * ROWS };

static uint64_t *columns, *nodes, sizes[3], built[3];
static size_t columns_len, nodes_len;

/* Prints the sizes of a circuit, and returns the number. */
static uint64_t size(const char *name, const uint64_t *words) {
    uint64_t number = hyperplonk_sizes(words, sizeof(circuit) / sizeof(circuit[0]), WORDS(sizes));
    printf("%s: sizes number %" PRIu64 ", column words %" PRIu64 ", nodes %" PRIu64 ", visits %" PRIu64 "\n", name, number, sizes[0],
           sizes[1], sizes[2]);
    return number;
}

/* Orders buffers of exactly the words that building needs. */
static int order(void) {
    if (size("circuit", circuit) != HYPERPLONK_OK)
        return 0;
    columns_len = sizes[0];
    nodes_len = 4 * sizes[1];
    columns = (uint64_t *)malloc(columns_len * sizeof(uint64_t));
    nodes = (uint64_t *)malloc(nodes_len * sizeof(uint64_t));
    return columns != NULL && nodes != NULL;
}

/* A column by rows, from its values by places. */
static void by_rows(uint64_t *column, const uint64_t *values) {
    static const uint64_t primitives[] = HYPERPLONK_PRIMITIVES;
    uint64_t row = 1;
    int place;
    column[0] = values[0];
    for (place = 1; place < ROWS; place++) {
        column[row] = values[place];
        row = row * 2;
        if (row >> K & 1)
            row = row ^ primitives[K];
    }
}

static void show(const char *name, const uint64_t *column) {
    int b;
    printf("%s:", name);
    for (b = 0; b < ROWS; b++)
        printf(" %" PRIu64, column[b]);
    printf("\n");
}

/* Builds, and prints the number and, if it is 0, the row sum. */
static void run(const char *name, const uint64_t *words, const uint64_t *instance, const uint64_t *witness) {
    uint64_t sum[1], number;
    number = hyperplonk_build(words, sizeof(circuit) / sizeof(circuit[0]), instance, 1, witness, 2 * ROWS, challenges, 2, columns,
                              columns_len, nodes, nodes_len, WORDS(built));
    printf("%s: number %" PRIu64 ", column words %" PRIu64 ", nodes %" PRIu64 ", z columns %" PRIu64 "\n", name, number, built[0],
           built[1], built[2]);
    if (number == HYPERPLONK_BAD_CYCLE)
        printf("%s: refused, HYPERPLONK_BAD_CYCLE\n", name);
    if (number != HYPERPLONK_OK)
        return;
    number = hyperplonk_row_sum(words, sizeof(circuit) / sizeof(circuit[0]), witness, 2 * ROWS, columns, built[0], nodes, 4 * built[1],
                                WORDS(challenges), WORDS(y), WORDS(sum));
    printf("%s: row sum number %" PRIu64 ", sum %s\n", name, number, sum[0] == 0 ? "0" : "not 0");
}

int main(void) {
    uint64_t witness[2 * ROWS], refused[sizeof(circuit) / sizeof(circuit[0])];

    if (!order())
        return 1;
    by_rows(witness, totals);
    by_rows(witness + ROWS, readings);
    show("totals", witness);
    show("readings", witness + ROWS);
    run("log", circuit, public_total, witness);
    show("instance", columns);
    show("labels of polynomial 0", columns + ROWS);
    show("labels of polynomial 2", columns + 2 * ROWS);
    show("m", columns + M);

    run("wrong copy", circuit, other_total, witness);

    columns_len -= 1;
    run("a column word less", circuit, public_total, witness);
    columns_len += 1;

    memcpy(refused, circuit, sizeof(circuit));
    refused[CELL + 1] = 0; /* row 0 can be in no cycle */
    size("cell at row 0", refused);
    run("cell at row 0", refused, public_total, witness);
    free(columns);
    free(nodes);
    return 0;
}
