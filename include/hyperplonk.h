/*
 * The calls of HyperPlonk's building of columns over the Goldilocks field, p = 2^64 - 2^32 + 1.
 * Link target/staticlib/libhyperplonk.a, which `bindings/build` writes (x86-64 Linux).
 *
 * SLICES. A slice is lent as a pointer to its first word and its number of words. The pointer is aligned and never null, also where
 * the slice is empty: for an empty slice pass the address of any word, and 0. Words behind `const` are read only, and nothing writes
 * them during the call. A buffer overlaps no other slice of the call. The library keeps no pointer and no memory, allocates nothing,
 * and can be called from several threads at once. Trees are walked by recursion: a thread that makes calls should have 1 MiB of stack
 * (1024 nodes, one in another, were seen to take 0.2 MiB).
 *
 * NUMBERS. A field element is a word below p. Each call puts its questions in the order below and returns the number of the first that is
 * answered no, or 0 (HYPERPLONK_OK). The order is 1 to 9, 18, 10 to 15, 17; 16 is the row sum's, which asks it after 11. 3 and then 4 are
 * put to words 0 to 21, then 3 and then 4 to what follows. The constants below name the numbers. On 0 the first words of a buffer are
 * those that the call says (alone: the first 2^k are the column). On 15 and on 17 the column words needed become 0, and the nodes stay.
 * On any other number no word of a buffer is written, those of `answer` aside. Words past those needed are never written.
 *
 * ROWS. A column has 2^k words: word b is its value at row b. Rows also have an order: row 0 first, then 1, next(1), next(next(1)) ...
 * next(b) is 2 * b and, if bit k of that is set, that exclusive-or PRIMITIVES[k]:
 *
 *     k                1    2    3    4    5    6    7    8    9    10
 *     PRIMITIVES[k]    3    7   11   19   37   67  131  285  529  1033
 *
 * From row 1 all 2^k - 1 rows that are not 0 come once before 1 returns; next(0) is 0. The place of a row is its number in this order,
 * from 0 on. Do not take one for the other. They are the same for k = 1 and 2, and for k = 3:
 *
 *     place    0    1    2    3    4    5    6    7
 *     row      0    1    2    4    3    6    7    5
 *
 * Rotation r leads from a row to the row that is r steps of next on or, if r is negative, -r steps back: place 1 follows the last place.
 * From row 0 every rotation leads to row 0, and from no other row does one lead there.
 *
 * POLYNOMIALS are columns, numbered from 0 on in this order:
 *     instance      the circuit says how many values each has, at most 2^k - 1. The values are lent, one column's after another's.
 *                   Value t (from 0) stands at place t + 1; other rows are 0. At k = 3 the values 11 12 13 14 15 stand at the rows
 *                   1 2 4 3 6, and the column is 0 11 12 14 13 0 15 0.
 *     preprocess    the circuit has them, 2^k words each, by rows
 *     witness       lent, 2^k words each, by rows, one column after another, round after round
 * and in composed nodes then permutation, m, h, z.
 *
 * CIRCUIT WORDS. Word 0 is k. Word 1 is 0 for no maximum degree, else that degree + 1. Words 2 to 21 are ten pairs (start, count).
 * Counts are in entries. A start is the number of the body's first word: 22, then the start before it plus that body's words, also where
 * a body is empty. The bodies follow in this order without gaps, and nothing follows the last:
 *     instance lengths       1 word each
 *     preprocess columns     2^k words each
 *     rounds                 2 words each: witness columns, challenges. Each has a witness column, each but the last a challenge
 *     nodes                  4 words each
 *     constraint roots       1 word each: a node, to be 0 on every row, row 0 too
 *     lookup widths          1 word each
 *     lookup pairs           2 words each: input root, table root; as many as the widths sum to
 *     cycle lengths          1 word each
 *     cells                  2 words each: polynomial, row (not place) from 1 to 2^k - 1; as many as the lengths sum to
 *     group numbers          1 word each, one for each lookup: the first 0, each next the same or one more
 * Each lookup takes the next pairs, as many as its width: on every row, row 0 too, the inputs together are to be what the tables together
 * are on some row. Lookups of one number are a group, which has one m and one h: the tables of its lookups are to be as many, and the
 * same trees, pair by pair, whatever the numbers of their nodes. Numbers 0, 1, 2, ... are groups of one. Each cycle takes the next cells,
 * as many as its length, none twice: they are to hold one value.
 *
 * NODES. The four words of each kind, its value at row b, and its degree. An unused word is 0. A signed number i, from -2147483648 to
 * 2147483647, is kept as i + 2147483648 (HYPERPLONK_SIGNED). Sums and products are in the field.
 *
 *     1   Constant           1 0 0 v         v                                                       0
 *     2   Identity           2 0 0 0         the number b                                            1
 *     3   Lagrange(i)        3 0 0 i+2^31    1 where b is the row at place i mod 2^k, else 0. The    1
 *                                            remainder is never negative: Lagrange(-1) is 1 at the
 *                                            last place, Lagrange(2^k) at row 0
 *     4   EqXY(0)            4 0 0 0         the product over i from 0 to k - 1 of y_i where bit i   1
 *                                            of b is set, else of 1 - y_i. In composed nodes only
 *     5   Polynomial(q, r)   5 q 0 r+2^31    polynomial q at the row to which rotation r leads       1
 *                                            from b; r is from -k to k
 *     6   Challenge(i)       6 i 0 0         challenge i: in a circuit the user's, from 0 on         0
 *     7   Negated            7 a 0 0         0 - node a                                              a's
 *     8   Sum                8 a c 0         node a + node c                                         the larger
 *     9   Product            9 a c 0         node a * node c                                         their sum
 *     10  Scaled             10 a 0 v        node a * v                                              a's
 *     11  DistributePowers   11 a t 0        e_0 + base * e_1 + base^2 * e_2 + ..., the base being   the largest of
 *                                            node a, and the expressions e_0, e_1, ... those of the  e_i's + i * base's
 *                                            Items from Item t on
 *     12  Item               12 a t 1        none of its own: its expression is node a, and Item t
 *                                            is the next. The last Item is 12 a 0 0
 *
 * A list has two Items or more, and an Item is named only as the second word of kind 11 or 12. A node names lower nodes only, so the
 * first Item has the highest number; each node is named exactly once, by a node or as a root; a root is the number of a node that is no
 * Item. With e_0, e_1, e_2 at nodes 0, 1, 2 and the base at node 3, a list is node 4: 12 2 0 0, node 5: 12 1 4 1, node 6: 12 0 5 1,
 * node 7: 11 3 6 0.
 *
 * A group's constraint has degree 1 + the largest degree of the inputs of each of its lookups, added up, + the largest of its tables. D
 * is the largest of 2, the maximum degree that the circuit states, and the degrees of all user and group constraints. The copied columns
 * are the polynomials that cells name, each once, by rising number; n is how many. N = n / (D - 1), rounded up.
 *
 * COLUMNS that building writes, each 2^k words, by rows, in this order:
 *     instance       as above
 *     permutation    one for each copied column: its labels. Copied column number j (from 0) starts with j * 2^k + b at row b. Along
 *                    a cycle each cell takes the label that the cell before held when the cycle began, the first that of the last.
 *                    Cycles act one after another. At k = 2 the cycle (0, 1), (1, 2) makes 0 6 2 3 and 4 5 1 7.
 *     compressed     for each lookup the input, then the table: e_0 + beta * e_1 + beta^2 * e_2 + ... of its inputs, of its tables
 *     m              one for each group: at each row how many inputs are counted there, those of every lookup of the group on every row,
 *                    each at the last row (by row number) whose table value equals it. A group of s lookups has s * 2^k in all
 *     h              one for each group: 1 / (gamma + input) added up over its lookups, minus m / (gamma + table); the table is that of
 *                    the group's first lookup. Of a group of one m and h are hyperplonk_lookup_m_poly's and hyperplonk_lookup_h_poly's
 *     z              N of them, z_0 first. The copied columns are cut into N parts of n / N, rounded up, the last perhaps shorter. The
 *                    factor of a part at row b is the product, over its columns j, of (value + beta * (j * 2^k + b) + gamma) / (value +
 *                    beta * label + gamma), the column's value and label at b. Every z is 0 at row 0; z_0 is 1 at row 1. On every row
 *                    but 0, z_(i+1) is z_i times the factor of part i; and z_0 at next(b) is the last z at b times the factor of the
 *                    last part at b, for each b but row 0 and the row at the last place.
 * Denominators are gamma + input of each lookup and gamma + table of each group on every row, row 0 too and also where m is 0, and value
 * + beta * label + gamma of each copied column on every row but 0. If one is 0, and 15 is answered yes for every group, the number is 17.
 * A numerator, value + beta * (j * 2^k + b) + gamma, may be 0, and so may a copied column's factor on row 0.
 *
 * COMPOSED NODES are the constraints by powers of alpha, times EqXY(0); and then the h columns first, that product last, by powers of
 * alpha. Their challenges are the user's, then beta, gamma, alpha. The constraints are the user's, then these:
 *     for each group of s lookups, with I_i the compressed input of lookup i + gamma, and T the compressed table + gamma,
 *         h * I_1 * ... * I_s * T - T * (P_1 + ... + P_s) + m * I_1 * ... * I_s, where P_i is the product of all I_j but I_i, in rising
 *         order; of one lookup, h * I_1 * T - T + m * I_1. As nodes (A - B) + C, products and sums from the first on;
 *     if n is not 0, Lagrange(1) * (z_0 - 1), and for each part i of the copied columns cut into parts of D - 1, the last perhaps shorter,
 *         z_i * the product of (value + beta * (j * 2^k + Identity) + gamma) - next * the product of (value + beta * label + gamma),
 *         over its columns j; next is z_(i+1), after the last part z_0 with rotation 1.
 *
 * SIZES. hyperplonk_sizes answers them from the circuit words alone, so that buffers can be ordered before there is a log. Building
 * needs exactly these words: past 1 to 13 it gives 14 exactly when one of its buffers is shorter, and where it gives 0 it returns these
 * column words and nodes. The columns take (instance columns + n + 2 * lookups + 2 * groups + N) * 2^k words, the nodes 4 words each.
 * With list(x) = x + 2 for x > 1, else 0, there are, to be added up:
 *     all nodes of the user's constraints
 *     for each group of s lookups, with e = 2 + list(its width), (s + 1) * (all nodes of its inputs + s * e) + 2 * (all nodes of the
 *         tables of its first lookup + e) + s * s + s + 6
 *     if n is not 0, 6 + 18 * n + 4 * N
 *     list(user's constraints + groups + (N + 1 if n is not 0)) + 2 + groups + list(groups + 1)
 * One evaluation of the composed expression on one row visits each node once, also the base of a list, but no Item: the visits.
 * Room for HYPERPLONK_MAX_COLUMN_WORDS and HYPERPLONK_MAX_NODE_WORDS is enough for any circuit. No one circuit needs the most of all
 * three: groups of one take the most column words, eight lookups in one group the most nodes (at width 8) and visits (at width 2).
 *
 * CHALLENGES must be drawn once the columns before them are fixed: a round's after its witness columns, beta after all witness columns,
 * gamma after the m columns, alpha and y after the h and z columns. Drawing them, and committing to columns, is no part of this
 * library: they are taken as they are lent, the user's first, round after round. The instance, permutation, compressed and m columns and
 * number 15 do not depend on gamma: for m before gamma is drawn, build with any gamma that does not give 17, and build again with the
 * drawn one. On 17 the log is not at fault: other challenges are to be drawn. For one log and beta at most 90112 values of gamma give it.
 *
 * THE ROW SUM is 0 for every alpha and every y where it is given what a build wrote with number 0 and that build's circuit, witness and
 * challenges, and
 *     every user constraint is 0 on every row, and the cells of each cycle hold one value;
 *     the cuts are alike: the permutation's constraints cut the copied columns into parts of D - 1, z into parts of n / N, rounded up.
 * So a sum that is not 0 says: the log does not meet its circuit; or the cuts differ, which n and D decide (n = 4 with D = 4 are the
 * smallest: 3, 1 and 2, 2); or the words are not that build's. A sum of 0 at one alpha and y does not by itself say that the log meets
 * its circuit: y = 0, 0, ... looks at the constraints on row 0 only. The compressed columns are measured and their words held below p,
 * and not read.
 *
 * A SMALL CIRCUIT, k = 3. Polynomial 0 is an instance column of five values; polynomial 1 is the one witness column. On every row but
 * that at the last place: witness at rotation 1 = witness + instance value. As (1 - Lagrange(-1)) * (next - (here + value)), degree 2.
 *     word 0     3, 0                                        k; no maximum degree
 *     word 2     22, 1,   23, 0,   23, 1,   25, 11           instance lengths, preprocess columns, rounds, nodes
 *     word 10    69, 1,   70, 0,   70, 0,   70, 0,   70, 0   constraint roots, lookup widths, pairs, cycle lengths, cells
 *     word 20    70, 0                                       group numbers
 *     word 22    5                                           the instance column has five values
 *     word 23    1, 0                                        the round: one witness column, no challenge
 *     word 25    HYPERPLONK_POLYNOMIAL, 1, 0, HYPERPLONK_SIGNED(1)    node 0: the witness one row on
 *     word 29    HYPERPLONK_POLYNOMIAL, 1, 0, HYPERPLONK_SIGNED(0)    node 1: the witness
 *     word 33    HYPERPLONK_POLYNOMIAL, 0, 0, HYPERPLONK_SIGNED(0)    node 2: the instance value
 *     word 37    HYPERPLONK_SUM, 1, 2, 0                              node 3
 *     word 41    HYPERPLONK_NEGATED, 3, 0, 0                          node 4
 *     word 45    HYPERPLONK_SUM, 0, 4, 0                              node 5
 *     word 49    HYPERPLONK_CONSTANT, 0, 0, 1                         node 6
 *     word 53    HYPERPLONK_LAGRANGE, 0, 0, HYPERPLONK_SIGNED(-1)     node 7: 1 at the last place, row 5
 *     word 57    HYPERPLONK_NEGATED, 7, 0, 0                          node 8
 *     word 61    HYPERPLONK_SUM, 6, 8, 0                              node 9
 *     word 65    HYPERPLONK_PRODUCT, 9, 5, 0                          node 10
 *     word 69    10                                                   the constraint's root
 * Instance words 11 12 13 14 15. By places the witness is 0 100 111 123 136 150 165 165, so by rows, as its words are lent,
 * 0 100 111 136 123 165 150 165. Challenges beta, gamma: any two words below p. The sizes are 8 column words, 13 nodes, 13 visits.
 * Building writes the column words 0 11 12 14 13 0 15 0, and the nodes; there is no z. The row sum is 0 for every alpha and every three
 * values of y. bindings/c/total.c has a lookup and a cycle besides, and orders its buffers by the sizes.
 */
#ifndef HYPERPLONK_H
#define HYPERPLONK_H

#include <stddef.h>
#include <stdint.h>

#ifdef __cplusplus
extern "C" {
#endif

/* The field's prime. */
#define HYPERPLONK_P UINT64_C(18446744069414584321)

/* The word of a signed number (Lagrange, rotation). */
#define HYPERPLONK_SIGNED_OFFSET UINT64_C(2147483648)
#define HYPERPLONK_SIGNED(i) (HYPERPLONK_SIGNED_OFFSET + (uint64_t)(i))

/* PRIMITIVES[0] to PRIMITIVES[10], for an array: static const uint64_t primitives[] = HYPERPLONK_PRIMITIVES; */
#define HYPERPLONK_PRIMITIVES {1, 3, 7, 11, 19, 37, 67, 131, 285, 529, 1033}

/* Node kinds. */
#define HYPERPLONK_CONSTANT UINT64_C(1)
#define HYPERPLONK_IDENTITY UINT64_C(2)
#define HYPERPLONK_LAGRANGE UINT64_C(3)
#define HYPERPLONK_EQ_XY UINT64_C(4)
#define HYPERPLONK_POLYNOMIAL UINT64_C(5)
#define HYPERPLONK_CHALLENGE UINT64_C(6)
#define HYPERPLONK_NEGATED UINT64_C(7)
#define HYPERPLONK_SUM UINT64_C(8)
#define HYPERPLONK_PRODUCT UINT64_C(9)
#define HYPERPLONK_SCALED UINT64_C(10)
#define HYPERPLONK_DISTRIBUTE_POWERS UINT64_C(11)
#define HYPERPLONK_ITEM UINT64_C(12)

/* Numbers. 18 is asked after 9, and 17 after 15; 16 is the row sum's. */
#define HYPERPLONK_OK UINT64_C(0)
/* The circuit has fewer than 22 words. */
#define HYPERPLONK_TOO_FEW_WORDS UINT64_C(1)
/* k is not from 1 to 10. */
#define HYPERPLONK_BAD_K UINT64_C(2)
/* A count or a sum is past its limit below, or there is no round. */
#define HYPERPLONK_BAD_COUNT UINT64_C(3)
/* Starts, counts and total length do not agree, or there are not as many group numbers as lookups. */
#define HYPERPLONK_BAD_CONTENTS UINT64_C(4)
/* A round has no witness column, a round but the last has no challenge, or an instance column has more than 2^k - 1 values. */
#define HYPERPLONK_BAD_ROUND_OR_INSTANCE UINT64_C(5)
/* A preprocess value, a Constant or a scalar is not below p. */
#define HYPERPLONK_BAD_CIRCUIT_VALUE UINT64_C(6)
/* The nodes are not laid out as above. */
#define HYPERPLONK_BAD_NODE_LAYOUT UINT64_C(7)
/* A polynomial or user challenge number is out of range, a rotation is not from -k to k, or a node has kind 4. */
#define HYPERPLONK_BAD_NODE_RANGE UINT64_C(8)
/* A width is 0, or there is no constraint, no lookup and no cycle. */
#define HYPERPLONK_EMPTY_LOOKUP_OR_CIRCUIT UINT64_C(9)
/* A user or group constraint's degree is above 1024, or a user constraint's above the stated maximum. */
#define HYPERPLONK_BAD_DEGREE UINT64_C(10)
/* A cycle is empty, a cell's polynomial is out of range or its row not from 1 to 2^k - 1, or a cell is twice in one cycle. */
#define HYPERPLONK_BAD_CYCLE UINT64_C(11)
/* A lent length is not the exact one: instance, witness or challenge words (alone: a column's 2^k words; eq_xy: y's k words). */
#define HYPERPLONK_BAD_LENGTH UINT64_C(12)
/* A lent word that stands for a field element is not below p. */
#define HYPERPLONK_BAD_VALUE UINT64_C(13)
/* A buffer has fewer words than needed (build: those of hyperplonk_sizes; alone: 2^k). */
#define HYPERPLONK_SHORT_BUFFER UINT64_C(14)
/* (Build, counts.) An input equals no table row; building: no row of its group's table. */
#define HYPERPLONK_NOT_IN_TABLE UINT64_C(15)
/* (Row sum.) Witness, columns, nodes, challenges or y have not the exact length, the node words are not those that building writes,
 * or another value is not below p. */
#define HYPERPLONK_BAD_ROW_SUM_WORDS UINT64_C(16)
/* (Build, h.) A denominator is 0: other challenges are to be drawn. */
#define HYPERPLONK_ZERO_DENOMINATOR UINT64_C(17)
/* The group numbers do not start at 0, or one is neither the one before nor one more; or tables of one group differ in width or as
 * trees. Asked after 9. */
#define HYPERPLONK_BAD_GROUPS UINT64_C(18)

/* Limits. k is 1 or more, and so are the rounds; witness columns, user challenges and cells are counted in all. The stated degree is
 * that of word 1, the degree that of any user or group constraint. */
#define HYPERPLONK_MAX_K UINT64_C(10)
#define HYPERPLONK_MAX_INSTANCE_COLUMNS UINT64_C(8)
#define HYPERPLONK_MAX_PREPROCESS_COLUMNS UINT64_C(32)
#define HYPERPLONK_MAX_ROUNDS UINT64_C(4)
#define HYPERPLONK_MAX_WITNESS_COLUMNS UINT64_C(32)
#define HYPERPLONK_MAX_USER_CHALLENGES UINT64_C(16)
#define HYPERPLONK_MAX_NODES UINT64_C(1024)
#define HYPERPLONK_MAX_CONSTRAINTS UINT64_C(32)
#define HYPERPLONK_MAX_LOOKUPS UINT64_C(8)
#define HYPERPLONK_MAX_WIDTH UINT64_C(8)
#define HYPERPLONK_MAX_CYCLES UINT64_C(1024)
#define HYPERPLONK_MAX_CELLS UINT64_C(4096)
#define HYPERPLONK_MAX_STATED_DEGREE UINT64_C(32)
#define HYPERPLONK_MAX_DEGREE UINT64_C(1024)

/* The words of the contents, before the bodies; the most words that a circuit has, that columns and nodes take; and the most nodes that
 * one evaluation on one row visits. */
#define HYPERPLONK_CONTENTS_WORDS UINT64_C(22)
#define HYPERPLONK_MAX_CIRCUIT_WORDS UINT64_C(46294)
#define HYPERPLONK_MAX_COLUMN_WORDS UINT64_C(188416)
#define HYPERPLONK_MAX_COMPOSED_NODES UINT64_C(11295)
#define HYPERPLONK_MAX_NODE_WORDS UINT64_C(45180)
#define HYPERPLONK_MAX_VISITS UINT64_C(11047)

/* What building needs, from the circuit alone. The first three words of the answer become: the column words needed; the nodes of the
 * composed expression, of which building needs 4 node words each; the nodes visited by one evaluation of the composed expression on one
 * row, every node once, Items not at all. All are 0 when refused; a shorter answer is left as it is. Where this gives 0 and the log's
 * words pass 12 and 13, building gives 14 exactly when a buffer is shorter than these words; where building gives 0, the first two words
 * of its answer are these. Returns 0 to 11 or 18, as building does. */
uint64_t hyperplonk_sizes(const uint64_t *circuit, size_t circuit_len,
                          uint64_t *answer, size_t answer_len);

/* The columns and the composed expression of a log. Instance words are the instance columns' values, witness words the witness columns;
 * challenges are the user's, then beta, gamma. Columns, 2^k words each: instance, permutation, compressed input and table per lookup, m
 * per group, h per group, z. Nodes, 4 words each: the root is the last. The first three words of the answer become column words written,
 * nodes written, z columns, all 0 when refused; a shorter answer is left as it is. Returns 0 to 15, 17, 18. */
uint64_t hyperplonk_build(const uint64_t *circuit, size_t circuit_len,
                          const uint64_t *instance, size_t instance_len,
                          const uint64_t *witness, size_t witness_len,
                          const uint64_t *challenges, size_t challenges_len,
                          uint64_t *columns, size_t columns_len,
                          uint64_t *nodes, size_t nodes_len,
                          uint64_t *answer, size_t answer_len);

/* The sum of the composed expression over all rows. Columns and nodes are the words that building wrote, and no more. Challenges are
 * the user's, then beta, gamma, alpha; y has k words. The first word of the answer becomes the sum, 0 when refused; an empty answer is
 * left as it is. Returns 0 to 11, 16, 18: a sum that is not 0 is no refusal. */
uint64_t hyperplonk_row_sum(const uint64_t *circuit, size_t circuit_len,
                            const uint64_t *witness, size_t witness_len,
                            const uint64_t *columns, size_t columns_len,
                            const uint64_t *nodes, size_t nodes_len,
                            const uint64_t *challenges, size_t challenges_len,
                            const uint64_t *y, size_t y_len,
                            uint64_t *answer, size_t answer_len);

/* m: how many inputs are counted at each table row. An input is counted at the last row (by row number) whose table value equals it.
 * Returns 0, 2, 12, 13, 14, 15. */
uint64_t hyperplonk_lookup_m_poly(uint64_t k,
                                  const uint64_t *input, size_t input_len,
                                  const uint64_t *table, size_t table_len,
                                  uint64_t *m, size_t m_len);

/* h: 1 / (gamma + input) - m / (gamma + table) on each row. If one of these denominators is 0, on any row and whatever m is there, the
 * number is 17, the last that is asked. Returns 0, 2, 12, 13, 14, 17. */
uint64_t hyperplonk_lookup_h_poly(uint64_t k,
                                  const uint64_t *input, size_t input_len,
                                  const uint64_t *table, size_t table_len,
                                  const uint64_t *m, size_t m_len,
                                  uint64_t gamma,
                                  uint64_t *h, size_t h_len);

/* out: on row b the product over i of y_i where bit i of b is set, else 1 - y_i. Returns 0, 2, 12, 13, 14. */
uint64_t hyperplonk_eq_xy(uint64_t k,
                          const uint64_t *y, size_t y_len,
                          uint64_t *out, size_t out_len);

#ifdef __cplusplus
}
#endif

#endif
