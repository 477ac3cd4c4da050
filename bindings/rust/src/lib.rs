//! HyperPlonk's columns and composed expression over the Goldilocks field, from Rust.
//!
//! Each function makes one call of the proved library, libhyperplonk.a, and returns what it returns: a refusal, number 1 to 18, is a
//! [`Refusal`]. Words are `u64`, and a field element is a word below [`P`]. The library allocates nothing and keeps nothing, so calls
//! can run on several threads at once. Trees are walked by recursion: a thread that makes calls should have 1 MiB of stack, as Rust's
//! have unless told otherwise.
//!
//! # Rows
//!
//! A column has 2^k words: word b is its value at row b. Rows also have an order: row 0 first, then 1, next(1), next(next(1)) and so
//! on. next(b) is 2 × b and, if bit k of that is set, that exclusive-or [`PRIMITIVES`]`[k]`:
//!
//! | k | 1 | 2 | 3 | 4 | 5 | 6 | 7 | 8 | 9 | 10 |
//! |---|---|---|---|---|---|---|---|---|---|---|
//! | `PRIMITIVES[k]` | 3 | 7 | 11 | 19 | 37 | 67 | 131 | 285 | 529 | 1033 |
//!
//! From row 1 all 2^k − 1 rows that are not 0 come once before 1 returns; next(0) is 0. The place of a row is its number in this order,
//! from 0 on. Do not take one for the other. They are the same for k = 1 and 2, and for k = 3:
//!
//! | place | 0 | 1 | 2 | 3 | 4 | 5 | 6 | 7 |
//! |---|---|---|---|---|---|---|---|---|
//! | row | 0 | 1 | 2 | 4 | 3 | 6 | 7 | 5 |
//!
//! Rotation r leads from a row to the row that is r steps of next on or, if r is negative, −r steps back: place 1 follows the last
//! place. From row 0 every rotation leads to row 0, and from no other row does one lead there.
//!
//! ```
//! use hyperplonk::PRIMITIVES;
//!
//! fn next(k: usize, b: u64) -> u64 {
//!     let doubled = 2 * b;
//!     if doubled >> k & 1 == 1 { doubled ^ PRIMITIVES[k] } else { doubled }
//! }
//! fn order(k: usize) -> Vec<u64> {
//!     let others = std::iter::successors(Some(1), |b| Some(next(k, *b))).take((1 << k) - 1);
//!     std::iter::once(0).chain(others).collect()
//! }
//! assert_eq!(order(3), [0, 1, 2, 4, 3, 6, 7, 5]);
//! assert_eq!((next(3, 5), next(3, 0)), (1, 0));
//! ```
//!
//! # Polynomials
//!
//! Polynomials are columns, numbered from 0 on in this order, and in composed nodes then permutation, m, h, z:
//!
//! | columns | where they are |
//! |---|---|
//! | instance | The circuit says how many values each has, at most 2^k − 1. The values are lent, one column's after another's. Value t (from 0) stands at place t + 1; other rows are 0. At k = 3 the values 11 12 13 14 15 stand at the rows 1 2 4 3 6, and the column is 0 11 12 14 13 0 15 0. |
//! | preprocess | The circuit has them, 2^k words each, by rows. |
//! | witness | Lent, 2^k words each, by rows, one column after another, round after round. |
//!
//! # Circuit words
//!
//! Word 0 is k. Word 1 is 0 for no maximum degree, else that degree + 1. Words 2 to 21 are ten pairs (start, count). Counts are in
//! entries. A start is the number of the body's first word: 22, then the start before it plus that body's words, also where a body is
//! empty. The bodies follow in this order without gaps, and nothing follows the last:
//!
//! | body | words each | |
//! |---|---|---|
//! | instance lengths | 1 | |
//! | preprocess columns | 2^k | |
//! | rounds | 2 | witness columns, challenges. Each has a witness column, each but the last a challenge |
//! | nodes | 4 | |
//! | constraint roots | 1 | a node, to be 0 on every row, row 0 too |
//! | lookup widths | 1 | |
//! | lookup pairs | 2 | input root, table root; as many as the widths sum to |
//! | cycle lengths | 1 | |
//! | cells | 2 | polynomial, row (not place) from 1 to 2^k − 1; as many as the lengths sum to |
//! | group numbers | 1 | one for each lookup: the first 0, each next the same or one more |
//!
//! Each lookup takes the next pairs, as many as its width: on every row, row 0 too, the inputs together are to be what the tables
//! together are on some row. Lookups of one number are a group, which has one m and one h: the tables of its lookups are to be as many,
//! and the same trees, pair by pair, whatever the numbers of their nodes. Numbers 0, 1, 2, … are groups of one. Each cycle takes the
//! next cells, as many as its length, none twice: they are to hold one value. The limits are in [`limit`].
//!
//! # Nodes
//!
//! The four words of each [`kind`], its value at row b, and its degree. An unused word is 0. A signed number i is kept as i + 2^31
//! ([`signed`]). Sums and products are in the field.
//!
//! | kind | words | value at row b | degree |
//! |---|---|---|---|
//! | Constant | `1 0 0 v` | v | 0 |
//! | Identity | `2 0 0 0` | the number b | 1 |
//! | Lagrange(i) | `3 0 0 i+2^31` | 1 where b is the row at place i mod 2^k, else 0. The remainder is never negative: Lagrange(−1) is 1 at the last place, Lagrange(2^k) at row 0 | 1 |
//! | EqXY(0) | `4 0 0 0` | the product over i from 0 to k − 1 of y_i where bit i of b is set, else of 1 − y_i. In composed nodes only | 1 |
//! | Polynomial(q, r) | `5 q 0 r+2^31` | polynomial q at the row to which rotation r leads from b; r is from −k to k | 1 |
//! | Challenge(i) | `6 i 0 0` | challenge i: in a circuit the user's, from 0 on | 0 |
//! | Negated | `7 a 0 0` | 0 − node a | a's |
//! | Sum | `8 a c 0` | node a + node c | the larger |
//! | Product | `9 a c 0` | node a × node c | their sum |
//! | Scaled | `10 a 0 v` | node a × v | a's |
//! | DistributePowers | `11 a t 0` | e_0 + base × e_1 + base² × e_2 + …, the base being node a, and the expressions e_0, e_1, … those of the Items from Item t on | the largest of e_i's + i × base's |
//! | Item | `12 a t 1` | none of its own: its expression is node a, and Item t is the next. The last Item is `12 a 0 0` | |
//!
//! A list has two Items or more, and an Item is named only as the second word of kind 11 or 12. A node names lower nodes only, so the
//! first Item has the highest number; each node is named exactly once, by a node or as a root; a root is the number of a node that is
//! no Item. With e_0, e_1, e_2 at nodes 0, 1, 2 and the base at node 3, a list is:
//!
//! ```
//! use hyperplonk::kind::{DISTRIBUTE_POWERS, ITEM};
//! let nodes_4_to_7 = [[ITEM, 2, 0, 0], [ITEM, 1, 4, 1], [ITEM, 0, 5, 1], [DISTRIBUTE_POWERS, 3, 6, 0]];
//! # assert_eq!(nodes_4_to_7.concat(), [12, 2, 0, 0, 12, 1, 4, 1, 12, 0, 5, 1, 11, 3, 6, 0]);
//! ```
//!
//! A group's constraint has degree 1 + the largest degree of the inputs of each of its lookups, added up, + the largest of its tables.
//! D is the largest of 2, the maximum degree that the circuit states, and the degrees of all user and group constraints. The copied
//! columns are the polynomials that cells name, each once, by rising number; n is how many. N = n / (D − 1), rounded up.
//!
//! # Columns
//!
//! Building writes these columns, each 2^k words, by rows, in this order:
//!
//! | columns | what they hold |
//! |---|---|
//! | instance | as above |
//! | permutation | One for each copied column: its labels. Copied column number j (from 0) starts with j × 2^k + b at row b. Along a cycle each cell takes the label that the cell before held when the cycle began, the first that of the last. Cycles act one after another. At k = 2 the cycle (0, 1), (1, 2) makes 0 6 2 3 and 4 5 1 7. |
//! | compressed | For each lookup the input, then the table: e_0 + β × e_1 + β² × e_2 + … of its inputs, of its tables. |
//! | m | One for each group: at each row how many inputs are counted there, those of every lookup of the group on every row, each at the last row (by row number) whose table value equals it. A group of s lookups has s × 2^k in all. Of a group of one: [`lookup_m_poly`]. |
//! | h | One for each group: 1 / (γ + input) added up over its lookups, minus m / (γ + table); the table is that of the group's first lookup. Of a group of one: [`lookup_h_poly`]. |
//! | z | N of them, z_0 first. The copied columns are cut into N parts of n / N, rounded up, the last perhaps shorter. The factor of a part at row b is the product, over its columns j, of (value + β × (j × 2^k + b) + γ) / (value + β × label + γ), the column's value and label at b. Every z is 0 at row 0; z_0 is 1 at row 1. On every row but 0, z_(i+1) is z_i times the factor of part i; and z_0 at next(b) is the last z at b times the factor of the last part at b, for each b but row 0 and the row at the last place. |
//!
//! Denominators are γ + input of each lookup and γ + table of each group on every row, row 0 too and also where m is 0, and value +
//! β × label + γ of each copied column on every row but 0. If one is 0, and 15 is answered yes for every group, the number is 17. A
//! numerator, value + β × (j × 2^k + b) + γ, may be 0, and so may a copied column's factor on row 0.
//!
//! # Composed nodes
//!
//! They are the constraints by powers of α, times EqXY(0); and then the h columns first, that product last, by powers of α. Their
//! challenges are the user's, then β, γ, α. The constraints are the user's, then these:
//!
//! - for each group of s lookups, with I_i the compressed input of lookup i + γ, and T the compressed table + γ,
//!   h × I_1 × … × I_s × T − T × (P_1 + … + P_s) + m × I_1 × … × I_s, where P_i is the product of all I_j but I_i, in rising order; of
//!   one lookup, h × I_1 × T − T + m × I_1. As nodes (A − B) + C, products and sums from the first on;
//! - if n is not 0, Lagrange(1) × (z_0 − 1), and for each part i of the copied columns cut into parts of D − 1, the last perhaps shorter,
//!   z_i × the product of (value + β × (j × 2^k + Identity) + γ) − next × the product of (value + β × label + γ), over its columns j;
//!   next is z_(i+1), after the last part z_0 with rotation 1.
//!
//! # Sizes
//!
//! [`sizes`] answers them from the circuit words alone, so that buffers can be ordered before there is a log. Building needs exactly
//! these words: past 1 to 13 it gives 14 exactly when one of its buffers is shorter, and where it is not refused it returns these column
//! words and nodes. The columns take (instance columns + n + 2 × lookups + 2 × groups + N) × 2^k words, the nodes 4 words each. With
//! list(x) = x + 2 for x > 1, else 0, there are, to be added up:
//!
//! - all nodes of the user's constraints;
//! - for each group of s lookups, with e = 2 + list(its width), (s + 1) × (all nodes of its inputs + s × e) + 2 × (all nodes of the
//!   tables of its first lookup + e) + s × s + s + 6;
//! - if n is not 0, 6 + 18 × n + 4 × N;
//! - list(user's constraints + groups + (N + 1 if n is not 0)) + 2 + groups + list(groups + 1).
//!
//! One evaluation of the composed expression on one row visits each node once, also the base of a list, but no Item: the visits.
//!
//! Room for [`MAX_COLUMN_WORDS`] and [`MAX_NODE_WORDS`] is enough for any circuit. No one circuit needs the most of all three: groups of
//! one take the most column words, eight lookups in one group the most nodes (at width 8) and visits (at width 2).
//!
//! # Challenges
//!
//! They must be drawn once the columns before them are fixed: a round's after its witness columns, β after all witness columns, γ after
//! the m columns, α and y after the h and z columns. Drawing them, and committing to columns, is no part of this library: they are taken
//! as they are lent, the user's first, round after round. The instance, permutation, compressed and m columns and number 15 do not
//! depend on γ: for m before γ is drawn, build with any γ that does not give 17, and build again with the drawn one. On 17 the log is
//! not at fault: other challenges are to be drawn. For one log and β at most 90,112 values of γ give it.
//!
//! # The row sum
//!
//! It is 0 for every α and every y where it is given what a [`build`] wrote and that build's circuit, witness and challenges, and
//!
//! - every user constraint is 0 on every row, and the cells of each cycle hold one value;
//! - the cuts are alike: the permutation's constraints cut the copied columns into parts of D − 1, z into parts of n / N, rounded up.
//!
//! So a sum that is not 0 says: the log does not meet its circuit; or the cuts differ, which n and D decide (n = 4 with D = 4 are the
//! smallest: 3, 1 and 2, 2); or the words are not that build's. A sum of 0 at one α and y does not by itself say that the log meets its
//! circuit: y = 0, 0, … looks at the constraints on row 0 only. The compressed columns are measured and their words held below p, and
//! not read.
//!
//! # A small circuit
//!
//! k = 3. Polynomial 0 is an instance column of five values; polynomial 1 is the one witness column. On every row but that at the last
//! place: witness at rotation 1 = witness + instance value. As (1 − Lagrange(−1)) × (next − (here + value)), degree 2.
//!
//! ```
//! use hyperplonk::{kind::*, signed};
//!
//! let circuit = [
//!     3, 0, // k; no maximum degree
//!     22, 1, // instance lengths: start, count
//!     23, 0, // preprocess columns
//!     23, 1, // rounds
//!     25, 11, // nodes
//!     69, 1, // constraint roots
//!     70, 0, // lookup widths
//!     70, 0, // lookup pairs
//!     70, 0, // cycle lengths
//!     70, 0, // cells
//!     70, 0, // group numbers
//!     5, // word 22: the instance column has five values
//!     1, 0, // word 23: the round has one witness column and no challenge
//!     POLYNOMIAL, 1, 0, signed(1), // node 0, word 25: the witness one row on
//!     POLYNOMIAL, 1, 0, signed(0), // node 1: the witness
//!     POLYNOMIAL, 0, 0, signed(0), // node 2: the instance value
//!     SUM, 1, 2, 0, // node 3
//!     NEGATED, 3, 0, 0, // node 4
//!     SUM, 0, 4, 0, // node 5
//!     CONSTANT, 0, 0, 1, // node 6
//!     LAGRANGE, 0, 0, signed(-1), // node 7: 1 at the last place, row 5
//!     NEGATED, 7, 0, 0, // node 8
//!     SUM, 6, 8, 0, // node 9
//!     PRODUCT, 9, 5, 0, // node 10
//!     10, // word 69: the constraint's root
//! ];
//! let instance = [11, 12, 13, 14, 15];
//! // By places 0 100 111 123 136 150 165 165.
//! let witness = [0, 100, 111, 136, 123, 165, 150, 165];
//! let (beta, gamma, alpha, y) = (10, 100, 7, [3, 4, 5]);
//!
//! let sizes = hyperplonk::sizes(&circuit)?;
//! assert_eq!((sizes.column_words, sizes.nodes, sizes.visits), (8, 13, 13));
//!
//! let (mut columns, mut nodes) = ([0; 8], [0; 4 * 13]);
//! let built = hyperplonk::build(&circuit, &instance, &witness, &[beta, gamma], &mut columns, &mut nodes)?;
//! assert_eq!((built.column_words, built.nodes, built.z_columns), (8, 13, 0));
//! assert_eq!(columns, [0, 11, 12, 14, 13, 0, 15, 0]);
//! assert_eq!(hyperplonk::row_sum(&circuit, &witness, &columns, &nodes, &[beta, gamma, alpha], &y), Ok(0));
//!
//! // Another instance value: the log does not meet its circuit.
//! hyperplonk::build(&circuit, &[11, 12, 13, 14, 16], &witness, &[beta, gamma], &mut columns, &mut nodes)?;
//! assert_ne!(hyperplonk::row_sum(&circuit, &witness, &columns, &nodes, &[beta, gamma, alpha], &y), Ok(0));
//!
//! // A value that is missing: question 12.
//! let refused = hyperplonk::build(&circuit, &instance[..4], &witness, &[beta, gamma], &mut columns, &mut nodes);
//! assert_eq!(refused, Err(hyperplonk::Refusal::BadLength));
//! # Ok::<(), hyperplonk::Refusal>(())
//! ```
//!
//! # A table that lists a row twice
//!
//! The last of the two takes the count. The buffers are ordered before there is a log.
//!
//! ```
//! use hyperplonk::{kind::POLYNOMIAL, signed};
//!
//! let circuit = [
//!     2, 0, // k, no maximum degree
//!     22, 0, 22, 1, 26, 1, 28, 2, 36, 0, 36, 1, 37, 1, 39, 0, 39, 0, 39, 1, // starts and counts
//!     5, 7, 7, 9, // the preprocess column: polynomial 0
//!     1, 0, // the round: one witness column, polynomial 1, and no challenge
//!     POLYNOMIAL, 1, 0, signed(0), // node 0
//!     POLYNOMIAL, 0, 0, signed(0), // node 1
//!     1, 0, 1, // one lookup of width 1: input node 0, table node 1
//!     0, // its group
//! ];
//! let sizes = hyperplonk::sizes(&circuit)?;
//! let (mut columns, mut nodes) = (vec![0; sizes.column_words], vec![0; 4 * sizes.nodes]);
//!
//! let (witness, challenges) = ([7, 7, 5, 9], [10, 100]);
//! let built = hyperplonk::build(&circuit, &[], &witness, &challenges, &mut columns, &mut nodes)?;
//! assert_eq!((built.column_words, built.nodes, built.z_columns), (16, 27, 0));
//! assert_eq!(columns[8..12], [1, 0, 2, 1]); // m, after the compressed input and table
//!
//! let (alpha, y) = (2, [0, 2]);
//! assert_eq!(hyperplonk::row_sum(&circuit, &witness, &columns, &nodes, &[10, 100, alpha], &y)?, 0);
//! # Ok::<(), hyperplonk::Refusal>(())
//! ```
//!
//! # Two readings of one table
//!
//! In one group they share m and h.
//!
//! ```
//! use hyperplonk::{kind::POLYNOMIAL, signed};
//!
//! let circuit = [
//!     2, 0, // k, no maximum degree
//!     22, 0, 22, 1, 26, 1, 28, 4, 44, 0, 44, 2, 46, 2, 50, 0, 50, 0, 50, 2, // starts and counts
//!     5, 7, 7, 9, // the preprocess column: polynomial 0
//!     2, 0, // the round: two witness columns, polynomials 1 and 2
//!     POLYNOMIAL, 1, 0, signed(0), // node 0: the first reading
//!     POLYNOMIAL, 0, 0, signed(0), // node 1: the table
//!     POLYNOMIAL, 2, 0, signed(0), // node 2: the second reading
//!     POLYNOMIAL, 0, 0, signed(0), // node 3: the table, once more, since a node is named once
//!     1, 1, 0, 1, 2, 3, // two lookups of width 1
//!     0, 0, // both in group 0
//! ];
//! let sizes = hyperplonk::sizes(&circuit)?;
//! assert_eq!((sizes.column_words, sizes.nodes, sizes.visits), (24, 43, 41));
//! let (mut columns, mut nodes) = (vec![0; sizes.column_words], vec![0; 4 * sizes.nodes]);
//!
//! let witness = [7, 7, 5, 9, 9, 9, 7, 5];
//! let _ = hyperplonk::build(&circuit, &[], &witness, &[10, 1], &mut columns, &mut nodes)?;
//! assert_eq!(columns[16..20], [2, 0, 3, 3]); // m, after two compressed inputs and tables
//! assert_eq!(hyperplonk::row_sum(&circuit, &witness, &columns, &nodes, &[10, 1, 31], &[0, 2])?, 0);
//! # Ok::<(), hyperplonk::Refusal>(())
//! ```
#![deny(missing_docs)]

use std::{error, fmt};

/// The field's prime, 2^64 − 2^32 + 1.
pub const P: u64 = 0xffff_ffff_0000_0001;

/// What the row order's step exclusive-ors, by k (from 0, which no circuit has, to 10): see [Rows](crate#rows).
pub const PRIMITIVES: [u64; 11] = [1, 3, 7, 11, 19, 37, 67, 131, 285, 529, 1033];

/// What is added to a signed number.
pub const SIGNED_OFFSET: u64 = 1 << 31;

/// The word of a signed number (Lagrange, rotation).
///
/// ```
/// assert_eq!([-1, 0, 1].map(hyperplonk::signed), [2147483647, 2147483648, 2147483649]);
/// ```
pub const fn signed(i: i32) -> u64 {
    (i as i64 + SIGNED_OFFSET as i64) as u64
}

/// The words of the contents, before the bodies.
pub const CONTENTS_WORDS: usize = 22;

/// The most words that a circuit has.
pub const MAX_CIRCUIT_WORDS: usize = 46_294;

/// The most words that the columns of a build take: 184 columns of 1024.
pub const MAX_COLUMN_WORDS: usize = 188_416;

/// The most nodes that a composed expression takes.
pub const MAX_COMPOSED_NODES: usize = 11_295;

/// The most nodes that one evaluation of a composed expression visits on one row.
pub const MAX_VISITS: usize = 11_047;

/// The most words that the nodes of a build take.
pub const MAX_NODE_WORDS: usize = 4 * MAX_COMPOSED_NODES;

/// The kinds of [nodes](crate#nodes).
pub mod kind {
    /// `1 0 0 v`
    pub const CONSTANT: u64 = 1;
    /// `2 0 0 0`
    pub const IDENTITY: u64 = 2;
    /// `3 0 0 i+2^31`
    pub const LAGRANGE: u64 = 3;
    /// `4 0 0 0`, in composed nodes only
    pub const EQ_XY: u64 = 4;
    /// `5 q 0 r+2^31`
    pub const POLYNOMIAL: u64 = 5;
    /// `6 i 0 0`
    pub const CHALLENGE: u64 = 6;
    /// `7 a 0 0`
    pub const NEGATED: u64 = 7;
    /// `8 a c 0`
    pub const SUM: u64 = 8;
    /// `9 a c 0`
    pub const PRODUCT: u64 = 9;
    /// `10 a 0 v`
    pub const SCALED: u64 = 10;
    /// `11 a t 0`
    pub const DISTRIBUTE_POWERS: u64 = 11;
    /// `12 a t 1`, the last `12 a 0 0`
    pub const ITEM: u64 = 12;
}

/// The most that questions 2, 3 and 10 allow. k is 1 or more, and so are the rounds.
pub mod limit {
    /// k
    pub const K: u64 = 10;
    /// Instance columns.
    pub const INSTANCE_COLUMNS: u64 = 8;
    /// Preprocess columns.
    pub const PREPROCESS_COLUMNS: u64 = 32;
    /// Rounds.
    pub const ROUNDS: u64 = 4;
    /// Witness columns in all.
    pub const WITNESS_COLUMNS: u64 = 32;
    /// User challenges in all.
    pub const USER_CHALLENGES: u64 = 16;
    /// Nodes of a circuit.
    pub const NODES: u64 = 1024;
    /// User constraints.
    pub const CONSTRAINTS: u64 = 32;
    /// Lookups.
    pub const LOOKUPS: u64 = 8;
    /// The width of a lookup.
    pub const WIDTH: u64 = 8;
    /// Cycles.
    pub const CYCLES: u64 = 1024;
    /// Cells in all.
    pub const CELLS: u64 = 4096;
    /// The maximum degree that word 1 states.
    pub const STATED_DEGREE: u64 = 32;
    /// The degree of a user or group constraint.
    pub const DEGREE: u64 = 1024;
}

mod library {
    extern "C" {
        pub fn hyperplonk_sizes(circuit: *const u64, circuit_len: usize, answer: *mut u64, answer_len: usize) -> u64;
        pub fn hyperplonk_build(
            circuit: *const u64,
            circuit_len: usize,
            instance: *const u64,
            instance_len: usize,
            witness: *const u64,
            witness_len: usize,
            challenges: *const u64,
            challenges_len: usize,
            columns: *mut u64,
            columns_len: usize,
            nodes: *mut u64,
            nodes_len: usize,
            answer: *mut u64,
            answer_len: usize,
        ) -> u64;
        pub fn hyperplonk_row_sum(
            circuit: *const u64,
            circuit_len: usize,
            witness: *const u64,
            witness_len: usize,
            columns: *const u64,
            columns_len: usize,
            nodes: *const u64,
            nodes_len: usize,
            challenges: *const u64,
            challenges_len: usize,
            y: *const u64,
            y_len: usize,
            answer: *mut u64,
            answer_len: usize,
        ) -> u64;
        pub fn hyperplonk_lookup_m_poly(
            k: u64,
            input: *const u64,
            input_len: usize,
            table: *const u64,
            table_len: usize,
            m: *mut u64,
            m_len: usize,
        ) -> u64;
        pub fn hyperplonk_lookup_h_poly(
            k: u64,
            input: *const u64,
            input_len: usize,
            table: *const u64,
            table_len: usize,
            m: *const u64,
            m_len: usize,
            gamma: u64,
            h: *mut u64,
            h_len: usize,
        ) -> u64;
        pub fn hyperplonk_eq_xy(k: u64, y: *const u64, y_len: usize, out: *mut u64, out_len: usize) -> u64;
    }
}

/// A refusal: the first question that is answered no.
///
/// Questions are put in the order 1 to 9, 18, 10 to 15, 17; 16 is the row sum's. 3 and then 4 are put to words 0 to 21, then 3 and then 4
/// to what follows. [`build`] meets 1 to 15, 18 after 9, and then 17, [`sizes`] 1 to 11 and 18, [`row_sum`] these and then 16. The stages
/// alone meet 2, 12, 13 and 14 of their own columns and buffer, the counts then 15, h then 17. On 15 and on 17 the column words needed become 0, and the
/// nodes stay. On any other number no word of a buffer is written.
///
/// ```
/// let refusal = hyperplonk::eq_xy(11, &[0; 11], &mut [0; 8]).unwrap_err();
/// assert_eq!((refusal, refusal.number()), (hyperplonk::Refusal::BadK, 2));
/// assert_eq!(refusal.to_string(), "question 2 was answered no: Is k from 1 to 10?");
/// ```
#[derive(Clone, Copy, Debug, PartialEq, Eq, Hash)]
#[non_exhaustive]
pub enum Refusal {
    /// The circuit has fewer than 22 words.
    TooFewWords = 1,
    /// k is not from 1 to 10.
    BadK = 2,
    /// A count or a sum is past its [limit], or there is no round.
    BadCount = 3,
    /// Starts, counts and total length do not agree, or there are not as many group numbers as lookups.
    BadContents = 4,
    /// A round has no witness column, a round but the last has no challenge, or an instance column has more than 2^k − 1 values.
    BadRoundOrInstance = 5,
    /// A preprocess value, a Constant or a scalar is not below p.
    BadCircuitValue = 6,
    /// The nodes are not as [laid out](crate#nodes).
    BadNodeLayout = 7,
    /// A polynomial or user challenge number is out of range, a rotation is not from −k to k, or a node has kind 4.
    BadNodeRange = 8,
    /// A width is 0, or there is no constraint, no lookup and no cycle.
    EmptyLookupOrCircuit = 9,
    /// A user or group constraint's degree is above 1024, or a user constraint's above the stated maximum.
    BadDegree = 10,
    /// A cycle is empty, a cell's polynomial is out of range or its row not from 1 to 2^k − 1, or a cell is twice in one cycle.
    BadCycle = 11,
    /// A lent length is not the exact one: instance, witness or challenge words (alone: a column's 2^k words; [`eq_xy`]: y's k words).
    BadLength = 12,
    /// A lent word that stands for a field element is not below p.
    BadValue = 13,
    /// A buffer has fewer words than needed ([`build`]: those of [`sizes`]; alone: 2^k).
    ShortBuffer = 14,
    /// ([`build`], [`lookup_m_poly`].) An input equals no table row; building: no row of its group's table.
    NotInTable = 15,
    /// ([`row_sum`].) Witness, columns, nodes, challenges or y have not the exact length, the node words are not those that building writes, or another value is not below p.
    BadRowSumWords = 16,
    /// ([`build`], [`lookup_h_poly`].) A [denominator](crate#columns) is 0: other challenges are to be drawn. Asked after 15.
    ZeroDenominator = 17,
    /// The group numbers do not start at 0, or one is neither the one before nor one more; or tables of one group differ in width or as trees. Asked after 9.
    BadGroups = 18,
}

impl Refusal {
    /// All of them, by rising number.
    pub const ALL: [Refusal; 18] = [
        Refusal::TooFewWords,
        Refusal::BadK,
        Refusal::BadCount,
        Refusal::BadContents,
        Refusal::BadRoundOrInstance,
        Refusal::BadCircuitValue,
        Refusal::BadNodeLayout,
        Refusal::BadNodeRange,
        Refusal::EmptyLookupOrCircuit,
        Refusal::BadDegree,
        Refusal::BadCycle,
        Refusal::BadLength,
        Refusal::BadValue,
        Refusal::ShortBuffer,
        Refusal::NotInTable,
        Refusal::BadRowSumWords,
        Refusal::ZeroDenominator,
        Refusal::BadGroups,
    ];

    /// The number of the question, 1 to 18.
    pub const fn number(self) -> u64 {
        self as u64
    }

    /// The question, in the words of document 01, the library's scope; 17 and 18, which document 02 adds, as questions.
    pub const fn question(self) -> &'static str {
        match self {
            Refusal::TooFewWords => "Are there 22 words or more?",
            Refusal::BadK => "Is k from 1 to 10?",
            Refusal::BadCount => "Is each count and sum in its limit? Instance columns 0–8, preprocess 0–32, rounds 1–4, witness columns 32 in all, user challenges 16 in all, nodes 0–1024, constraints 0–32, lookups 0–8, width 0–8, cycles 0–1024, cells 0–4096, degree 0–32.",
            Refusal::BadContents => "Do starts, counts and total length agree?",
            Refusal::BadRoundOrInstance => "Has every round a witness column, every round but the last a challenge, and every instance column at most 2^k − 1 values?",
            Refusal::BadCircuitValue => "Are preprocess values, Constants and scalars below p?",
            Refusal::BadNodeLayout => "Are the nodes as laid out above?",
            Refusal::BadNodeRange => "Is every polynomial and user challenge number in range, every rotation from −k to k, and kind 4 absent?",
            Refusal::EmptyLookupOrCircuit => "Is each width at least 1, and is there a constraint, lookup or cycle?",
            Refusal::BadDegree => "Is the degree (Rust `degree`) of each user and lookup constraint at most 1024, and, if a maximum degree stands, does no user constraint exceed it?",
            Refusal::BadCycle => "Is each cycle non-empty, its polynomials in range, its rows from 1 to 2^k − 1, no cell twice within one cycle?",
            Refusal::BadLength => "Have instance, witness and challenge words the exact length?",
            Refusal::BadValue => "Are they all below p?",
            Refusal::ShortBuffer => "Have both output buffers at least the words needed?",
            Refusal::NotInTable => "Does each compressed input equal some compressed table row?",
            Refusal::BadRowSumWords => "(Row sum only.) Are witness, columns, nodes, challenges with α, and y (k values) of the exact length, the node words those that building writes, and all other values below p?",
            Refusal::ZeroDenominator => "Is every denominator other than zero? They are γ + input and γ + table on all rows, and the inverted factors on every row but 0.",
            Refusal::BadGroups => "Is the first group number 0 and each next the same or one more, and have the tables of one group the same width and the same trees?",
        }
    }
}

impl fmt::Display for Refusal {
    fn fmt(&self, f: &mut fmt::Formatter) -> fmt::Result {
        write!(f, "question {} was answered no: {}", self.number(), self.question())
    }
}

impl error::Error for Refusal {}

/// What a call's number says.
fn told(number: u64) -> Result<(), Refusal> {
    match number {
        0 => Ok(()),
        1..=18 => Err(Refusal::ALL[number as usize - 1]),
        _ => panic!("libhyperplonk.a is not the one of these bindings: it returned the number {number}"),
    }
}

/// What [`build`] needs, and what an evaluation of the composed expression takes.
#[must_use]
#[derive(Clone, Copy, Debug, PartialEq, Eq)]
pub struct Sizes {
    /// How many words of `columns` are needed.
    pub column_words: usize,
    /// How many nodes the composed expression has: 4 words of `nodes` are needed for each.
    pub nodes: usize,
    /// How many nodes one evaluation of the composed expression visits on one row: every node once, Items not at all.
    pub visits: usize,
}

/// The sizes of a circuit, from its words alone: nothing is built.
///
/// [`build`] needs exactly these words. Where the log's words pass 12 and 13 it gives 14 exactly when a buffer is shorter, and where it
/// is not refused it returns these `column_words` and `nodes`.
///
/// ```
/// // k = 1, one witness column, and the constraint Constant(0): no column is written.
/// let circuit = [1, 0, 22, 0, 22, 0, 22, 1, 24, 1, 28, 1, 29, 0, 29, 0, 29, 0, 29, 0, 29, 0, 1, 0, 1, 0, 0, 0, 0];
/// let sizes = hyperplonk::sizes(&circuit)?;
/// assert_eq!(sizes, hyperplonk::Sizes { column_words: 0, nodes: 3, visits: 3 });
/// # Ok::<(), hyperplonk::Refusal>(())
/// ```
///
/// # Errors
///
/// Refusals 1 to 11 and 18, as [`build`] has them.
pub fn sizes(circuit: &[u64]) -> Result<Sizes, Refusal> {
    let mut answer = [0; 3];
    // SAFETY: each pointer and length is a slice's; the one written is borrowed alone, and nothing is kept.
    let number =
        unsafe { library::hyperplonk_sizes(circuit.as_ptr(), circuit.len(), answer.as_mut_ptr(), answer.len()) };
    told(number)?;
    let [column_words, nodes, visits] = answer.map(|word| word as usize);
    Ok(Sizes { column_words, nodes, visits })
}

/// What [`build`] wrote.
#[must_use]
#[derive(Clone, Copy, Debug, PartialEq, Eq)]
pub struct Built {
    /// How many words of `columns` are written.
    pub column_words: usize,
    /// How many nodes are written: 4 words of `nodes` each.
    pub nodes: usize,
    /// How many z columns there are, the last of those written.
    pub z_columns: usize,
}

/// Builds the columns and the composed expression of a log.
///
/// `instance` has the instance columns' values, `witness` the witness columns; `challenges` are the user's, then β, γ. The first words of
/// `columns` become the [columns](crate#columns) of 2^k words each: instance, permutation, compressed input and table per lookup, m and h
/// per group, z; and the first words of `nodes` the composed expression's node words, the root last. Words past those are never written.
///
/// # Errors
///
/// Refusals 1 to 15, 18 after 9, and 17 after 15. On 15 and on 17 the column words needed become 0 and `nodes` stays as it was. On any other nothing
/// is written.
pub fn build(
    circuit: &[u64],
    instance: &[u64],
    witness: &[u64],
    challenges: &[u64],
    columns: &mut [u64],
    nodes: &mut [u64],
) -> Result<Built, Refusal> {
    let mut answer = [0; 3];
    // SAFETY: each pointer and length is a slice's; those written are borrowed alone, and nothing is kept.
    let number = unsafe {
        library::hyperplonk_build(
            circuit.as_ptr(),
            circuit.len(),
            instance.as_ptr(),
            instance.len(),
            witness.as_ptr(),
            witness.len(),
            challenges.as_ptr(),
            challenges.len(),
            columns.as_mut_ptr(),
            columns.len(),
            nodes.as_mut_ptr(),
            nodes.len(),
            answer.as_mut_ptr(),
            answer.len(),
        )
    };
    told(number)?;
    let [column_words, nodes, z_columns] = answer.map(|word| word as usize);
    Ok(Built { column_words, nodes, z_columns })
}

/// The sum of the composed expression over all rows.
///
/// `columns` and `nodes` are the words that [`build`] wrote, and no more; `challenges` are those of the build, then α; `y` has
/// k values. Nothing is written. A sum that is not 0 is no refusal: [The row sum](crate#the-row-sum) says what it means.
///
/// # Errors
///
/// Refusals 1 to 11 and 18, and 16.
pub fn row_sum(
    circuit: &[u64],
    witness: &[u64],
    columns: &[u64],
    nodes: &[u64],
    challenges: &[u64],
    y: &[u64],
) -> Result<u64, Refusal> {
    let mut answer = [0];
    // SAFETY: each pointer and length is a slice's; the one written is borrowed alone, and nothing is kept.
    let number = unsafe {
        library::hyperplonk_row_sum(
            circuit.as_ptr(),
            circuit.len(),
            witness.as_ptr(),
            witness.len(),
            columns.as_ptr(),
            columns.len(),
            nodes.as_ptr(),
            nodes.len(),
            challenges.as_ptr(),
            challenges.len(),
            y.as_ptr(),
            y.len(),
            answer.as_mut_ptr(),
            answer.len(),
        )
    };
    told(number)?;
    Ok(answer[0])
}

/// m: how many inputs are counted at each table row. An input is counted at the last row (by row number) whose table value equals it.
///
/// The first 2^k words of the buffer become the column. Words past them are never written.
///
/// ```
/// let mut m = [0; 4];
/// hyperplonk::lookup_m_poly(2, &[7, 7, 5, 9], &[5, 7, 7, 9], &mut m)?;
/// assert_eq!(m, [1, 0, 2, 1]);
/// # Ok::<(), hyperplonk::Refusal>(())
/// ```
///
/// # Errors
///
/// Refusals 2, 12 (a lent column has not 2^k words), 13, 14 (the buffer has fewer than 2^k words) and 15. On 15 the first 2^k words
/// become 0. On any other nothing is written.
pub fn lookup_m_poly(k: u64, input: &[u64], table: &[u64], m: &mut [u64]) -> Result<(), Refusal> {
    // SAFETY: each pointer and length is a slice's; the one written is borrowed alone, and nothing is kept.
    told(unsafe {
        library::hyperplonk_lookup_m_poly(
            k,
            input.as_ptr(),
            input.len(),
            table.as_ptr(),
            table.len(),
            m.as_mut_ptr(),
            m.len(),
        )
    })
}

/// h: 1 / (γ + input) − m / (γ + table) on each row.
///
/// ```
/// use hyperplonk::{lookup_h_poly, Refusal, P};
///
/// let (input, table, m, mut h) = ([7, 7, 5, 9], [5, 7, 7, 9], [1, 0, 2, 1], [0; 4]);
/// lookup_h_poly(2, &input, &table, &m, 1, &mut h)?;
/// assert_eq!(h, [768614336225607680, 16140901060737761281, 1537228672451215360, 0]);
/// // γ + table is 0 on row 0, and γ + input on row 2.
/// assert_eq!(lookup_h_poly(2, &input, &table, &m, P - 5, &mut h), Err(Refusal::ZeroDenominator));
/// assert_eq!(h, [0; 4]);
/// # Ok::<(), Refusal>(())
/// ```
///
/// # Errors
///
/// Refusals 2, 12, 13, 14 as [`lookup_m_poly`] has them, and 17: γ + input or γ + table is 0 on some row, whatever m is there. On 17 the
/// first 2^k words become 0. On any other nothing is written.
pub fn lookup_h_poly(
    k: u64,
    input: &[u64],
    table: &[u64],
    m: &[u64],
    gamma: u64,
    h: &mut [u64],
) -> Result<(), Refusal> {
    // SAFETY: each pointer and length is a slice's; the one written is borrowed alone, and nothing is kept.
    told(unsafe {
        library::hyperplonk_lookup_h_poly(
            k,
            input.as_ptr(),
            input.len(),
            table.as_ptr(),
            table.len(),
            m.as_ptr(),
            m.len(),
            gamma,
            h.as_mut_ptr(),
            h.len(),
        )
    })
}

/// On row b the product over i of y_i where bit i of b is set, else 1 − y_i.
///
/// ```
/// let mut out = [0; 4];
/// hyperplonk::eq_xy(2, &[0, 1], &mut out)?;
/// assert_eq!(out, [0, 0, 1, 0]); // 1 at row 2, whose bit 1 is set
/// # Ok::<(), hyperplonk::Refusal>(())
/// ```
///
/// # Errors
///
/// Refusals 2, 12 (y has not k words), 13 and 14. It treats its buffer as [`lookup_m_poly`] does.
pub fn eq_xy(k: u64, y: &[u64], out: &mut [u64]) -> Result<(), Refusal> {
    // SAFETY: each pointer and length is a slice's; the one written is borrowed alone, and nothing is kept.
    told(unsafe { library::hyperplonk_eq_xy(k, y.as_ptr(), y.len(), out.as_mut_ptr(), out.len()) })
}
