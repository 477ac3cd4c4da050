//! Every call through the wrappers: document 01's examples, refusals that leave the buffers as they were, empty slices, and
//! the stored answers of oracle/data/small.txt.
#![allow(clippy::type_complexity)]

use hyperplonk::{build, eq_xy, lookup_h_poly, lookup_m_poly, row_sum, sizes, Built, Refusal, Sizes, P};

/// What buffers hold before a call.
const BEFORE: u64 = 0x5a5a;
const TABLE: [u64; 4] = [5, 7, 7, 9];
const INPUT: [u64; 4] = [7, 7, 5, 9];
const M: [u64; 4] = [1, 0, 2, 1];
/// With γ = 100.
const H: [u64; 4] = [14213926427140369957, 861997386421242258, 3370820255852972106, 0];
/// The witness column looked up in the preprocess column 5, 7, 7, 9.
#[rustfmt::skip]
const TWICE: [u64; 40] = [
    2, 0, 22, 0, 22, 1, 26, 1, 28, 2, 36, 0, 36, 1, 37, 1, 39, 0, 39, 0, 39, 1, // contents
    5, 7, 7, 9, 1, 0, 5, 1, 0, 1 << 31, 5, 0, 0, 1 << 31, 1, 0, 1, 0, // bodies
];
/// One witness column, k = 1, and the constraint Constant(0): no column is written.
const BARE: [u64; 29] =
    [1, 0, 22, 0, 22, 0, 22, 1, 24, 1, 28, 1, 29, 0, 29, 0, 29, 0, 29, 0, 29, 0, 1, 0, 1, 0, 0, 0, 0];
/// One witness column, k = 1, and a cycle of one cell.
const CELL: [u64; 27] = [1, 0, 22, 0, 22, 0, 22, 1, 24, 0, 24, 0, 24, 0, 24, 0, 24, 1, 25, 1, 27, 0, 1, 0, 1, 0, 1];
/// Two lookups of width 1 in one preprocess column, k = 2.
#[rustfmt::skip]
const TWO: [u64; 52] = [
    2, 0, 22, 0, 22, 1, 26, 1, 28, 4, 44, 0, 44, 2, 46, 2, 50, 0, 50, 0, 50, 2, // contents
    5, 7, 7, 9, 2, 0, 5, 1, 0, 1 << 31, 5, 0, 0, 1 << 31, 5, 2, 0, 1 << 31, 5, 0, 0, 1 << 31, 1, 1, 0, 1, 2, 3, 0, 1, // bodies
];
/// A lookup of width 2, k = 2: as TWO, with one width in place of two.
#[rustfmt::skip]
const WIDE: [u64; 50] = [
    2, 0, 22, 0, 22, 1, 26, 1, 28, 4, 44, 0, 44, 1, 45, 2, 49, 0, 49, 0, 49, 1, // contents
    5, 7, 7, 9, 2, 0, 5, 1, 0, 1 << 31, 5, 0, 0, 1 << 31, 5, 2, 0, 1 << 31, 5, 0, 0, 1 << 31, 2, 0, 1, 2, 3, 0, // bodies
];
/// Two witness columns, k = 2, and the cycle (0, 1), (1, 2).
const COPY: [u64; 29] =
    [2, 0, 22, 0, 22, 0, 22, 1, 24, 0, 24, 0, 24, 0, 24, 0, 24, 1, 25, 2, 29, 0, 2, 0, 2, 0, 1, 1, 2];
/// Two constraints, k = 2: a witness column less itself, and a list of three Constants by a user challenge.
#[rustfmt::skip]
const LIST: [u64; 74] = [
    2, 0, 22, 0, 22, 0, 22, 1, 24, 12, 72, 2, 74, 0, 74, 0, 74, 0, 74, 0, 74, 0, // contents
    1, 1, // the round
    5, 0, 0, 1 << 31, 5, 0, 0, 1 << 31, 7, 1, 0, 0, 8, 0, 2, 0, // nodes 0 to 3
    1, 0, 0, 0, 1, 0, 0, 0, 1, 0, 0, 0, 6, 0, 0, 0, 12, 6, 0, 0, 12, 5, 8, 1, 12, 4, 9, 1, 11, 7, 10, 0, // nodes 4 to 11
    3, 11, // the roots
];

/// The two lookups of TWO in one group.
fn one_group() -> [u64; 52] {
    let mut circuit = TWO;
    circuit[51] = 0;
    circuit
}

fn refused<T>(number: u64) -> Result<T, Refusal> {
    Err(Refusal::ALL[number as usize - 1])
}

#[test]
fn counts() {
    let mut m = [BEFORE; 6];
    assert_eq!(lookup_m_poly(2, &INPUT, &TABLE, &mut m), Ok(()));
    assert_eq!(m, [1, 0, 2, 1, BEFORE, BEFORE]);
    assert_eq!(lookup_m_poly(2, &[7, 6, 5, 9], &TABLE, &mut m), refused(15));
    assert_eq!(m, [0, 0, 0, 0, BEFORE, BEFORE]);
    assert_eq!(lookup_m_poly(1, &[P - 1; 2], &[P - 1; 2], &mut m[..2]), Ok(()));
    assert_eq!(m, [0, 2, 0, 0, BEFORE, BEFORE]);
}

#[test]
fn fractions() {
    let mut h = [BEFORE; 5];
    assert_eq!(lookup_h_poly(2, &INPUT, &TABLE, &M, 100, &mut h), Ok(()));
    assert_eq!((&h[..4], h[4]), (&H[..], BEFORE));
    assert_eq!(h[..4].iter().fold(0, |sum, w| (sum + *w as u128) % P as u128), 0);
    // The inverse of 2.
    assert_eq!(lookup_h_poly(1, &[1, 1], &[1, 1], &[0, 0], 1, &mut h), Ok(()));
    assert_eq!(h[..2], [9223372034707292161; 2]);
    assert_eq!(lookup_h_poly(2, &INPUT, &TABLE, &M, 1, &mut h), Ok(()));
    assert_eq!(h[..4], [768614336225607680, 16140901060737761281, 1537228672451215360, 0]);
}

/// γ + input or γ + table is 0 on some row, also where m is 0: 17, asked last, and the column becomes 0.
#[test]
fn zero_denominators() {
    let other = [6, 7, 7, 9];
    let cases: [(u64, &[u64], &[u64], &[u64], u64, usize); 12] = [
        (0, &INPUT, &TABLE, &M, P - 6, 5),
        (17, &INPUT, &TABLE, &M, P - 5, 5),
        (17, &INPUT, &TABLE, &M, P - 7, 5),
        (17, &INPUT, &TABLE, &M, P - 9, 4),
        (17, &other, &TABLE, &M, P - 6, 5),
        (17, &INPUT, &other, &[0; 4], P - 6, 5),
        (17, &[1, 2, 3, 0], &[1; 4], &M, 0, 5),
        (14, &INPUT, &TABLE, &M, P - 5, 3),
        (13, &INPUT, &TABLE, &[1, 0, 2, P], P - 5, 5),
        (13, &[0; 4], &TABLE, &M, P, 5),
        (13, &[P; 4], &TABLE, &M, 0, 5),
        (12, &INPUT, &TABLE, &M[..3], P - 5, 5),
    ];
    for (number, input, table, m, gamma, room) in cases {
        let mut h = [BEFORE; 5];
        let told = lookup_h_poly(2, input, table, m, gamma, &mut h[..room]);
        assert_eq!(told.map_or_else(|refusal| refusal.number(), |()| 0), number);
        match number {
            0 => assert_eq!(h, [2, 1, P - 3, 0, BEFORE]),
            17 => assert_eq!(h, [0, 0, 0, 0, BEFORE]),
            _ => assert_eq!(h, [BEFORE; 5]),
        }
    }
}

#[test]
fn eq_table() {
    let mut out = [BEFORE; 5];
    assert_eq!(eq_xy(2, &[2, 3], &mut out), Ok(()));
    assert_eq!(out, [2, P - 4, P - 3, 6, BEFORE]);
    assert_eq!(eq_xy(2, &[0, 1], &mut out), Ok(()));
    assert_eq!(out, [0, 0, 1, 0, BEFORE]);
    let mut out = vec![BEFORE; 1 << 10];
    assert_eq!(eq_xy(10, &[0; 10], &mut out), Ok(()));
    assert!(out[0] == 1 && out[1..].iter().all(|w| *w == 0));
}

#[test]
fn stages_refuse() {
    let high = [7, P, 5, 9];
    let cases: [(u64, u64, &[u64], &[u64], usize); 8] = [
        (2, 0, &INPUT, &TABLE, 4),
        (2, 11, &high, &TABLE[..3], 0),
        (12, 2, &INPUT[..3], &TABLE, 4),
        (12, 2, &high, &[5, 7, 7, 9, 9], 0),
        (13, 2, &high, &TABLE, 4),
        (13, 2, &INPUT, &high, 0),
        (14, 2, &INPUT, &TABLE, 3),
        (14, 2, &[6, 6, 6, 6], &TABLE, 0),
    ];
    for (number, k, input, table, room) in cases {
        let (mut m, mut h) = ([BEFORE; 4], [BEFORE; 4]);
        assert_eq!(lookup_m_poly(k, input, table, &mut m[..room]), refused(number));
        assert_eq!(lookup_h_poly(k, input, table, &M, 100, &mut h[..room]), refused(number));
        assert_eq!((m, h), ([BEFORE; 4], [BEFORE; 4]));
    }
    let mut h = [BEFORE; 4];
    assert_eq!(lookup_h_poly(2, &INPUT, &TABLE, &M[..2], P, &mut h), refused(12));
    assert_eq!(lookup_h_poly(2, &INPUT, &TABLE, &high, 100, &mut h), refused(13));
    assert_eq!(lookup_h_poly(2, &INPUT, &TABLE, &M, P, &mut h), refused(13));
    assert_eq!(eq_xy(0, &[], &mut h), refused(2));
    assert_eq!(eq_xy(11, &[0; 11], &mut h), refused(2));
    assert_eq!(eq_xy(2, &[0, 1, P], &mut h), refused(12));
    assert_eq!(eq_xy(2, &[0, P], &mut h), refused(13));
    assert_eq!(eq_xy(2, &[0, P - 1], &mut h[..3]), refused(14));
    assert_eq!(h, [BEFORE; 4]);
}

#[test]
fn builds() {
    let (mut columns, mut nodes) = ([BEFORE; 18], [BEFORE; 110]);
    let built = build(&TWICE, &[], &INPUT, &[10, 100], &mut columns, &mut nodes);
    assert_eq!(built, Ok(Built { column_words: 16, nodes: 27, z_columns: 0 }));
    assert_eq!(columns[..16], [INPUT, TABLE, M, H].concat());
    assert_eq!((&columns[16..], &nodes[108..]), (&[BEFORE; 2][..], &[BEFORE; 2][..]));
    let (columns, nodes) = (&columns[..16], &nodes[..108]);
    for (alpha, y) in [(2, [0, 2]), (0, [0, 0]), (P - 1, [P - 1, 12345])] {
        let sum = row_sum(&TWICE, &INPUT, columns, nodes, &[10, 100, alpha], &y);
        assert_eq!(sum, Ok(0));
    }
    // The composed expression is h + α × (the rest): an h that is 1 higher on one row adds to it.
    let mut other = columns.to_vec();
    other[15] = 1;
    let sum = row_sum(&TWICE, &INPUT, &other, nodes, &[10, 100, 0], &[0, 2]);
    assert_eq!(sum, Ok(1));
}

/// Buffers of these words are enough, and a word less in either is too few.
#[test]
fn foretells() {
    // The circuit; its witness and challenge words; column words, nodes, visits.
    let circuits: [(&[u64], usize, usize, [usize; 3]); 8] = [
        (&BARE, 2, 2, [0, 3, 3]),
        (&CELL, 2, 2, [4, 34, 32]),
        (&TWICE, 4, 2, [16, 27, 25]),
        (&WIDE, 8, 2, [16, 47, 37]),
        (&TWO, 8, 2, [32, 53, 48]),
        (&one_group(), 8, 2, [24, 43, 41]),
        (&COPY, 8, 2, [16, 57, 54]),
        (&LIST, 4, 3, [0, 18, 13]),
    ];
    for (circuit, witness, challenges, [column_words, nodes, visits]) in circuits {
        assert_eq!(sizes(circuit), Ok(Sizes { column_words, nodes, visits }));
        let (witness, challenges) = (vec![7; witness], vec![10; challenges]);
        let number = |column_words: usize, node_words: usize| {
            let (mut columns, mut nodes) = (vec![BEFORE; column_words], vec![BEFORE; node_words]);
            let built = build(circuit, &[], &witness, &challenges, &mut columns, &mut nodes);
            built.map(|built| (built.column_words, built.nodes))
        };
        assert_eq!(number(column_words, 4 * nodes), Ok((column_words, nodes)));
        assert_eq!(number(column_words + 1, 4 * nodes + 1), Ok((column_words, nodes)));
        assert_eq!(number(column_words, 4 * nodes - 1), refused(14));
        if column_words > 0 {
            assert_eq!(number(column_words - 1, 4 * nodes), refused(14));
        }
    }
}

/// Refusals 1 to 11 and 18, as building has them.
#[test]
fn sizes_refuse() {
    fn with(circuit: &[u64], at: usize, word: u64) -> Vec<u64> {
        let mut circuit = circuit.to_vec();
        circuit[at] = word;
        circuit
    }
    let empty = vec![1, 0, 22, 0, 22, 0, 22, 1, 24, 0, 24, 0, 24, 0, 24, 0, 24, 0, 24, 0, 24, 0, 1, 0];
    let cases = [
        (1, TWICE[..21].to_vec()),
        (4, TWICE[..22].to_vec()),
        (2, with(&TWICE, 0, 11)),
        (3, with(&TWICE, 1, 34)),
        (3, with(&TWICE, 26, 33)),
        (4, TWICE[..39].to_vec()),
        (4, with(&CELL, 24, 2)),
        (4, with(&TWICE, 21, 0)),
        (4, with(&TWICE, 21, 2)),
        (4, with(&TWICE, 21, u64::MAX)),
        (5, with(&TWICE, 26, 0)),
        (6, with(&TWICE, 22, P)),
        (7, with(&TWICE, 28, 13)),
        (8, with(&TWICE, 29, 2)),
        (9, empty),
        (18, with(&TWICE, 39, 1)),
        (18, with(&TWO, 51, 2)),
        (18, with(&with(&TWO, 51, 0), 41, 1)),
        (10, with(&with(&BARE, 1, 1), 24, 2)),
        (11, with(&CELL, 26, 0)),
    ];
    for (number, circuit) in &cases {
        assert_eq!(sizes(circuit), refused(*number));
        assert_eq!(build(circuit, &[], &[], &[], &mut [], &mut []), refused(*number));
    }
    assert_eq!(sizes(&[]), refused(1));
}

/// Two readings of one table: one m, which counts both, and one h. 15 for an input of either; 17 for either's denominator.
#[test]
fn groups() {
    let (circuit, witness) = (one_group(), [7, 7, 5, 9, 9, 9, 7, 5]);
    let (mut columns, mut nodes) = ([BEFORE; 25], [BEFORE; 4 * 43]);
    let built = build(&circuit, &[], &witness, &[10, 1], &mut columns, &mut nodes);
    assert_eq!(built, Ok(Built { column_words: 24, nodes: 43, z_columns: 0 }));
    let h = [1998397274186579968, 14296226653796302849, 1537228672451215360, 614891468980486144];
    assert_eq!(columns[..16], [&witness[..4], &TABLE, &witness[4..], &TABLE].concat());
    assert_eq!((&columns[16..24], columns[24]), (&[[2, 0, 3, 3], h].concat()[..], BEFORE));
    // One by one they have the same columns, added up.
    let mut apart = [0; 32];
    assert!(build(&TWO, &[], &witness, &[10, 1], &mut apart, &mut [0; 4 * 53]).is_ok());
    assert_eq!([&apart[16..20], &apart[20..24]], [[1, 0, 2, 1], [1, 0, 1, 2]]);
    (0..4).for_each(|b| assert_eq!((apart[24 + b] as u128 + apart[28 + b] as u128) % P as u128, h[b] as u128));
    for (alpha, y) in [(2, [0, 2]), (0, [0, 0]), (P - 1, [P - 1, 12345])] {
        assert_eq!(row_sum(&circuit, &witness, &columns[..24], &nodes, &[10, 1, alpha], &y), Ok(0));
    }
    for at in 0..8 {
        let mut unlisted = witness;
        unlisted[at] = 6;
        assert_eq!(build(&circuit, &[], &unlisted, &[10, 1], &mut columns, &mut nodes), refused(15));
        assert_eq!((&columns[..24], columns[24]), (&[0; 24][..], BEFORE));
    }
    for gamma in [P - 5, P - 7, P - 9] {
        assert_eq!(build(&circuit, &[], &witness, &[10, gamma], &mut columns, &mut nodes), refused(17));
    }
}

#[test]
fn build_refuses() {
    let mut k11 = TWICE;
    k11[0] = 11;
    let high = [7, 7, 5, P];
    let cases: [(u64, &[u64], &[u64], &[u64], &[u64], usize, usize); 9] = [
        (1, &TWICE[..21], &[], &INPUT, &[10, 100], 16, 108),
        (2, &k11, &[], &high, &[10, 100], 16, 108),
        (4, &TWICE[..39], &[], &INPUT, &[10, 100], 16, 108),
        (12, &TWICE, &[1], &high, &[10, 100], 16, 108),
        (12, &TWICE, &[], &INPUT, &[10, 100, 2], 0, 0),
        (13, &TWICE, &[], &high, &[10, 100], 15, 108),
        (13, &TWICE, &[], &INPUT, &[10, P], 0, 0),
        (14, &TWICE, &[], &INPUT, &[10, 100], 15, 108),
        (14, &TWICE, &[], &[6; 4], &[10, 100], 16, 107),
    ];
    for (number, circuit, instance, witness, challenges, room, node_room) in cases {
        let (mut columns, mut nodes) = ([BEFORE; 16], [BEFORE; 108]);
        let built = build(circuit, instance, witness, challenges, &mut columns[..room], &mut nodes[..node_room]);
        assert_eq!(built, refused(number));
        assert_eq!((columns, nodes), ([BEFORE; 16], [BEFORE; 108]));
    }
    let (mut columns, mut nodes) = ([BEFORE; 17], [BEFORE; 108]);
    assert_eq!(build(&TWICE, &[], &[7, 6, 5, 9], &[10, 100], &mut columns, &mut nodes), refused(15));
    assert_eq!((&columns[..16], columns[16], nodes), (&[0; 16][..], BEFORE, [BEFORE; 108]));
    // γ + table is 0 on some row: 17, after 15.
    for gamma in [P - 5, P - 7, P - 9] {
        let (mut columns, mut nodes) = ([BEFORE; 17], [BEFORE; 108]);
        assert_eq!(build(&TWICE, &[], &INPUT, &[10, gamma], &mut columns, &mut nodes), refused(17));
        assert_eq!((&columns[..16], columns[16], nodes), (&[0; 16][..], BEFORE, [BEFORE; 108]));
        assert_eq!(build(&TWICE, &[], &INPUT, &[10, gamma], &mut columns[..15], &mut nodes), refused(14));
        assert_eq!(build(&TWICE, &[], &[7, 6, 5, 9], &[10, gamma], &mut columns, &mut nodes), refused(15));
    }
    assert!(build(&TWICE, &[], &INPUT, &[10, P - 6], &mut columns, &mut nodes).is_ok());
    assert!(build(&TWICE, &[], &INPUT, &[P - 1, P - 1], &mut columns, &mut nodes).is_ok());
    // β = 2, γ = 1: the cell's factor is 0 at row 0, which is no denominator; then at row 1.
    let (mut columns, mut nodes) = ([BEFORE; 4], [BEFORE; 136]);
    assert!(build(&CELL, &[], &[P - 1, 4], &[2, 1], &mut columns, &mut nodes).is_ok());
    assert_eq!(columns, [0, 1, 0, 1]);
    assert_eq!(build(&CELL, &[], &[0, P - 3], &[2, 1], &mut columns, &mut nodes), refused(17));
    assert_eq!(columns, [0; 4]);
}

#[test]
fn row_sum_refuses() {
    let (mut columns, mut nodes) = ([0; 16], [0; 108]);
    assert!(build(&TWICE, &[], &INPUT, &[10, 100], &mut columns, &mut nodes).is_ok());
    let high = [7, 7, 5, P];
    let longer = [&columns[..], &[0]].concat();
    let mut others = nodes;
    others[107] ^= 1;
    assert_eq!(row_sum(&[], &INPUT, &columns, &nodes, &[10, 100, 2], &[0, 2]), refused(1));
    assert_eq!(row_sum(&TWICE[..39], &high, &columns, &nodes, &[10, 100, 2], &[0, 2]), refused(4));
    assert_eq!(row_sum(&TWICE, &high, &columns, &nodes, &[10, 100, 2], &[0, 2]), refused(16));
    assert_eq!(row_sum(&TWICE, &INPUT, &longer, &nodes, &[10, 100, 2], &[0, 2]), refused(16));
    assert_eq!(row_sum(&TWICE, &INPUT, &columns, &others, &[10, 100, 2], &[0, 2]), refused(16));
    assert_eq!(row_sum(&TWICE, &INPUT, &columns, &nodes, &[10, 100], &[0, 2]), refused(16));
    assert_eq!(row_sum(&TWICE, &INPUT, &columns, &nodes, &[10, 100, 2], &[0, P]), refused(16));
    assert_eq!(row_sum(&TWICE, &INPUT, &columns, &nodes, &[10, 100, 2], &[]), refused(16));
}

#[test]
fn empty_slices() {
    assert_eq!(build(&[], &[], &[], &[], &mut [], &mut []), refused(1));
    assert_eq!(build(&BARE, &[], &[], &[], &mut [], &mut []), refused(12));
    assert_eq!(build(&BARE, &[], &[3, 4], &[5, 6], &mut [], &mut []), refused(14));
    assert_eq!(row_sum(&[], &[], &[], &[], &[], &[]), refused(1));
    assert_eq!(row_sum(&BARE, &[], &[], &[], &[], &[]), refused(16));
    for (k, number) in [(0, 2), (1, 12), (10, 12), (11, 2)] {
        assert_eq!(lookup_m_poly(k, &[], &[], &mut []), refused(number));
        assert_eq!(lookup_h_poly(k, &[], &[], &[], 0, &mut []), refused(number));
        assert_eq!(eq_xy(k, &[], &mut []), refused(number));
    }
    let mut nodes = [BEFORE; 12];
    let built = build(&BARE, &[], &[3, 4], &[5, 6], &mut [], &mut nodes);
    assert_eq!(built, Ok(Built { column_words: 0, nodes: 3, z_columns: 0 }));
    assert_eq!(nodes, [1, 0, 0, 0, 4, 0, 0, 0, 9, 0, 1, 0]);
    assert_eq!(row_sum(&BARE, &[3, 4], &[], &nodes, &[5, 6, 7], &[8]), Ok(0));
}

/// Each number has one refusal, and each refusal says its number and its question.
#[test]
fn refusals() {
    for (number, refusal) in (1..).zip(Refusal::ALL) {
        assert_eq!(refusal.number(), number);
        let told: Box<dyn std::error::Error> = Box::new(refusal);
        assert_eq!(told.to_string(), format!("question {number} was answered no: {}", refusal.question()));
    }
    assert_eq!(format!("{:?}", Refusal::NotInTable), "NotInTable");
}

#[test]
fn threads() {
    std::thread::scope(|scope| {
        for _ in 0..4 {
            scope.spawn(|| (0..8).for_each(|_| builds()));
        }
    });
}

/// An input of 1023 nodes, each the negation of the one before, is built and summed on 1 MiB of stack.
#[test]
fn deep() {
    let mut circuit =
        vec![1, 0, 22, 0, 22, 0, 22, 1, 24, 1024, 4120, 0, 4120, 1, 4121, 1, 4123, 0, 4123, 0, 4123, 1, 1, 0];
    circuit.extend([1, 0, 0, 0]);
    (0..1022).for_each(|below| circuit.extend([7, below, 0, 0]));
    circuit.extend([5, 0, 0, 1 << 31, 1, 1022, 1023, 0]);
    let calls = move || {
        let (mut columns, mut nodes) = (vec![BEFORE; 8], vec![BEFORE; 1 << 14]);
        let built = build(&circuit, &[], &[4, 0], &[5, 6], &mut columns, &mut nodes).unwrap();
        assert_eq!(built.column_words, 8);
        assert_eq!(columns[..6], [0, 0, 4, 0, 0, 2]);
        let sum = row_sum(&circuit, &[4, 0], &columns, &nodes[..4 * built.nodes], &[5, 6, 7], &[8]);
        assert_eq!(sum, Ok(0));
    };
    std::thread::Builder::new().stack_size(1 << 20).spawn(calls).unwrap().join().unwrap();
}

/// A block of the case format: the call; each lent slice as its length and words; the returned numbers; each buffer after.
#[test]
fn stored_answers() {
    let path = concat!(env!("CARGO_MANIFEST_DIR"), "/../../oracle/data/small.txt");
    let text = std::fs::read_to_string(path).unwrap();
    let mut calls = 0;
    for block in text.split("\n\n").filter(|block| !block.starts_with('#')) {
        let mut lines = block.lines();
        let name = lines.next().unwrap();
        let slices: Vec<Vec<u64>> =
            lines.map(|line| line.split(' ').skip(1).map(|word| word.parse().unwrap()).collect()).collect();
        match (name, &slices[..]) {
            (
                "build",
                [circuit, instance, witness, challenges, columns, nodes, returned, columns_after, nodes_after],
            ) => {
                let (mut columns, mut nodes) = (columns.clone(), nodes.clone());
                let built = build(circuit, instance, witness, challenges, &mut columns, &mut nodes);
                let words = built.map_or_else(
                    |refusal| [refusal.number(), 0, 0, 0],
                    |built| [0, built.column_words as u64, built.nodes as u64, built.z_columns as u64],
                );
                assert_eq!(words, returned[..], "{block}");
                assert_eq!((&columns, &nodes), (columns_after, nodes_after), "{block}");
            }
            ("row_sum", [circuit, witness, columns, nodes, challenges, y, returned]) => {
                let sum = row_sum(circuit, witness, columns, nodes, challenges, y);
                assert_eq!(sum.map_or_else(|refusal| [refusal.number(), 0], |sum| [0, sum]), returned[..], "{block}");
            }
            ("lookup_h_poly", [k, input, table, m, gamma, h, returned, h_after]) => {
                let mut h = h.clone();
                let told = lookup_h_poly(k[0], input, table, m, gamma[0], &mut h);
                assert_eq!([told.map_or_else(|refusal| refusal.number(), |()| 0)], returned[..], "{block}");
                assert_eq!(&h, h_after, "{block}");
            }
            ("sizes", [circuit, returned]) => {
                let words = sizes(circuit).map_or_else(
                    |refusal| [refusal.number(), 0, 0, 0],
                    |sizes| [0, sizes.column_words as u64, sizes.nodes as u64, sizes.visits as u64],
                );
                assert_eq!(words, returned[..], "{block}");
            }
            _ => panic!("a block of another shape: {block}"),
        }
        calls += 1;
    }
    assert!(calls >= 95, "{calls} blocks");
}
