//! Document 01's worked examples, by the Rust and by the model; sizes of small circuits and of the largest; the
//! stand-in's field against products taken modulo p; the row order for every k it has.
use super::super::{
    preprocessor::permutation_polys,
    prover::{lookup_compressed_polys, lookup_m_poly},
};
use super::cases::{build_case, two_readings};
use super::generate;
use super::given::{answer, build, f, words, Expr, Log, Poly};
use super::limits::{most_nodes, most_visits, most_words};
use super::model::{self, compose, h_column, m_column, next, order, prev, Tree, P};
use super::questions::read;
use super::sections::*;
use crate::util::{
    arithmetic::{BooleanHypercube, Field, Goldilocks as F},
    expression::Rotation,
    Itertools,
};

/// Small circuits, each with its column words, nodes and visits.
pub fn sized() -> Vec<(Sections, [u64; 3])> {
    let base = |k: u64, round: [u64; 2], preprocess: usize| {
        let mut s = Sections { k, ..Default::default() };
        s.bodies[ROUNDS] = round.to_vec();
        s.bodies[PREPROCESS] = (5..).take(preprocess << k).collect();
        s
    };
    let poly = |p: u64| Tree::Polynomial(p, 0);
    let mut out = vec![];
    let mut sized = |mut s: Sections, edit: &dyn Fn(&mut Sections), sizes: [u64; 3]| {
        edit(&mut s);
        out.push((s, sizes));
    };
    sized(base(1, [1, 0], 0), &|s| s.constraint(&Tree::Constant(0)), [0, 3, 3]);
    sized(base(1, [1, 0], 0), &|s| s.cycle(&[(0, 1)]), [4, 34, 32]);
    sized(base(2, [1, 0], 1), &|s| s.lookup(&[(poly(1), poly(0))]), [16, 27, 25]);
    sized(base(2, [2, 0], 2), &|s| s.lookup(&[(poly(2), poly(0)), (poly(3), poly(1))]), [16, 47, 37]);
    sized(base(2, [2, 0], 1), &|s| [1, 2].into_iter().for_each(|p| s.lookup(&[(poly(p), poly(0))])), [32, 53, 48]);
    let one_group = |s: &mut Sections| [1, 2].into_iter().for_each(|p| s.member(&[(poly(p), poly(0))]));
    sized(base(2, [2, 0], 1), &one_group, [24, 43, 41]);
    sized(base(2, [2, 0], 0), &|s| s.cycle(&[(0, 1), (1, 2)]), [16, 57, 54]);
    // One of the two constraints is a list of three by a user challenge.
    let lists = |s: &mut Sections| {
        s.constraint(&Tree::Sum(poly(0).into(), Tree::Negated(poly(0).into()).into()));
        s.constraint(&Tree::List(vec![Tree::Constant(0); 3], Tree::Challenge(0).into()));
    };
    sized(base(2, [1, 1], 0), &lists, [0, 18, 13]);
    out
}

/// Small logs about zero denominators, each with its number: table 5, 7, 7, 9 by γ and an input; a cell by its witness;
/// a lookup whose input is copied, with an identity factor that is zero.
pub fn denominators() -> Vec<(u64, generate::Log)> {
    let base = |k: u64, table: &[u64]| {
        let mut s = Sections { k, ..Default::default() };
        s.bodies[ROUNDS] = vec![1, 0];
        s.bodies[PREPROCESS] = table.to_vec();
        s
    };
    let log = |sections: Sections, witness: &[u64], challenges: [u64; 2]| generate::Log {
        sections,
        instance: vec![],
        witness: witness.to_vec(),
        challenges: challenges.to_vec(),
        meets: false,
    };
    let listed = |witness: [u64; 4], cycle: &[(u64, u64)], challenges: [u64; 2]| {
        let mut s = base(2, &[5, 7, 7, 9]);
        s.lookup(&[(Tree::Polynomial(1, 0), Tree::Polynomial(0, 0))]);
        if !cycle.is_empty() {
            s.cycle(cycle);
        }
        log(s, &witness, challenges)
    };
    let cell = |witness: [u64; 2]| {
        let mut s = base(1, &[]);
        s.cycle(&[(0, 1)]);
        log(s, &witness, [2, 1])
    };
    let inputs = [7, 7, 5, 9];
    vec![
        (17, listed(inputs, &[], [10, P - 5])),
        (17, listed(inputs, &[], [10, P - 7])),
        (17, listed(inputs, &[], [10, P - 9])),
        (0, listed(inputs, &[], [10, P - 6])),
        (0, listed(inputs, &[], [10, 1])),
        (15, listed([7, 6, 5, 9], &[], [10, P - 5])),
        (0, cell([P - 1, 4])),
        (17, cell([0, P - 3])),
        (0, listed(inputs, &[(1, 1), (1, 2)], [3, P - 10])),
    ]
}

pub fn examples() {
    let rust_order = |k| BooleanHypercube::new(k).iter().collect_vec();
    assert_eq!(rust_order(2), [0, 1, 2, 3]);
    assert_eq!(rust_order(3), [0, 1, 2, 4, 3, 6, 7, 5]);
    assert_eq!((BooleanHypercube::new(3).rotate(1, Rotation(-1)), prev(3, 1)), (5, 5));
    for k in 1..=10 {
        assert_eq!(rust_order(k), order(k));
        assert!((0..1 << k)
            .all(|b| next(k, b) == BooleanHypercube::new(k).rotate(b, Rotation(1)) && prev(k, next(k, b)) == b));
    }
    for k in 0..32 {
        let bh = BooleanHypercube::new(k);
        assert_eq!(bh.x_inv(), bh.primitive() / 2);
    }
    for k in 1..=20 {
        let (bh, mut seen, mut b) = (BooleanHypercube::new(k), vec![false; 1 << k], 1);
        for _ in 1..1usize << k {
            assert!(b != 0 && !std::mem::replace(&mut seen[b], true));
            b = bh.rotate(b, Rotation(1));
        }
        assert_eq!((b, bh.rotate(0, Rotation(1)), bh.rotate(0, Rotation(-1))), (1, 0, 0));
    }
    let lagrange = |i: i32| {
        let lookup = vec![vec![(Expr::lagrange(i), Expr::zero())]];
        words(&lookup_compressed_polys(&lookup, &[&Poly::new(f(&[0; 8]))], &[], &f(&[1]))[0][0].evals)
    };
    assert_eq!(lagrange(-1), [0, 0, 0, 0, 0, 1, 0, 0]);
    assert_eq!(lagrange(8), [1, 0, 0, 0, 0, 0, 0, 0]);
    let table = [5, 7, 7, 9];
    for (input, m) in [([7, 7, 5, 9], Ok(vec![1, 0, 2, 1])), ([6, 7, 5, 9], Err(15))] {
        let rust = lookup_m_poly(&[Poly::new(f(&input)), Poly::new(f(&table))]);
        assert_eq!((rust.map(|m| words(&m.evals)).map_err(|_| 15), m_column(&[&input], &table)), (m.clone(), m));
    }
    let labels = permutation_polys::<F>(2, &[0, 1], &[vec![(0, 1), (1, 2)]]);
    assert_eq!(labels.iter().map(|p| words(&p.evals)).collect_vec(), [[0, 6, 2, 3], [4, 5, 1, 7]]);
    assert_eq!((F::from(1 << 32) * F::from(1 << 32)).value(), 4294967295);
    assert_eq!(F::from(2).invert().unwrap().value(), 9223372034707292161);
    let mut s = Sections { k: 1, ..Default::default() };
    s.bodies[ROUNDS] = vec![1, 0];
    s.cycle(&[(0, 1)]);
    assert_eq!(build(&Log::of(&s.words(), &[], &[3, 4], &[5, 6]), &mut |_| {}).unwrap().0.z, [[0, 1]]);
    let mut s = Sections { k: 1, degree: 6, ..Default::default() };
    s.bodies[ROUNDS] = vec![5, 0];
    s.cycle(&(0..5).map(|p| (p, 1)).collect_vec());
    let c = read(&s.words()).unwrap();
    assert_eq!((c.copied().len(), c.d(), c.parts(), c.cuts_are_alike()), (5, 5, 2, false));

    // Zero denominators. In the Rust 1/0 is 0, so only what is built is held to it.
    let h = [768614336225607680, 16140901060737761281, 1537228672451215360, 0];
    assert_eq!(h_column(&[&[7, 7, 5, 9]], &table, &[1, 0, 2, 1], 1), Ok(h.to_vec()));
    let cases = denominators().into_iter().map(|(number, log)| (number, build_case(&log, &mut Rng::narrow(1))));
    let cases = cases.inspect(|(number, case)| assert_eq!(case.returned[0], *number)).collect_vec();
    let built = |i: usize, at: usize, n: usize| &cases[i].1.after[0][at..at + n];
    assert_eq!(built(4, 12, 4), h);
    assert_eq!(built(6, 2, 2), [0, 1]);
    assert_eq!(built(8, 20, 4), [0, 1, 0, 0]);
    for (number, case) in cases.iter().filter(|(number, _)| *number != 0) {
        let needed = answer("sizes", vec![case.lent[0].clone()]).returned[1] as usize;
        assert_eq!(case.returned, [*number, 0, 0, 0]);
        assert!(case.after[0][..needed].iter().all(|w| *w == 0) && case.after[1] == case.lent[5]);
        assert_eq!(case.after[0][needed..], case.lent[4][needed..]);
    }

    // Groups: the columns and the nodes of two readings of one table, by kind; how many nodes three take.
    let readings = two_readings();
    let built = build_case(&readings, &mut Rng::narrow(1));
    let m = [2, 0, 3, 3];
    let h = [1998397274186579968, 14296226653796302849, 1537228672451215360, 614891468980486144];
    assert_eq!(built.returned, [0, 24, 43, 0]);
    assert_eq!(built.after[0][16..24], [m, h].concat());
    assert_eq!((m.iter().sum::<u64>(), h.into_iter().fold(0, model::add)), (8, 0));
    let kinds = "5 5 6 8 9 5 6 8 9 5 6 8 9 5 6 8 5 6 8 5 6 8 8 9 7 8 5 5 6 8 9 5 6 8 9 8";
    assert_eq!(built.after[1][4..4 + 4 * 36].iter().step_by(4).map(u64::to_string).collect_vec().join(" "), kinds);
    let c = read(&readings.sections.words()).unwrap();
    assert_eq!((c.d(), c.group_sizes(), compose(&c).degree()), (4, vec![2], 5));
    let mut three = readings.sections;
    three.member(&[(Tree::Polynomial(1, 0), Tree::Polynomial(0, 0))]);
    assert_eq!(answer("sizes", vec![three.words()]).returned[2], 60 + 7);

    let largest = [
        (most_words(), [188416, 4190, 3844]),
        (most_nodes(), [174080, 11295, 10627]),
        (most_visits(), [174080, 11271, 11047]),
    ];
    let largest = largest.into_iter().map(|(log, sizes)| (log.sections, sizes));
    for (s, [columns, nodes, visits]) in sized().into_iter().chain(largest) {
        assert_eq!(answer("sizes", vec![s.words()]).returned, [0, columns, nodes, visits]);
    }

    let mut rng = Rng::new(5);
    let edges = [0, 1, 2, 7, 0xffff_fffe, 0xffff_ffff, 1 << 32, (1 << 32) + 1, 1 << 63, P / 2, P - 2, P - 1];
    let values = edges.into_iter().chain((0..500).map(|_| rng.word() % P)).collect_vec();
    for (a, b) in values.iter().flat_map(|a| values.iter().map(move |b| (*a, *b))) {
        let (x, y) = (F::from(a), F::from(b));
        let rust = [x * y, x + y, x - y, -x].map(F::value);
        assert_eq!(rust, [model::mul(a, b), model::add(a, b), model::sub(a, b), model::neg(a)]);
    }
    assert!(values.iter().all(|a| *a == 0 || model::mul(*a, F::from(*a).invert().unwrap().value()) == 1));
    println!(
        "document 01's examples hold, and the sizes, zero denominators and groups; the field is Z/p; halving for k 0 to 31, full order for k 1 to 20"
    );
}
