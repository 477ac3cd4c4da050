//! Where the Rust and documents 01 and 02 part, each run on the smallest input that shows
//! it: the circuit words, the Rust's answer, the documents' number.
use super::super::{
    preprocessor::{compose, permutation_polys},
    prover::{instance_polys, lookup_compressed_polys, lookup_h_poly, lookup_m_poly},
    verifier::{pcs_query, point_offset},
};
use super::given::{answer, build, f, info, rows, words, Expr, Info, Log, Poly};
use super::model::{columns, composed_words, Tree, P};
use super::prove::proved;
use super::questions::read;
use super::refuse::of_degree;
use super::sections::*;
use crate::{
    poly::multilinear::rotation_eval_points,
    util::{
        arithmetic::Goldilocks as F,
        expression::{Query, Rotation},
    },
};
use std::panic::{catch_unwind, set_hook, AssertUnwindSafe};

/// What a call answers, or how it panics.
fn run<T: std::fmt::Debug>(call: impl FnOnce() -> T) -> String {
    match catch_unwind(AssertUnwindSafe(call)) {
        Ok(value) => format!("{value:?}"),
        Err(e) => {
            let said = e.downcast_ref::<String>().cloned().or(e.downcast_ref::<&str>().map(|s| s.to_string()));
            format!("panics ({})", said.unwrap_or_default().replace('\n', " "))
        }
    }
}

fn base(k: u64, witnesses: u64) -> Sections {
    let mut s = Sections { k, ..Default::default() };
    s.bodies[ROUNDS] = vec![witnesses, 0];
    s
}

fn show(what: &str, s: &Sections, rust: impl FnOnce(&Info) -> String) {
    let words = s.words();
    let short = |w: &[u64]| w.iter().map(u64::to_string).collect::<Vec<_>>().join(" ");
    let number = read(&words).map_or_else(|n| n, |_| 0);
    println!("{what}\n  words: {}", if words.len() > 80 { format!("{} in all", words.len()) } else { short(&words) });
    println!("  Rust: {}\n  documents 01 and 02: {number}", rust(&info(&words)));
}

fn well(i: &Info) -> String {
    format!("is_well_formed {}", run(|| i.is_well_formed()))
}

fn zeros(k: u64) -> Poly {
    Poly::new(f(&vec![0; 1 << k]))
}

/// A log with a zero denominator: the Rust's h and z, the row sum over its columns at α = 31, y = 2; and the number.
fn zero_denominator(what: &str, s: &Sections, witness: &[u64], challenges: [u64; 2]) {
    let (circuit, challenges) = (s.words(), challenges.to_vec());
    let built = build(&Log::of(&circuit, &[], witness, &challenges), &mut |_| {}).unwrap().0;
    let (c, words) = (read(&circuit).unwrap(), built.words());
    let nodes = composed_words(&c);
    let buffers = [vec![0; words.len()], vec![0; nodes.len()]];
    let lent = [vec![circuit.clone(), vec![], witness.to_vec(), challenges.clone()], buffers.to_vec()].concat();
    let sum_lent = vec![circuit, witness.to_vec(), words, nodes, [challenges, vec![31]].concat(), vec![2]];
    println!(
        "a zero denominator (k = 1, {what})\n  Rust: h {:?}, z {:?}, row sum {} (batch_invert is a stand-in)\n  document 02: {}",
        built.h,
        built.z,
        answer("row_sum", sum_lent).returned[1],
        answer("build", lent).returned[0]
    );
}

pub fn differences() {
    set_hook(Box::new(|_| {}));
    println!("-- the Rust accepts, documents 01 and 02 refuse\n");
    let mut s = base(0, 1);
    s.lookup(&[(Tree::Constant(1), Tree::Constant(1)), (Tree::Constant(1), Tree::Constant(1))]);
    show("k = 0 (a column of one value counts as the zero polynomial: β = 10 is lost)", &s, |i| {
        let c = lookup_compressed_polys(&i.lookups, &[&zeros(0)], &[], &f(&[1, 10]));
        format!("{}, compressed {:?}", well(i), words(&c[0][0].evals))
    });
    for values in [2u64, 3] {
        let mut s = base(1, 1);
        s.bodies[INSTANCES] = vec![values];
        s.constraint(&Tree::Constant(0));
        let given: Vec<u64> = [7, 9, 4][..values as usize].to_vec();
        show(&format!("k = 1, {values} instance values {given:?}"), &s, |i| {
            format!("{}, column {:?}", well(i), words(&instance_polys(1, [&f(&given)])[0].evals))
        });
    }
    let mut s = base(1, 1);
    s.constraint(&Tree::EqXY(0));
    show("EqXY(0) as a user constraint", &s, |i| {
        format!("{}, compose of degree {}", well(i), run(|| compose(i).1.degree()))
    });
    let mut s = base(2, 1);
    s.lookup(&[(Tree::Polynomial(0, 3), Tree::Polynomial(0, 0))]);
    show("a rotation beyond k (rotation 3 at k = 2, on 0 1 2 3)", &s, |i| {
        let c = lookup_compressed_polys(&i.lookups, &[&Poly::new(f(&[0, 1, 2, 3]))], &[], &f(&[1]));
        format!("{}, input {:?}", well(i), words(&c[0][0].evals))
    });
    for degree in [1025, 1 << 62] {
        let mut s = base(1, 1);
        s.constraint(&of_degree(degree));
        show(&format!("a user constraint of degree {degree}, no maximum stated"), &s, |i| {
            format!("{}, degree {}", well(i), i.constraints[0].degree())
        });
    }
    let mut s = base(1, 1);
    s.degree = 4;
    s.constraint(&Tree::Product(of_degree(1 << 63).into(), of_degree(1 << 63).into()));
    show("degrees that wrap: the product of two of degree 2^63, maximum 3 stated", &s, |i| {
        format!("{}, degree {}", well(i), run(|| i.constraints[0].degree()))
    });
    for cycle in [vec![(0, 1), (0, 1)], vec![(0, 1), (0, 2), (0, 1)]] {
        let mut s = base(2, 1);
        s.cycle(&cycle);
        show(&format!("a cell twice in one cycle: {cycle:?} at k = 2"), &s, |i| {
            format!("{}, labels {:?}", well(i), words(&permutation_polys::<F>(2, &[0], &i.permutations)[0].evals))
        });
    }
    let mut s = base(1, 1);
    s.bodies[INSTANCES] = vec![0; 9];
    s.constraint(&Tree::Constant(0));
    show("a limit of question 3 passed: nine instance columns (each limit alike; k = 11 gives 2)", &s, well);
    // γ + table is zero on row 0, γ + input on row 1.
    let mut s = base(1, 1);
    s.bodies[PREPROCESS] = vec![5, 7];
    s.lookup(&[(Tree::Polynomial(1, 0), Tree::Polynomial(0, 0))]);
    zero_denominator("table 5 7, inputs 7 5, β = 10, γ = p − 5", &s, &[7, 5], [10, P - 5]);
    let mut s = base(1, 1);
    s.cycle(&[(0, 1)]);
    zero_denominator("one single-cell cycle, witness 0, p − 3, β = 2, γ = 1", &s, &[0, P - 3], [2, 1]);
    let [input, table, m] = [[1, 1], [0, 1], [0, 2]];
    let h = lookup_h_poly(&[Poly::new(f(&input)), Poly::new(f(&table))], &Poly::new(f(&m)), &F::from(P - 1));
    let lent = vec![vec![1], input.to_vec(), table.to_vec(), m.to_vec(), vec![P - 1], vec![9; 2]];
    println!(
        "a zero denominator of h alone, k = 1, input 1 1, table 0 1, m 0 2, γ = p − 1\n  Rust: h {:?} (batch_invert is a stand-in)\n  document 02: {}",
        words(&h.evals),
        answer("lookup_h_poly", lent).returned[0]
    );

    println!("\n-- the Rust has no groups of lookups\n");
    let mut s = base(1, 1);
    (0..2).for_each(|_| s.member(&[(Tree::Polynomial(0, 0), Tree::Polynomial(0, 0))]));
    show("two lookups of one column in itself, in one group (k = 1, witness 5 7, β = 10, γ = 100)", &s, |i| {
        let log = Log::of(&s.words(), &[], &[5, 7], &[10, 100]);
        let (rust, composed) = build(&log, &mut |_| {}).unwrap();
        let c = read(&s.words()).unwrap();
        let ours = columns(&c, &[], &[5, 7], &[10, 100]).unwrap();
        format!(
            "{}, m {:?}, h {:?}, degree {}; documents: m {:?}, h {:?}, degree {}",
            well(i),
            rust.m,
            rust.h,
            composed.degree() - 1,
            ours.m,
            ours.h,
            c.d()
        )
    });
    let mut s = base(1, 1);
    s.lookup_in(1, &[(Tree::Constant(0), Tree::Constant(0))]);
    show("a group number that breaks the rule: the first is 1", &s, well);
    let mut s = base(1, 1);
    s.lookup(&[(Tree::Constant(0), Tree::Constant(0))]);
    s.member(&[(Tree::Constant(0), Tree::Scaled(Tree::Constant(0).into(), 0))]);
    show("tables of one group that differ as trees: Constant 0 and 0 × Constant 0", &s, well);

    println!("\n-- the Rust panics, document 01 allows\n");
    let mut s = base(1, 1);
    s.cycle(&[(0, 1)]);
    show("k = 1, one single-cell cycle: the columns are built, `prove` fails", &s, |i| {
        let log = Log::of(&s.words(), &[], &[3, 4], &[5, 6]);
        let z = build(&log, &mut |_| {}).unwrap().0.z;
        format!("{}, z {z:?}, prove {}", well(i), run(|| proved(&log, &f(&[7, 11, 13])).map(|_| ())))
    });
    for (k, r) in [(1usize, 1), (2, -2)] {
        let (p, x) = (Poly::new(f(&vec![1; 1 << k])), f(&[5, 6][..k]));
        println!(
            "evaluate_for_rotation at a distance of k (k = {k}, rotation {r})\n  Rust: {}; rotation_eval_points gives {} points",
            run(|| p.evaluate_for_rotation(&x, Rotation(r)).len()),
            run(|| rotation_eval_points(&x, Rotation(r)).len())
        );
    }
    let mut s = base(1, 1);
    s.constraint(&Tree::Constant(0));
    show("no column queried (a Constant as the only constraint): no point to open at", &s, |i| {
        format!("{}, point_offset {}", well(i), run(|| point_offset(&pcs_query(&compose(i).1, 0)).len()))
    });

    println!("\n-- both refuse, the Rust by a panic or by is_well_formed\n");
    let mut s = base(1, 1);
    s.bodies[ROUNDS].clear();
    s.constraint(&Tree::Constant(0));
    show("no rounds", &s, well);
    let built = |i: &Info| run(|| lookup_compressed_polys(&i.lookups, &[&zeros(1)], &[], &f(&[1])).len());
    let mut s = base(1, 1);
    s.lookup(&[]);
    show("a lookup of width 0", &s, |i| {
        format!("{}, compressed {}, compose {}", well(i), built(i), run(|| compose(i).0))
    });
    let mut s = base(1, 1);
    s.lookup(&[(Tree::EqXY(0), Tree::EqXY(0))]);
    show("EqXY(0) in a lookup", &s, |i| format!("{}, compressed {}", well(i), built(i)));
    show("nothing to constrain", &base(1, 1), |i| format!("{}, compose {}", well(i), run(|| compose(i).0)));
    for (what, cycle) in [("row 0", vec![(0, 0)]), ("row 2^k", vec![(0, 2)]), ("an empty cycle", vec![])] {
        let mut s = base(1, 1);
        s.cycle(&cycle);
        show(what, &s, |i| {
            format!("{}, permutation_polys {}", well(i), run(|| permutation_polys::<F>(1, &[0], &i.permutations).len()))
        });
    }
    let mut s = base(1, 1);
    s.cycle(&[(9, 1)]);
    show("a cell of polynomial 9 of 1 (is_well_formed refuses a part of 11 as well)", &s, well);

    println!("\n-- other\n");
    let list = Expr::DistributePowers(
        vec![Query::new(0, Rotation(0)).into(), Query::new(1, Rotation(0)).into()],
        Expr::Challenge(0).into(),
    );
    let value = rows(1, &list, &|p, _| F::from([1, 10][p]), &|_| F::from(100), &f(&[0, 0]))[0].value();
    println!(
        "a list of p0, p1 by c0: `identifier` prints {}; with p0 = 1, p1 = 10, c0 = 100 it is {value}",
        list.identifier()
    );
    let list =
        Expr::DistributePowers(vec![Query::new(0, Rotation(0)).into()], Expr::from(Query::new(7, Rotation(0))).into());
    println!(
        "a list of one hides its base: degree {}, {} query (document 01's kind 11 has two Items or more)",
        list.degree(),
        list.used_query().len()
    );
    let m = lookup_m_poly(&[Poly::new(f(&[7, 7, 5, 9])), Poly::new(f(&[5, 7, 7, 9]))]).unwrap();
    println!(
        "a table row listed twice, table 5 7 7 9, inputs 7 7 5 9: m {:?}; Haböck's paper shares: 1 1 1 1",
        words(&m.evals)
    );
}
