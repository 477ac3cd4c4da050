//! The given Rust fed with document 01's words: a reader of circuit words into
//! `PlonkishCircuitInfo`, node words read back into an `Expression`, the columns
//! by the Rust's own functions, and each held against the model.
use super::super::{
    preprocessor::{compose, max_degree, permutation_polys},
    prover::{
        instance_polys, lookup_compressed_polys, lookup_h_poly, lookup_h_polys, lookup_m_poly, lookup_m_polys,
        permutation_z_polys,
    },
};
use super::calls::{self, asked, call, plain_log, polys, sized_builds, Case};
use super::model::{add, columns, composed_words, Columns, Tree};
use super::questions::{parted, read, Circuit};
use crate::{
    backend::PlonkishCircuitInfo,
    poly::multilinear::MultilinearPolynomial,
    util::{
        arithmetic::{powers, BooleanHypercube, Goldilocks as F},
        expression::{CommonPolynomial, Expression, Query, Rotation},
        Itertools,
    },
};
use std::cell::Cell;

pub type Poly = MultilinearPolynomial<F>;
pub type Expr = Expression<F>;
pub type Info = PlonkishCircuitInfo<F>;

pub fn f(words: &[u64]) -> Vec<F> {
    words.iter().map(|w| F::from(*w)).collect()
}
pub fn words(values: &[F]) -> Vec<u64> {
    values.iter().map(|v| v.value()).collect()
}
fn poly(words: &[u64]) -> Poly {
    Poly::new(f(words))
}
fn all_words(polys: &[Poly]) -> Vec<Vec<u64>> {
    polys.iter().map(|p| words(&p.evals)).collect()
}

/// A node of node words as an expression.
pub fn expression(nodes: &[u64], at: u64) -> Expr {
    let [kind, first, second, value] = nodes[4 * at as usize..][..4] else { unreachable!() };
    let child = |n: u64| Box::new(expression(nodes, n));
    let signed = (value as i64 - (1 << 31)) as i32;
    match kind {
        1 => Expr::Constant(F::from(value)),
        2 => Expr::identity(),
        3 => Expr::lagrange(signed),
        4 => Expr::eq_xy(value as usize),
        5 => Query::new(first as usize, Rotation(signed)).into(),
        6 => Expr::Challenge(first as usize),
        7 => Expr::Negated(child(first)),
        8 => Expr::Sum(child(first), child(second)),
        9 => Expr::Product(child(first), child(second)),
        10 => Expr::Scaled(child(first), F::from(value)),
        11 => {
            let mut list = vec![];
            let mut item = second as usize;
            loop {
                list.push(expression(nodes, nodes[4 * item + 1]));
                if nodes[4 * item + 3] == 0 {
                    return Expr::DistributePowers(list, child(first));
                }
                item = nodes[4 * item + 2] as usize;
            }
        }
        _ => unreachable!("kind {kind}"),
    }
}

/// An expression as the model's tree.
fn tree(e: &Expr) -> Tree {
    let child = |e: &Expr| Box::new(tree(e));
    match e {
        Expr::Constant(c) => Tree::Constant(c.value()),
        Expr::CommonPolynomial(CommonPolynomial::Identity) => Tree::Identity,
        Expr::CommonPolynomial(CommonPolynomial::Lagrange(i)) => Tree::Lagrange(*i as i64),
        Expr::CommonPolynomial(CommonPolynomial::EqXY(i)) => Tree::EqXY(*i as u64),
        Expr::Polynomial(query) => Tree::Polynomial(query.poly() as u64, query.rotation().0 as i64),
        Expr::Challenge(i) => Tree::Challenge(*i as u64),
        Expr::Negated(a) => Tree::Negated(child(a)),
        Expr::Sum(a, b) => Tree::Sum(child(a), child(b)),
        Expr::Product(a, b) => Tree::Product(child(a), child(b)),
        Expr::Scaled(a, s) => Tree::Scaled(child(a), s.value()),
        Expr::DistributePowers(list, base) => Tree::List(list.iter().map(tree).collect(), child(base)),
    }
}

/// Circuit words that pass 1 to 11, as the Rust holds a circuit. It has no groups: every lookup stands by itself.
pub fn info(w: &[u64]) -> Info {
    let k = w[0] as usize;
    let body = |s: usize| &w[w[2 + 2 * s] as usize..w[4 + 2 * s] as usize];
    let sizes = |s: usize| body(s).iter().map(|v| *v as usize).collect_vec();
    let pairs = |s: usize| sizes(s).chunks(2).map(|p| (p[0], p[1])).collect_vec();
    let (rounds, roots, cells) = (pairs(2), pairs(6), pairs(8));
    let (mut roots, mut cells) = (roots.into_iter(), cells.into_iter());
    let node = |root: usize| expression(body(3), root as u64);
    Info {
        k,
        num_instances: sizes(0),
        preprocess_polys: body(1).chunks(1 << k).map(f).collect(),
        num_witness_polys: rounds.iter().map(|r| r.0).collect(),
        num_challenges: rounds.iter().map(|r| r.1).collect(),
        constraints: sizes(4).into_iter().map(node).collect(),
        lookups: (sizes(5).into_iter())
            .map(|width| roots.by_ref().take(width).map(|(i, t)| (node(i), node(t))).collect())
            .collect(),
        permutations: sizes(7).into_iter().map(|len| cells.by_ref().take(len).collect()).collect(),
        max_degree: (w[1] as usize).checked_sub(1),
    }
}

/// Instance values by column.
pub fn instances(info: &Info, instance: &[u64]) -> Vec<Vec<F>> {
    let mut values = f(instance).into_iter();
    info.num_instances.iter().map(|len| values.by_ref().take(*len).collect()).collect()
}

/// What the stages need besides the circuit.
pub struct Log {
    pub info: Info,
    pub instances: Vec<Vec<F>>,
    pub witness: Vec<Poly>,
    pub challenges: Vec<F>,
    pub beta: F,
    pub gamma: F,
}

impl Log {
    pub fn of(circuit: &[u64], instance: &[u64], witness: &[u64], challenges: &[u64]) -> Log {
        let info = info(circuit);
        let mut challenges = f(challenges);
        let gamma = challenges.pop().unwrap();
        let beta = challenges.pop().unwrap();
        let witness = witness.chunks(1 << info.k).map(poly).collect();
        Log { instances: instances(&info, instance), witness, challenges, beta, gamma, info }
    }
}

/// The stages in `prove`'s order, by the Rust's functions; `lap` hears as each
/// ends. None: the Rust refuses a lookup input.
pub fn build(log: &Log, lap: &mut impl FnMut(&'static str)) -> Option<(Columns, Expr)> {
    stages(log, lap, false, None)
}

/// As `build`. `listed`: each compressed table is looked up in itself, so that nothing is refused. `cut`: into how many
/// parts z is cut, where the Rust's own number is another.
fn stages(log: &Log, lap: &mut impl FnMut(&'static str), listed: bool, cut: Option<usize>) -> Option<(Columns, Expr)> {
    let info = &log.info;
    let instance = instance_polys(info.k, &log.instances);
    lap("instance");
    let preprocess = info.preprocess_polys.iter().cloned().map(Poly::new).collect_vec();
    let polys = instance.iter().chain(&preprocess).chain(&log.witness).collect_vec();
    lap("(copying)");
    let width = info.lookups.iter().map(Vec::len).max().unwrap_or_default();
    let betas = powers(log.beta).take(width).collect_vec();
    let mut compressed = lookup_compressed_polys(&info.lookups, &polys, &log.challenges, &betas);
    if listed {
        compressed.iter_mut().for_each(|pair| pair[0] = pair[1].clone());
    }
    lap("compressed");
    let m = lookup_m_polys(&compressed).ok()?;
    lap("m");
    let h = lookup_h_polys(&compressed, &m, &log.gamma);
    lap("h");
    let permutation = permutation_polys(info.k, &info.permutation_polys(), &info.permutations);
    let permutation = info.permutation_polys().into_iter().zip(permutation).collect_vec();
    lap("permutation");
    let (parts, composed) = compose(info);
    let parts = cut.unwrap_or(parts);
    lap("compose");
    let z = permutation_z_polys(parts, &permutation, &polys, &log.beta, &log.gamma);
    lap("z");
    assert_eq!(parts, z.len());
    let built = Columns {
        instance: all_words(&instance),
        permutation: permutation.iter().map(|(_, p)| words(&p.evals)).collect(),
        compressed: compressed.iter().flat_map(|p| all_words(p)).collect(),
        m: all_words(&m),
        h: all_words(&h),
        z: all_words(&z),
    };
    Some((built, composed))
}

/// The columns and the composed expression of a circuit's log. Where a group has two lookups or more, which the Rust has
/// not, m and h are the Rust's of its members, added up; z is the Rust's for N parts; the expression is the model's.
fn of_circuit(c: &Circuit, log: &Log, listed: bool) -> Option<(Columns, Expr)> {
    if c.groups_of_one() {
        return stages(log, &mut |_| {}, listed, None);
    }
    let mut built = stages(log, &mut |_| {}, listed, Some(c.parts() as usize))?.0;
    let sum = |of: &[Vec<u64>]| (0..1 << c.k).map(|b| of.iter().map(|column| column[b]).fold(0, add)).collect();
    let added = |columns: &[Vec<u64>]| parted(columns, &c.group_sizes()).into_iter().map(sum).collect();
    (built.m, built.h) = (added(&built.m), added(&built.h));
    Some((built, composed_of(c, &log.info)))
}

/// The Rust's composed expression; the model's where a group has two lookups or more.
fn composed_of(c: &Circuit, info: &Info) -> Expr {
    if c.groups_of_one() {
        return compose(info).1;
    }
    let nodes = composed_words(c);
    expression(&nodes, nodes.len() as u64 / 4 - 1)
}

/// The expression's value on every row, by the Rust's `evaluate`, over a polynomial
/// at a row and a challenge by their numbers.
pub fn rows(
    k: usize,
    expression: &Expr,
    poly: &impl Fn(usize, usize) -> F,
    challenge: &impl Fn(usize) -> F,
    eq: &[F],
) -> Vec<F> {
    let bh = BooleanHypercube::new(k);
    let order = bh.iter().collect_vec();
    let row = |b: usize| {
        expression.evaluate(
            &|constant| constant,
            &|common| match common {
                CommonPolynomial::Identity => F::from(b as u64),
                CommonPolynomial::Lagrange(i) => F::from((order[i.rem_euclid(1 << k) as usize] == b) as u64),
                CommonPolynomial::EqXY(_) => eq[b],
            },
            &|query| poly(query.poly(), bh.rotate(b, query.rotation())),
            challenge,
            &|value| -value,
            &|lhs, rhs| lhs + rhs,
            &|lhs, rhs| lhs * rhs,
            &|value, scalar| value * scalar,
        )
    };
    (0..1 << k).map(row).collect()
}

/// What the Rust's `evaluate` hands on while visits are counted. It clones a value only to take powers of a list's base,
/// so a power of it, and an expression times such a power, can be told from a node.
enum Told {
    Node,
    Power(usize),
    Term(usize),
}

impl Clone for Told {
    fn clone(&self) -> Told {
        match self {
            Told::Node => Told::Power(1),
            Told::Power(e) => Told::Power(*e),
            Told::Term(_) => unreachable!("`evaluate` clones a term of a list"),
        }
    }
}

/// The nodes that the Rust's `evaluate` visits. Each closure call is a visit, but for those by which it adds up a list:
/// powers of the base, expressions times these, and sums of them. They are one visit together, that of the list itself,
/// taken at its first sum. (Of a list of one it would visit neither list nor base. No composed expression has one.)
fn visits(e: &Expr) -> u64 {
    let count = Cell::new(0);
    let visit = || {
        count.set(count.get() + 1);
        Told::Node
    };
    let root = e.evaluate(
        &|_| visit(),
        &|_| visit(),
        &|_| visit(),
        &|_| visit(),
        &|_| visit(),
        &|_, rhs| match rhs {
            Told::Term(e) if e > 1 => Told::Node,
            _ => visit(),
        },
        &|lhs, rhs| match (lhs, rhs) {
            (Told::Power(e), Told::Power(_)) => Told::Power(e + 1),
            (Told::Power(e), _) => Told::Term(e),
            _ => visit(),
        },
        &|_, _| visit(),
    );
    assert!(matches!(root, Told::Node));
    count.get()
}

/// Both composed expressions: the Rust's and the one read from node words, alike
/// in value on every row, degree, `used_query`, and as trees.
fn composed_alike(c: &Circuit, rust: &Expr, nodes: &[u64], polys: &[&[u64]], challenges: &[u64], y: &[u64]) -> F {
    let mine = expression(nodes, nodes.len() as u64 / 4 - 1);
    let (polys, challenges, eq) = (polys.iter().map(|p| f(p)).collect_vec(), f(challenges), Poly::eq_xy(&f(y)));
    let values = |e: &Expr| rows(c.k, e, &|p, b| polys[p][b], &|i| challenges[i], &eq.evals);
    let theirs = values(rust);
    assert_eq!(theirs, values(&mine), "values of the composed expressions");
    assert_eq!(rust.degree(), mine.degree(), "degree");
    assert_eq!(rust.used_query(), mine.used_query(), "used_query");
    assert_eq!(*rust, mine, "the composed trees");
    theirs.into_iter().sum()
}

/// The answer to a call: the model's number, the Rust's columns, the model's
/// nodes, with each that both know compared. Panics where they part. Where a
/// denominator is zero (17) the model's answer stands alone: the Rust's columns
/// have 0 in place of the inverse, and are not looked at. Where a group has two
/// lookups or more it stands alone but for `of_circuit`, and for values and visits,
/// which are those of the Rust's `evaluate` on the model's expression.
pub fn answer(name: &str, lent: Vec<Vec<u64>>) -> Case {
    let case = calls::answer(name, lent);
    let slices = case.lent[..call(name).buffers].iter().map(|s| &s[..]).collect_vec();
    let number = case.returned[0];
    if number != 0 && number != 15 {
        return case;
    }
    match name {
        "build" => {
            let c = asked(&slices, &case.lent[4..]).unwrap();
            let log = Log::of(slices[0], slices[1], slices[2], slices[3]);
            assert!(log.info.is_well_formed(), "is_well_formed");
            assert!(!c.groups_of_one() || max_degree(&log.info, None) as u64 == c.d(), "D");
            let rust = of_circuit(&c, &log, false);
            let model = columns(&c, slices[1], slices[2], slices[3]).ok();
            assert_eq!(rust.as_ref().map(|r| &r.0), model.as_ref(), "columns");
            if let Some((built, composed)) = rust {
                let columns = built.words();
                let nodes = &case.after[1][..4 * case.returned[2] as usize];
                let challenges = [slices[3], &[31337]].concat();
                let y = (0..c.k as u64).map(|i| 12345 + i * i).collect_vec();
                composed_alike(&c, &composed, nodes, &polys(&c, slices[2], &columns), &challenges, &y);
                assert_eq!(columns, case.after[0][..columns.len()]);
            }
        }
        "row_sum" => {
            let c = read(slices[0]).unwrap();
            let polys = polys(&c, slices[1], slices[2]);
            let composed = composed_of(&c, &info(slices[0]));
            let sum = composed_alike(&c, &composed, slices[3], &polys, slices[4], slices[5]);
            assert_eq!(sum.value(), case.returned[1], "row sum");
        }
        "sizes" => {
            let c = read(slices[0]).unwrap();
            let [instance, witness, challenges] = plain_log(&c);
            let log = Log::of(slices[0], &instance, &witness, &challenges);
            let (built, composed) = of_circuit(&c, &log, true).unwrap();
            let mut nodes = vec![];
            tree(&composed).write(&mut nodes);
            let rust = [built.words().len() as u64, nodes.len() as u64, visits(&composed)];
            assert_eq!(rust, case.returned[1..], "sizes");
            sized_builds(&case);
        }
        "lookup_m_poly" => {
            let rust = lookup_m_poly(&[poly(slices[1]), poly(slices[2])]).ok().map(|m| words(&m.evals));
            let rows = 1 << slices[0][0];
            assert_eq!(rust.is_none(), number == 15);
            assert_eq!(rust.unwrap_or(vec![0; rows]), case.after[0][..rows]);
        }
        "lookup_h_poly" => {
            let compressed = [poly(slices[1]), poly(slices[2])];
            let h = lookup_h_poly(&compressed, &poly(slices[3]), &F::from(slices[4][0]));
            assert_eq!(words(&h.evals), case.after[0][..h.evals.len()]);
        }
        _ => {
            let eq = Poly::eq_xy(&f(slices[1]));
            assert_eq!(words(&eq.evals), case.after[0][..eq.evals.len()]);
        }
    }
    case
}
