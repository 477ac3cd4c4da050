//! Every limit of document 01, at and one past, as logs with the number known.
use super::generate::Log;
use super::model::{add, mul, neg, Tree, P};
use super::refuse::of_degree;
use super::sections::*;

const MAX: u64 = u64::MAX;

/// A log of all-zero columns over these sections, with a constraint if it has none.
fn log_of(mut s: Sections) -> Log {
    if s.bodies[CONSTRAINTS].is_empty() && s.bodies[WIDTHS].is_empty() && s.bodies[LENGTHS].is_empty() {
        s.constraint(&Tree::Constant(0));
    }
    let rows = 1usize << s.k.min(10);
    let witnesses: u64 = s.bodies[ROUNDS].chunks(2).map(|r| r[0]).sum();
    let challenges = vec![1 + P / 3; s.challenges() as usize + 2];
    let instance = vec![0; s.bodies[INSTANCES].iter().sum::<u64>() as usize];
    Log { instance, witness: vec![0; witnesses as usize * rows], challenges, sections: s, meets: true }
}

fn base(k: u64) -> Sections {
    let mut s = Sections { k, ..Default::default() };
    s.bodies[ROUNDS] = vec![1, 0];
    s
}

fn with(k: u64, edit: impl Fn(&mut Sections)) -> Log {
    let mut s = base(k);
    edit(&mut s);
    log_of(s)
}

/// `n` single cells' cycles of `length` cells over polynomials 0 to 3, k = 3.
fn cycles(n: u64, length: u64) -> Log {
    with(3, |s| {
        s.bodies[ROUNDS] = vec![4, 0];
        (0..n).for_each(|i| s.cycle(&(0..length).map(|j| (j, 1 + i % 7)).collect::<Vec<_>>()));
    })
}

/// One constraint of n nodes.
fn nodes(n: u64) -> Log {
    with(1, |s| {
        let sums = (n - 1) / 2;
        let sum = (0..sums).fold(Tree::Constant(0), |t, _| Tree::Sum(t.into(), Tree::Constant(0).into()));
        s.constraint(&if n % 2 == 1 { sum } else { Tree::Negated(sum.into()) });
    })
}

fn value(place: usize, word: u64) -> Log {
    let mut log = with(1, |s| s.bodies[INSTANCES] = vec![1]);
    match place {
        0 => log.instance[0] = word,
        1 => log.witness[1] = word,
        _ => log.challenges[1] = word,
    }
    log
}

/// One copied column, its labels 0, 1, …; or, where `turned`, 0, 2, 1, 3. On this row value + β × row + γ is zero.
fn zero_factor(row: u64, turned: bool) -> Log {
    let mut log = with(2, |s| s.cycle(if turned { &[(0, 1), (0, 2)] } else { &[(0, 1)] }));
    let [beta, gamma] = log.challenges[..] else { unreachable!() };
    log.witness[row as usize] = neg(add(gamma, mul(beta, row)));
    log.meets = !turned;
    log
}

fn rotation(r: i64) -> Log {
    with(3, |s| s.constraint(&Tree::Scaled(Tree::Polynomial(0, r).into(), 0)))
}

/// Everything at its limit at once, as far as the limits allow each other.
pub fn whole() -> Log {
    let mut s = base(10);
    s.bodies[INSTANCES] = vec![1023; 8];
    s.bodies[PREPROCESS] = (0..32 * 1024).map(|i| i % 5).collect();
    s.bodies[ROUNDS] = vec![8, 4, 8, 4, 8, 4, 8, 4];
    for _ in 0..8 {
        let same = |i: u64| (Tree::Polynomial(40 + i, 1), Tree::Polynomial(40 + i, -1));
        s.lookup(&(0..8).map(same).collect::<Vec<_>>());
    }
    for i in 0..32 {
        let tree = (0..13).fold(Tree::Polynomial(40 + i, 0), |t, _| Tree::Sum(t.into(), Tree::Constant(0).into()));
        s.constraint(&Tree::Scaled(tree.into(), 0));
    }
    (0..1024).for_each(|i| {
        s.cycle(&[(40 + i % 32, 1 + i % 1023), (40 + (i + 1) % 32, 1 + i % 1023), (i % 8, 1), (i % 8, 2)])
    });
    s.degree = 33;
    log_of(s)
}

/// k = 10, every polynomial copied, these lookups.
fn all_copied(lookups: impl Fn(&mut Sections)) -> Log {
    with(10, |s| {
        s.bodies[INSTANCES] = vec![1023; 8];
        s.bodies[PREPROCESS] = vec![0; 32 * 1024];
        s.bodies[ROUNDS] = vec![32, 16];
        lookups(s);
        (0..1024).for_each(|i| {
            s.cycle(&(0..4).map(|j| ((4 * i + j) % 72, 1 + i % 1023)).collect::<Vec<_>>());
        });
    })
}

/// A leaf, and n − 1 nodes above it.
fn tower(leaf: Tree, n: usize) -> Tree {
    (1..n).fold(leaf, |t, _| Tree::Negated(t.into()))
}

/// The circuit whose columns take the most words; of those with all groups of one, its composed expression has the most
/// nodes and visits: all nodes in 8 lookups of width 8, of degree 1 at most, so that D = 2.
pub fn most_words() -> Log {
    all_copied(|s| {
        for l in 0..8 {
            let pair = |i: u64| (tower(Tree::Polynomial(8 * l + i, 1), 8), tower(Tree::Constant(0), 8));
            s.lookup(&(0..8).map(pair).collect::<Vec<_>>());
        }
    })
}

/// 8 lookups of this width in one group, whose tables are single nodes; all other nodes in the inputs, of which one at
/// most has a degree, 1, so that D = 2.
fn one_group(width: usize) -> Log {
    all_copied(|s| {
        let inputs = 8 * width;
        let nodes = 1024 - inputs;
        for l in 0..8 {
            let pair = |i: usize| {
                let at = width * l + i;
                let leaf = if at == 0 { Tree::Polynomial(71, 1) } else { Tree::Constant(0) };
                (tower(leaf, nodes / inputs + (at < nodes % inputs) as usize), Tree::Constant(0))
            };
            let lookup: Vec<_> = (0..width).map(pair).collect();
            s.member(&lookup);
        }
    })
}

/// The circuit whose composed expression has the most nodes.
pub fn most_nodes() -> Log {
    one_group(8)
}

/// The circuit whose composed expression has the most visits.
pub fn most_visits() -> Log {
    one_group(2)
}

/// k = 10, 8 lookups of width 1 in one group, each a rotation of the table: every m adds up to 8 × 2^10.
fn eight_in_one() -> Log {
    let mut log = with(10, |s| {
        s.bodies[PREPROCESS] = (0..1024).map(|i| i * i % 1009).collect();
        (0..8).for_each(|r| s.member(&[(Tree::Polynomial(0, r - 4), Tree::Polynomial(0, 0))]));
    });
    log.challenges = vec![P / 5, P / 7];
    log
}

/// Two lookups in one group whose inputs have these degrees, the table none.
fn two_degrees(first: u64, second: u64) -> Log {
    with(1, |s| [first, second].into_iter().for_each(|d| s.member(&[(of_degree(d), Tree::Constant(0))])))
}

/// A group of two whose tables are one tree, Polynomial 0 + 3, the second written with its nodes in another order.
pub fn other_order() -> Log {
    with(1, |s| {
        s.bodies[NODES] = [
            [5, 0, 0, 1 << 31],
            [1, 0, 0, 3],
            [8, 0, 1, 0],
            [1, 0, 0, 3],
            [1, 0, 0, 3],
            [5, 0, 0, 1 << 31],
            [8, 5, 4, 0],
            [1, 0, 0, 3],
        ]
        .concat();
        (s.bodies[WIDTHS], s.bodies[PAIRS], s.bodies[GROUPS]) = (vec![1, 1], vec![3, 2, 7, 6], vec![0, 0]);
    })
}

/// A group whose lookups have these tables, looked up in themselves.
fn tables(of: &[&[Tree]]) -> Log {
    with(1, |s| of.iter().for_each(|t| s.member(&t.iter().map(|t| (t.clone(), t.clone())).collect::<Vec<_>>())))
}

/// Groups whose number is known: group numbers, tables of one tree or not.
pub fn groups() -> Vec<(u64, Log)> {
    let mut out = vec![(0, other_order())];
    for groups in [&[0][..], &[0, 0], &[0, 1], &[0, 0, 1], &[0, 1, 1], &[0, 0, 1, 2, 2, 3, 4, 4]] {
        out.push((0, numbered(groups)));
    }
    for groups in [&[1][..], &[0, 2], &[0, 1, 0], &[MAX], &[0, MAX], &[0, 0, 2], &[0, 1 << 32], &[1, 1], &[1, 2]] {
        out.push((18, numbered(groups)));
    }
    let zero = || Tree::Constant(0);
    out.push((18, tables(&[&[zero()], &[zero(), zero()]])));
    out.push((18, tables(&[&[zero(), zero()], &[zero()]])));
    out.push((18, tables(&[&[zero()], &[Tree::Scaled(zero().into(), 0)]])));
    out.push((0, tables(&[&[zero(), Tree::Identity], &[zero(), Tree::Identity], &[zero(), Tree::Identity]])));
    out.push((18, tables(&[&[zero(), Tree::Identity], &[zero(), Tree::Identity], &[Tree::Identity, zero()]])));
    out
}

/// Lookups in groups of these numbers.
fn numbered(groups: &[u64]) -> Log {
    with(1, |s| groups.iter().for_each(|group| s.lookup_in(*group, &[(Tree::Identity, Tree::Identity)])))
}

/// The limits one by one, each with the number that the log must get.
pub fn all() -> Vec<(u64, Log)> {
    let mut out = vec![];
    let mut pair = |past: u64, log: &dyn Fn(u64) -> Log, limit: u64| {
        out.push((0, log(limit)));
        out.push((past, log(limit + 1)));
    };
    pair(2, &|k| with(k, |_| {}), 10);
    pair(3, &|n| with(1, |s| s.bodies[INSTANCES] = vec![0; n as usize]), 8);
    pair(3, &|n| with(1, |s| s.bodies[PREPROCESS] = vec![0; 2 * n as usize]), 32);
    pair(3, &|n| with(1, |s| s.bodies[ROUNDS] = [1, 1].repeat(n as usize)), 4);
    pair(3, &|n| with(1, |s| s.bodies[ROUNDS] = vec![n, 0]), 32);
    pair(3, &|n| with(1, |s| s.bodies[ROUNDS] = vec![1, 1, 30, 1, n - 31, 0]), 32);
    pair(3, &|n| with(1, |s| s.bodies[ROUNDS] = vec![1, n]), 16);
    pair(3, &|n| with(1, |s| s.bodies[ROUNDS] = vec![1, 8, 1, n - 8]), 16);
    pair(3, &nodes, 1024);
    pair(3, &|n| with(1, |s| (0..n).for_each(|_| s.constraint(&Tree::Constant(0)))), 32);
    pair(3, &|n| with(1, |s| (0..n).for_each(|_| s.lookup(&[(Tree::Identity, Tree::Identity)]))), 8);
    pair(3, &|n| with(1, |s| s.lookup(&vec![(Tree::Identity, Tree::Identity); n as usize])), 8);
    pair(3, &|n| with(1, |s| (0..n).for_each(|_| s.member(&[(Tree::Identity, Tree::Identity)]))), 8);
    pair(3, &|n| cycles(n, 1), 1024);
    pair(3, &|n| cycles(n, 4), 1024);
    pair(3, &|n| with(1, |s| s.degree = n), 33);
    pair(5, &|n| with(3, |s| s.bodies[INSTANCES] = vec![n]), 7);
    pair(8, &|n| rotation(n as i64), 3);
    pair(8, &|n| rotation(-(n as i64)), 3);
    pair(8, &|n| with(1, |s| s.constraint(&Tree::Scaled(Tree::Polynomial(n, 0).into(), 0))), 0);
    pair(10, &|n| with(1, |s| s.constraint(&of_degree(n))), 1024);
    pair(10, &|n| with(1, |s| s.lookup(&[(of_degree(n), Tree::Constant(0))])), 1023);
    pair(10, &|n| with(1, |s| s.lookup(&[(of_degree(n), of_degree(512))])), 511);
    pair(10, &|n| two_degrees(512, n), 511);
    // Two groups, each of that degree: degrees of different groups are not added up.
    out.push((0, with(1, |s| (0..2).for_each(|_| s.lookup(&[(of_degree(1023), Tree::Constant(0))])))));
    let mut pair = |past: u64, log: &dyn Fn(u64) -> Log, limit: u64| {
        out.push((0, log(limit)));
        out.push((past, log(limit + 1)));
    };
    pair(
        10,
        &|n| {
            with(1, |s| {
                s.degree = 5;
                s.constraint(&of_degree(n))
            })
        },
        4,
    );
    pair(11, &|n| with(3, |s| s.cycle(&[(0, n)])), 7);
    pair(11, &|n| with(3, |s| s.cycle(&[(n, 1)])), 0);
    (0..3).for_each(|place| pair(13, &|n| value(place, n), P - 1));
    // A zero factor at row 0 is no denominator; nor is an identity factor that is zero where the permutation's is not.
    pair(17, &|row| zero_factor(row, false), 0);
    out.push((17, zero_factor(3, false)));
    (1..3).for_each(|row| out.push((0, zero_factor(row, true))));
    out.push((17, zero_factor(3, true)));
    out.extend(groups());
    out.push((3, with(1, |s| s.bodies[ROUNDS] = vec![])));
    out.push((11, with(3, |s| s.cycle(&[(0, 0)]))));
    out.push((0, with(3, |s| s.cycle(&[(0, 1)]))));
    // A wide cell section, past its limit by one: cycles 1024, cells 4097.
    let mut log = cycles(1024, 4);
    log.sections.bodies[LENGTHS][0] += 1;
    log.sections.bodies[CELLS].splice(0..0, [0, 7]);
    out.push((3, log));
    out
}

/// Circuits of k = 10 at many limits at once.
pub fn large() -> Vec<(u64, Log)> {
    [whole(), most_words(), most_nodes(), most_visits(), eight_in_one()].map(|log| (0, log)).into()
}
