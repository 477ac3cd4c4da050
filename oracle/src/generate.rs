//! Accepted circuits with logs of every shape: those that meet their circuit, and
//! others.
use super::model::{order, rotate, Place, Tree, P};
use super::questions::Lookup;
use super::sections::{Rng, Sections, CONSTRAINTS, INSTANCES, NODES, PREPROCESS, ROUNDS, WIDTHS};

use std::ops::Range;

#[derive(Clone, Debug, Default)]
pub struct Log {
    pub sections: Sections,
    pub instance: Vec<u64>,
    pub witness: Vec<u64>,
    /// The user's, then β, γ.
    pub challenges: Vec<u64>,
    /// Known to meet constraints, lookups and cycles.
    pub meets: bool,
}

/// Below p: small ones most often, so that values meet and denominators vanish.
pub fn value(rng: &mut Rng, wide: bool) -> u64 {
    match rng.below(16) {
        0 => P - 1 - rng.below(3) as u64,
        _ if wide => rng.word() % P,
        _ => rng.below(3) as u64,
    }
}

fn values(rng: &mut Rng, wide: bool, n: usize) -> Vec<u64> {
    (0..n).map(|_| value(rng, wide)).collect()
}

fn boxed(t: Tree) -> Box<Tree> {
    Box::new(t)
}
fn difference(a: Tree, b: Tree) -> Tree {
    Tree::Sum(boxed(a), boxed(Tree::Negated(boxed(b))))
}

/// What a random tree may name.
#[derive(Clone, Copy)]
pub struct Scope {
    pub k: usize,
    pub polys: usize,
    pub challenges: usize,
}

fn rotation(rng: &mut Rng, k: usize) -> i64 {
    if rng.once_in(2) {
        0
    } else {
        rng.below(2 * k + 1) as i64 - k as i64
    }
}

/// A tree of any node kind but EqXY.
pub fn tree(rng: &mut Rng, scope: Scope, depth: usize) -> Tree {
    let kind = if depth == 0 { rng.below(6) } else { rng.below(13) };
    let mut child = |rng: &mut Rng| boxed(tree(rng, scope, depth.saturating_sub(1)));
    match kind {
        0 => Tree::Constant(value(rng, false)),
        1 => Tree::Identity,
        2 if rng.once_in(6) => Tree::Lagrange(rng.pick(&[-2147483648, 2147483647])),
        2 => Tree::Lagrange(rng.below(4 << scope.k) as i64 - (2 << scope.k)),
        3 if scope.challenges > 0 => Tree::Challenge(rng.below(scope.challenges) as u64),
        0..=5 => Tree::Polynomial(rng.below(scope.polys) as u64, rotation(rng, scope.k)),
        6 => Tree::Negated(child(rng)),
        7 | 8 => Tree::Sum(child(rng), child(rng)),
        9 => Tree::Product(child(rng), child(rng)),
        10 => Tree::Scaled(child(rng), value(rng, true)),
        _ => {
            let list = (0..rng.range(2, 4)).map(|_| *child(rng)).collect();
            Tree::List(list, child(rng))
        }
    }
}

/// A log that questions 1 to 14 pass, of small size where `small`.
pub fn log(rng: &mut Rng, small: bool) -> Log {
    loop {
        let log = draw(rng, small);
        let nodes = log.sections.count(NODES);
        let fits = super::questions::read(&log.sections.words()).is_ok();
        if nodes <= if small { 60 } else { 1024 } && fits {
            return log;
        }
    }
}

/// What a further member of a group may be made of.
struct Bound {
    meets: bool,
    scope: Scope,
    /// The preprocess columns.
    given: Range<usize>,
}

/// A lookup with the tables of the one before, whose inputs are: these tables; their columns at another rotation, or rows
/// picked from them into witness columns that are still free; those of the one before; or, where the log need not meet
/// them, any.
fn member(rng: &mut Rng, before: &Lookup, bound: Bound, polys: &mut [Vec<u64>], free: &mut usize) -> Lookup {
    let tables = before.iter().map(|pair| &pair.1);
    let columns: Vec<(usize, i64)> = (tables.clone())
        .filter_map(|t| if let Tree::Polynomial(p, r) = t { Some((*p as usize, *r)) } else { None })
        .collect();
    let of_columns = columns.len() == before.len();
    let given = of_columns && columns.iter().all(|(p, r)| bound.given.contains(p) && *r == 0);
    let inputs: Vec<Tree> = match rng.below(if bound.meets { 4 } else { 5 }) {
        0 | 1 if given && *free + columns.len() <= polys.len() => {
            let rows = polys[0].len();
            let picks: Vec<usize> = (0..rows).map(|_| rng.below(rows)).collect();
            for (i, (table, _)) in columns.iter().enumerate() {
                polys[*free + i] = picks.iter().map(|row| polys[*table][*row]).collect();
            }
            *free += columns.len();
            (*free - columns.len()..*free).map(|p| Tree::Polynomial(p as u64, 0)).collect()
        }
        0..=2 if of_columns && columns.iter().all(|c| c.1 == columns[0].1) => {
            let r = rotation(rng, bound.scope.k);
            columns.iter().map(|(p, _)| Tree::Polynomial(*p as u64, r)).collect()
        }
        0 | 3 => tables.clone().cloned().collect(),
        4 => before.iter().map(|_| tree(rng, bound.scope, 1)).collect(),
        _ => before.iter().map(|pair| pair.0.clone()).collect(),
    };
    inputs.into_iter().zip(tables.cloned()).collect()
}

fn draw(rng: &mut Rng, small: bool) -> Log {
    let meets = rng.once_in(2);
    let k = match rng.below(24) {
        0 if !small => rng.range(6, 10),
        1..=7 if !small => rng.range(4, 5),
        _ => rng.range(1, 3),
    };
    let rows = 1usize << k;
    let (order, wide) = (order(k), rng.once_in(4));
    let many = !small && k < 6 && rng.once_in(8);
    let most = |rng: &mut Rng, few: usize, lots: usize| rng.below(1 + if many { lots } else { few });
    let mut s = Sections { k: k as u64, ..Default::default() };

    // Instance, preprocess and witness columns. Preprocess rows stand twice.
    for _ in 0..most(rng, 2, 8) {
        s.bodies[INSTANCES].push(rng.below(rows) as u64);
    }
    let instance = values(rng, wide, s.bodies[INSTANCES].iter().sum::<u64>() as usize);
    let mut preprocess: Vec<Vec<u64>> = (0..most(rng, 3, 12)).map(|_| values(rng, wide, rows)).collect();
    for _ in 0..rng.below(rows) {
        let (from, to) = (rng.below(rows), rng.below(rows));
        preprocess.iter_mut().for_each(|column| column[to] = column[from]);
    }
    s.bodies[PREPROCESS] = preprocess.concat();
    let rounds = rng.range(1, if small { 2 } else { 4 });
    for round in 0..rounds {
        let witnesses = 1 + most(rng, 2, 6);
        let challenges = rng.below(3) + (round + 1 < rounds) as usize;
        s.bodies[ROUNDS].extend([witnesses as u64, challenges as u64]);
    }
    let (total, user) = (s.polys() as usize, s.challenges() as usize);
    let witness_at = s.bodies[INSTANCES].len() + preprocess.len();
    let mut polys: Vec<Vec<u64>> = vec![];
    let mut given = instance.iter();
    for length in &s.bodies[INSTANCES] {
        let mut column = vec![0; rows];
        (0..*length as usize).for_each(|t| column[order[t + 1]] = *given.next().unwrap());
        polys.push(column);
    }
    polys.extend(preprocess);
    polys.resize_with(total, || values(rng, wide, rows));
    let scope = Scope { k, polys: total, challenges: user };
    let small_challenges = rng.once_in(2);
    let mut challenges = values(rng, !small_challenges, user + 2);
    // A small γ makes many denominators zero, and such logs are not held to the Rust.
    if !rng.once_in(3) {
        challenges[user + 1] = value(rng, true);
    }

    // Lookups; `free` witness columns from the left are not yet bound to one.
    let mut groups: Vec<Vec<Lookup>> = vec![];
    let mut free = witness_at;
    for _ in 0..most(rng, 2, 8) {
        // Now and then a further member of the last group: its tables, and other inputs.
        if rng.once_in(3) {
            if let Some(group) = groups.last_mut() {
                let preprocess_at = s.bodies[INSTANCES].len();
                let bound = Bound { meets, scope, given: preprocess_at..witness_at };
                group.push(member(rng, &group[group.len() - 1], bound, &mut polys, &mut free));
                continue;
            }
        }
        let width = if rng.once_in(4) { rng.range(1, 8) } else { rng.range(1, 3) };
        let picks: Vec<usize> = (0..rows).map(|_| rng.below(rows)).collect();
        let shift = rotation(rng, k);
        let back = if shift > 0 { -(rng.below(k + 1) as i64) } else { rng.below(k + 1) as i64 };
        let kind = rng.below(if meets { 6 } else { 7 });
        let mut lookup = vec![];
        for _ in 0..width {
            let preprocess_at = s.bodies[INSTANCES].len();
            lookup.push(match kind {
                // Rows of a preprocess table, picked.
                0 | 1 if free < total && witness_at > preprocess_at => {
                    let table = rng.range(preprocess_at, witness_at - 1);
                    polys[free] = picks.iter().map(|r| polys[table][*r]).collect();
                    free += 1;
                    (Tree::Polynomial(free as u64 - 1, 0), Tree::Polynomial(table as u64, 0))
                }
                // Into a rotated copy of itself.
                0..=3 => {
                    let p = rng.below(total) as u64;
                    if kind < 2 {
                        (Tree::Polynomial(p, 0), Tree::Polynomial(p, 0))
                    } else {
                        (Tree::Polynomial(p, shift), Tree::Polynomial(p, shift + back))
                    }
                }
                4 | 5 => {
                    let e = tree(rng, scope, 2);
                    (e.clone(), e)
                }
                _ => (tree(rng, scope, 1), tree(rng, scope, 1)),
            });
        }
        // A picked row next to a copy of itself is no longer picked as one row.
        let mixed = kind < 2 && lookup.iter().any(|p| p.0 == p.1) && lookup.iter().any(|p| p.0 != p.1);
        if mixed {
            lookup.retain(|p| p.0 != p.1);
        }
        groups.push(vec![lookup]);
    }

    // Constraints; the last witness column may be made to equal an expression.
    let mut constraints: Vec<Tree> = vec![];
    if free < total && total > 1 && rng.once_in(2) {
        let e = tree(rng, Scope { polys: total - 1, ..scope }, 2);
        let views: Vec<&[u64]> = polys.iter().map(|p| &p[..]).collect();
        let place = Place { k, order: &order, polys: &views, challenges: &challenges, y: &[] };
        let column = (0..rows).map(|b| e.value(&place, b)).collect();
        polys[total - 1] = column;
        constraints.push(difference(Tree::Polynomial(total as u64 - 1, 0), e));
    }
    for _ in 0..most(rng, 3, 28) {
        let e = tree(rng, scope, if many { 1 } else { 3 });
        constraints.push(match rng.below(if meets { 4 } else { 7 }) {
            0 => difference(e.clone(), e),
            1 => Tree::Scaled(boxed(e), 0),
            2 => Tree::Product(boxed(e), boxed(Tree::Constant(0))),
            // A cell is what it is, on its row.
            3 => {
                let (p, r, i) = (rng.below(total), rotation(rng, k), rng.below(4 * rows) as i64 - 2 * rows as i64);
                let b = order[i.rem_euclid(rows as i64) as usize];
                let cell = Tree::Constant(polys[p][rotate(k, b, r)]);
                let cell = difference(Tree::Polynomial(p as u64, r), cell);
                Tree::Product(boxed(Tree::Lagrange(i)), boxed(cell))
            }
            _ => e,
        });
    }

    // Cycles of cells, with equal values where the log is to meet them.
    let mut cycles: Vec<Vec<(u64, u64)>> = vec![];
    for _ in 0..most(rng, 4, 20) {
        let mut cycle: Vec<(u64, u64)> = vec![];
        for _ in 0..rng.range(1, if many { 12 } else { 5 }) {
            let cell = (rng.below(total) as u64, rng.range(1, rows - 1) as u64);
            let at = |c: &(u64, u64)| polys[c.0 as usize][c.1 as usize];
            let equal = !meets || cycle.first().map_or(true, |first| at(first) == at(&cell));
            if equal && !cycle.contains(&cell) {
                cycle.push(cell);
            }
        }
        cycles.push(cycle);
    }

    constraints.iter().for_each(|tree| s.constraint(tree));
    for group in &groups {
        s.lookup(&group[0]);
        group[1..].iter().for_each(|lookup| s.member(lookup));
    }
    cycles.iter().for_each(|cycle| s.cycle(cycle));
    if s.bodies[CONSTRAINTS].is_empty() && s.bodies[WIDTHS].is_empty() && cycles.is_empty() {
        s.constraint(&Tree::Constant(0));
    }
    if rng.once_in(2) {
        let degree = constraints.iter().map(Tree::degree).max().unwrap_or(0) + rng.below(4) as u64;
        s.degree = if degree <= 32 { degree + 1 } else { 0 };
    }
    if rng.once_in(2) {
        s.shuffle_nodes(rng);
    }
    Log { sections: s, instance, witness: polys[witness_at..].concat(), challenges, meets }
}
