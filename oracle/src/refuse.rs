//! Refused circuits: an accepted log, broken in one way, the number known by
//! construction. `WAYS` has every question from 1 to 15, 17 and 18, with sums that would wrap.
use super::calls::lent_right;
use super::generate::Log;
use super::model::{add, columns, mul, neg, prev, sub, Tree, P};
use super::sections::*;

/// A log on its way to the call. Words past the sections are edited at the end.
pub struct Broken {
    pub log: Log,
    /// Edits of the finished circuit words.
    pub edits: Vec<Edit>,
    /// Taken from the buffers' needed lengths.
    pub short: [usize; 2],
}

pub enum Edit {
    Set(usize, u64),
    Add(usize, u64),
    Length(usize),
    More(u64),
    Less,
}

impl Broken {
    pub fn words(&self) -> Vec<u64> {
        let mut words = self.log.sections.words();
        for edit in &self.edits {
            match edit {
                Edit::Set(at, to) => words.iter_mut().skip(*at).take(1).for_each(|w| *w = *to),
                Edit::Add(at, by) => words.iter_mut().skip(*at).take(1).for_each(|w| *w = w.wrapping_add(*by)),
                Edit::Length(n) => words.truncate(*n),
                Edit::More(word) => words.push(*word),
                Edit::Less => drop(words.pop()),
            }
        }
        words
    }
}

/// Breaks the log, or answers false where the log has nothing to break so.
type Way = fn(&mut Broken, &mut Rng) -> bool;

const TOP: u64 = 1 << 63;
const MAX: u64 = u64::MAX;

fn big(rng: &mut Rng) -> u64 {
    rng.pick(&[P, P + 1, MAX, MAX - 1, TOP + P / 2])
}

/// One of the words, if there is one, is p or more.
fn spoil(words: &mut [u64], rng: &mut Rng) -> bool {
    if words.is_empty() {
        return false;
    }
    let at = rng.below(words.len());
    words[at] = big(rng);
    true
}

/// A random entry of a section, by its first word's index in the body.
fn entry(s: &Sections, section: usize, rng: &mut Rng) -> Option<usize> {
    let count = s.count(section) as usize;
    (count > 0).then(|| rng.below(count) * s.entry(section))
}

fn node_of(s: &Sections, kinds: &[u64], rng: &mut Rng) -> Option<usize> {
    let nodes = &s.bodies[NODES];
    let all: Vec<usize> = (0..nodes.len()).step_by(4).filter(|at| kinds.contains(&nodes[*at])).collect();
    (!all.is_empty()).then(|| rng.pick(&all))
}

fn set(s: &mut Sections, section: usize, at: Option<usize>, word: usize, to: u64) -> bool {
    let Some(at) = at else { return false };
    let changed = s.bodies[section][at + word] != to;
    s.bodies[section][at + word] = to;
    changed
}

/// New nodes after the others, the last a constraint's root; they name each other
/// by NEW + i, the i-th of them.
fn constraint_of(s: &mut Sections, nodes: &[[u64; 4]]) -> bool {
    let at = s.count(NODES);
    for [kind, first, second, value] in nodes {
        let place = |n: u64| if n >= NEW { n.wrapping_sub(NEW).wrapping_add(at) } else { n };
        s.bodies[NODES].extend([*kind, place(*first), place(*second), *value]);
    }
    s.bodies[CONSTRAINTS].push(at + nodes.len() as u64 - 1);
    s.count(NODES) <= 1024 && s.count(CONSTRAINTS) <= 32
}
const NEW: u64 = 1 << 40;

fn polynomial(p: u64, word: u64) -> [u64; 4] {
    [5, p, 0, word]
}
const ZERO: u64 = 1 << 31;

/// A tree of degree d ≥ 1, 0 on every row: nested lists, each four times its base.
pub fn of_degree(d: u64) -> Tree {
    Tree::Scaled(Box::new(power(d)), 0)
}
fn power(d: u64) -> Tree {
    if d == 1 {
        return Tree::Identity;
    }
    if d % 4 == 0 {
        return Tree::List(vec![Tree::Constant(1); 5], Box::new(power(d / 4)));
    }
    Tree::Product(Box::new(power(d - 1)), Box::new(Tree::Identity))
}

fn room(s: &Sections) -> bool {
    s.count(NODES) <= 1024 && s.count(CONSTRAINTS) <= 32 && s.count(WIDTHS) <= 8
}

/// Is the log built as it stands? Then a zero denominator is one that a way brings.
fn is_built(log: &Log) -> bool {
    let words = log.sections.words();
    let lent = [&words[..], &log.instance, &log.witness, &log.challenges];
    lent_right(&lent).and_then(|c| columns(&c, lent[1], lent[2], lent[3])).is_ok()
}

/// −γ at one place of the row order, on every other row 1 − γ.
fn zero_at(place: i64, gamma: u64) -> Tree {
    let less = Tree::Negated(Tree::Lagrange(place).into());
    Tree::Sum(Tree::Constant(sub(1, gamma)).into(), less.into())
}
fn nowhere_zero(gamma: u64) -> Tree {
    Tree::Constant(sub(1, gamma))
}
/// γ + table is zero at this place. The input is never −γ, so the count there is 0.
fn table_at(place: i64, gamma: u64) -> (Tree, Tree) {
    (nowhere_zero(gamma), zero_at(place, gamma))
}
/// An input that is in no table row.
const UNLISTED: (Tree, Tree) = (Tree::Constant(1), Tree::Constant(2));

/// Lookups of one pair each, before all others and after them.
fn lookups(b: &mut Broken, before: Option<(Tree, Tree)>, after: Option<(Tree, Tree)>) -> bool {
    let s = &mut b.log.sections;
    after.iter().for_each(|pair| s.lookup(&[pair.clone()]));
    before.iter().for_each(|pair| s.lookup_before(&[pair.clone()]));
    room(s)
}

/// A group after the others, of a lookup for each list of pairs.
fn group(s: &mut Sections, lookups: &[&[(Tree, Tree)]]) -> bool {
    s.lookup(lookups[0]);
    lookups[1..].iter().for_each(|lookup| s.member(lookup));
    room(s)
}
/// A group of two lookups of one pair each, with these tables.
fn tables(s: &mut Sections, first: Tree, second: Tree) -> bool {
    group(s, &[&[(first.clone(), first)], &[(second.clone(), second)]])
}
fn constant(c: u64) -> Tree {
    Tree::Constant(c)
}
fn list_of(constants: &[u64]) -> Tree {
    Tree::List(constants.iter().map(|c| constant(*c)).collect(), constant(3).into())
}
/// A pair of constants.
const fn constants(input: u64, table: u64) -> (Tree, Tree) {
    (Tree::Constant(input), Tree::Constant(table))
}

/// A further witness column, the last, with a cycle over these rows of it. Its permutation factor is zero on one row,
/// whose label is its own or, in the cycle, that of the cell before.
fn zero_factor(b: &mut Broken, cycle: &[u64], row: u64, rng: &mut Rng) -> bool {
    let Log { sections: s, witness, challenges, .. } = &mut b.log;
    let [.., beta, gamma] = challenges[..] else { return false };
    let Some(last) = s.bodies[ROUNDS].len().checked_sub(2) else { return false };
    s.bodies[ROUNDS][last] += 1;
    let p = s.polys() - 1;
    let mut copied: Vec<u64> = s.bodies[CELLS].iter().step_by(2).copied().collect();
    copied.sort();
    copied.dedup();
    s.cycle(&cycle.iter().map(|row| (p, *row)).collect::<Vec<_>>());
    let before = cycle.iter().position(|r| *r == row).map(|i| cycle[(i + cycle.len() - 1) % cycle.len()]);
    let label = ((copied.len() as u64) << s.k) + before.unwrap_or(row);
    let mut column: Vec<u64> = (0..1 << s.k).map(|_| rng.word() % P).collect();
    column[row as usize] = neg(add(gamma, mul(beta, label)));
    witness.extend(column);
    s.bodies[ROUNDS].iter().step_by(2).sum::<u64>() <= 32
}
/// The row at the last place of the order, from which `next` leads to 1.
fn last_row(k: u64) -> u64 {
    prev(k as usize, 1) as u64
}

/// A constraint of these nodes takes the log to the number given beside the way.
macro_rules! node { ($($node:expr),+) => { |b, _| constraint_of(&mut b.log.sections, &[$($node),+]) } }
macro_rules! tree { ($tree:expr) => { |b, _| { b.log.sections.constraint(&$tree); room(&b.log.sections) } } }
macro_rules! rounds { ($($word:expr),+) => { |b, _| { b.log.sections.bodies[ROUNDS] = vec![$($word),+]; true } } }
macro_rules! edit { ($edit:expr) => { |b, _| { b.edits.push($edit); true } } }
/// Of a log that is built: γ by its name, and what then makes a denominator zero.
macro_rules! zero { (|$b:ident, $gamma:ident, $rng:ident| $body:expr) => { |$b, $rng| {
    let Some($gamma) = $b.log.challenges.last().copied() else { return false };
    is_built(&$b.log) && $body
} } }
macro_rules! sections { (|$s:ident, $rng:ident| $body:expr) => { |b, $rng| { let $s = &mut b.log.sections; $body } } }

const CONSTANT: [u64; 4] = [1, 0, 0, 0];
const LAST: [u64; 4] = [12, NEW, 0, 0];

pub const WAYS: &[(u64, Way)] = &[
    (1, |b, rng| { b.edits.push(Edit::Length(rng.below(22))); true }),
    (1, edit!(Edit::Length(21))),
    (1, edit!(Edit::Length(20))),
    (1, edit!(Edit::Length(0))),
    (2, edit!(Edit::Set(0, 0))),
    (2, edit!(Edit::Set(0, 11))),
    (2, edit!(Edit::Set(0, 64))),
    (2, edit!(Edit::Set(0, MAX))),
    (2, edit!(Edit::Set(0, (1 << 32) + 3))),
    // 3, contents
    (3, edit!(Edit::Set(1, 34))),
    (3, edit!(Edit::Set(1, MAX))),
    (3, |b, rng| {
        let (s, limit) = rng.pick(&[(0, 8), (1, 32), (2, 4), (3, 1024), (4, 32), (5, 8), (7, 1024), (8, 4096)]);
        b.edits.push(Edit::Set(3 + 2 * s, rng.pick(&[limit + 1, TOP, MAX, MAX - 7, 1 << 62])));
        true
    }),
    (3, edit!(Edit::Set(7, 0))),
    // 3, bodies
    (3, rounds![33, 0]),
    (3, rounds![32, 1, 1, 0]),
    (3, rounds![TOP, 1, TOP, 1]),
    (3, rounds![MAX, 1, 2, 1]),
    (3, rounds![1, 17]),
    (3, rounds![1, 1, 1, 16]),
    (3, rounds![1, TOP, 1, TOP]),
    (3, rounds![1, MAX, 1, 2]),
    (3, sections!(|s, rng| { let to = rng.pick(&[9, TOP, MAX]); let at = entry(s, WIDTHS, rng); set(s, WIDTHS, at, 0, to) })),
    (3, sections!(|s, _rng| { s.bodies[LENGTHS] = vec![4097]; true })),
    (3, sections!(|s, _rng| { s.bodies[LENGTHS] = vec![4096, 1]; true })),
    (3, sections!(|s, _rng| { s.bodies[LENGTHS] = vec![TOP, TOP]; true })),
    (3, sections!(|s, _rng| { s.bodies[LENGTHS] = vec![MAX, 1 + s.count(CELLS)]; true })),
    (3, sections!(|s, rng| { let at = entry(s, LENGTHS, rng); set(s, LENGTHS, at, 0, MAX) })),
    // 4, contents
    (4, |b, rng| { b.edits.push(Edit::Add(2 + 2 * rng.below(10), rng.pick(&[1, MAX, TOP, MAX - 21]))); true }),
    (4, |b, rng| { b.edits.push(Edit::More(rng.pick(&[0, 1, MAX]))); true }),
    (4, |b, _| { b.edits.push(Edit::Less); b.log.sections.words().len() > 22 }),
    (4, edit!(Edit::Add(15, TOP))),
    (4, edit!(Edit::Set(15, MAX))),
    (4, edit!(Edit::Add(15, 1))),
    // The tenth count: one more and one less than the lookups, with a body as long as before or as the count says.
    (4, edit!(Edit::Add(21, 1))),
    (4, edit!(Edit::Add(21, MAX))),
    (4, edit!(Edit::Set(21, MAX))),
    (4, edit!(Edit::Add(21, TOP))),
    (4, sections!(|s, _rng| { let next = s.count(GROUPS); s.bodies[GROUPS].push(next); true })),
    (4, sections!(|s, _rng| s.bodies[GROUPS].pop().is_some())),
    // 4, bodies
    (4, sections!(|s, _rng| { s.bodies[PAIRS].extend([0, 0]); true })),
    (4, sections!(|s, _rng| s.bodies[PAIRS].pop().and(s.bodies[PAIRS].pop()).is_some())),
    (4, sections!(|s, _rng| { s.bodies[CELLS].extend([0, 1]); s.count(CELLS) <= 4096 })),
    (4, sections!(|s, _rng| s.bodies[CELLS].pop().and(s.bodies[CELLS].pop()).is_some())),
    (4, sections!(|s, _rng| { s.bodies[WIDTHS].push(1); s.count(WIDTHS) <= 8 })),
    (4, sections!(|s, _rng| { s.lookup(&[]); s.bodies[WIDTHS].pop(); s.bodies[WIDTHS].push(1); s.count(WIDTHS) <= 8 })),
    (4, sections!(|s, _rng| { s.bodies[LENGTHS].push(1); true })),
    // 5
    (5, sections!(|s, rng| { let at = entry(s, ROUNDS, rng); set(s, ROUNDS, at, 0, 0) })),
    (5, sections!(|s, _rng| s.count(ROUNDS) > 1 && set(s, ROUNDS, Some(0), 1, 0))),
    (5, sections!(|s, rng| {
        let (to, at) = (rng.pick(&[1 << s.k, MAX, TOP]), entry(s, INSTANCES, rng));
        set(s, INSTANCES, at, 0, to)
    })),
    // 6
    (6, sections!(|s, rng| {
        let word = rng.below(1 << s.k);
        let (to, at) = (big(rng), entry(s, PREPROCESS, rng));
        set(s, PREPROCESS, at, word, to)
    })),
    (6, sections!(|s, rng| { let (to, at) = (big(rng), node_of(s, &[1], rng)); set(s, NODES, at, 3, to) })),
    (6, sections!(|s, rng| { let (to, at) = (big(rng), node_of(s, &[10], rng)); set(s, NODES, at, 3, to) })),
    (6, node!([1, 7, 7, P])),
    (6, node!([10, MAX, 3, MAX])),
    // 7
    (7, |b, rng| {
        let kind = rng.pick(&[0, 13, MAX, (1 << 32) + 1]);
        constraint_of(&mut b.log.sections, &[[kind, 0, 0, 0]])
    }),
    (7, node!([1, 1, 0, 0])),
    (7, node!([1, 0, 1, 0])),
    (7, node!([2, 0, 0, 1])),
    (7, node!([2, 0, 1, 0])),
    (7, node!([2, 1, 0, 0])),
    (7, node!([3, 0, 0, 1 << 32])),
    (7, node!([3, 0, 0, MAX])),
    (7, node!([3, 1, 0, ZERO])),
    (7, node!([3, 0, 1, ZERO])),
    (7, node!([4, 1, 0, 0])),
    (7, node!([4, 0, 1, 0])),
    (7, node!([5, 0, 1, ZERO])),
    (7, node!(polynomial(0, 1 << 32))),
    (7, node!(polynomial(0, ZERO + (1 << 32)))),
    (7, node!([6, 0, 1, 0])),
    (7, node!([6, 0, 0, 1])),
    (7, node!(CONSTANT, [7, NEW, 1, 0])),
    (7, node!(CONSTANT, [7, NEW, 0, 1])),
    (7, node!([7, NEW, 0, 0])),
    (7, node!([7, MAX, 0, 0])),
    (7, node!(CONSTANT, [7, NEW + (1 << 62), 0, 0])),
    (7, node!(CONSTANT, CONSTANT, [8, NEW, NEW + 1, 1])),
    (7, node!(CONSTANT, CONSTANT, [9, NEW, NEW + 1, 1])),
    (7, node!(CONSTANT, [8, NEW, NEW, 0])),
    (7, node!(CONSTANT, [9, NEW, NEW + 1, 0])),
    (7, node!(CONSTANT, [9, NEW + 1, NEW, 0])),
    (7, node!(CONSTANT, [8, NEW, NEW + (1 << 62), 0])),
    (7, node!(CONSTANT, [10, NEW, 1, 0])),
    (7, node!(CONSTANT, LAST, [8, NEW, NEW + 1, 0])),
    (7, node!(CONSTANT, LAST, [7, NEW + 1, 0, 0])),
    (7, node!(CONSTANT, LAST)),
    // Lists: of one; a base that is an Item; Items of a wrong make.
    (7, node!(CONSTANT, CONSTANT, LAST, [11, NEW + 1, NEW + 2, 0])),
    (7, node!(CONSTANT, CONSTANT, [11, NEW + 1, NEW, 0])),
    (7, node!(CONSTANT, CONSTANT, CONSTANT, LAST, [12, NEW + 1, NEW + 3, 1], [11, NEW + 2, NEW + 4, 1])),
    (7, node!(CONSTANT, CONSTANT, CONSTANT, LAST, [12, NEW + 1, NEW + 3, 2], [11, NEW + 2, NEW + 4, 0])),
    (7, node!(CONSTANT, CONSTANT, CONSTANT, LAST, [12, NEW + 1, 0, 1], [11, NEW + 2, NEW + 4, 0])),
    (7, node!(CONSTANT, CONSTANT, CONSTANT, [12, NEW, 1, 0], [12, NEW + 1, NEW + 3, 1], [11, NEW + 2, NEW + 4, 0])),
    (7, node!(CONSTANT, CONSTANT, LAST, [12, NEW + 1, NEW + 2, 1], [11, NEW + 3, NEW + 3, 0])),
    (7, node!(CONSTANT, CONSTANT, CONSTANT, LAST, [12, NEW + 3, NEW + 3, 1], [11, NEW + 2, NEW + 4, 0])),
    (7, node!(CONSTANT, CONSTANT, CONSTANT, LAST, [12, NEW + 1, NEW + 3 + (1 << 62), 1], [11, NEW + 2, NEW + 4, 0])),
    // Nodes named by none or twice; roots that are none.
    (7, sections!(|s, _rng| { s.bodies[NODES].extend(CONSTANT); room(s) })),
    (7, sections!(|s, rng| {
        let root = entry(s, CONSTRAINTS, rng).map(|at| s.bodies[CONSTRAINTS][at]);
        s.bodies[CONSTRAINTS].extend(root);
        root.is_some() && room(s)
    })),
    (7, sections!(|s, rng| {
        let to = rng.pick(&[s.count(NODES), MAX, 1 << 62]);
        let at = entry(s, CONSTRAINTS, rng);
        set(s, CONSTRAINTS, at, 0, to)
    })),
    (7, sections!(|s, rng| {
        let (to, word) = (rng.pick(&[s.count(NODES), MAX, 1 << 62]), rng.below(2));
        let at = entry(s, PAIRS, rng);
        set(s, PAIRS, at, word, to)
    })),
    (7, sections!(|s, rng| {
        let at = entry(s, PAIRS, rng);
        let root = at.map_or(0, |at| s.bodies[PAIRS][at]);
        set(s, PAIRS, at, 1, root)
    })),
    // 8
    (8, |b, _| { let p = b.log.sections.polys(); constraint_of(&mut b.log.sections, &[polynomial(p, ZERO)]) }),
    (8, |b, rng| { let p = rng.pick(&[MAX, TOP, 1 << 32]); constraint_of(&mut b.log.sections, &[polynomial(p, ZERO)]) }),
    (8, |b, _| { let c = b.log.sections.challenges(); constraint_of(&mut b.log.sections, &[[6, c, 0, 0]]) }),
    (8, |b, rng| { let c = rng.pick(&[MAX, TOP]); constraint_of(&mut b.log.sections, &[[6, c, 0, 0]]) }),
    (8, |b, rng| {
        let k = b.log.sections.k;
        let word = rng.pick(&[ZERO + k + 1, ZERO - k - 1, 0, (1 << 32) - 1]);
        constraint_of(&mut b.log.sections, &[polynomial(0, word)])
    }),
    (8, node!([4, 0, 0, 0])),
    (8, node!([4, 0, 0, MAX])),
    (8, sections!(|s, _rng| { s.lookup(&[(Tree::EqXY(0), Tree::EqXY(0))]); room(s) })),
    // 9
    (9, sections!(|s, _rng| { s.lookup(&[]); room(s) })),
    (9, sections!(|s, _rng| { s.lookup_before(&[]); room(s) })),
    (9, sections!(|s, _rng| { (3..10).for_each(|i| s.bodies[i].clear()); true })),
    // 9 beside 18: a number that breaks the rule, tables of unlike width.
    (9, sections!(|s, _rng| { s.lookup_in(MAX, &[]); room(s) })),
    (9, sections!(|s, _rng| group(s, &[&[constants(1, 1)], &[]]))),
    // 18, numbers: the first not 0, one left out, one that comes back, one that is the same in 32 bits, one that wraps.
    (18, sections!(|s, rng| {
        let by = rng.pick(&[1, 2, MAX, 1 << 32]);
        s.bodies[GROUPS].iter_mut().for_each(|group| *group = group.wrapping_add(by));
        s.count(GROUPS) > 0
    })),
    (18, sections!(|s, rng| {
        let after = s.bodies[GROUPS].last().map_or(MAX, |last| *last);
        s.lookup_in(after.wrapping_add(rng.pick(&[2, 3, 1 << 32, TOP])), &[constants(1, 1)]);
        room(s)
    })),
    (18, sections!(|s, _rng| {
        s.lookup(&[constants(1, 1)]);
        s.lookup(&[constants(2, 2)]);
        let back = s.bodies[GROUPS].last().map_or(0, |last| last - 1);
        s.lookup_in(back, &[constants(1, 1)]);
        room(s)
    })),
    (18, sections!(|s, _rng| {
        s.lookup(&[constants(1, 1)]);
        s.lookup_in(MAX, &[constants(1, 1)]);
        room(s)
    })),
    // 18, widths: 1 and 2, 2 and 1, the tables that both have alike.
    (18, sections!(|s, _rng| group(s, &[&[constants(1, 1)], &[constants(1, 1), constants(2, 2)]]))),
    (18, sections!(|s, _rng| group(s, &[&[constants(1, 1), constants(2, 2)], &[constants(1, 1)]]))),
    // 18, trees of the same value on every row.
    (18, sections!(|s, _rng| tables(s, constant(0), Tree::Scaled(constant(0).into(), 0)))),
    (18, sections!(|s, _rng| tables(s, Tree::Scaled(constant(0).into(), 0), constant(0)))),
    (18, sections!(|s, _rng| { let rows = 1 << s.k; tables(s, Tree::Lagrange(1), Tree::Lagrange(1 + rows)) })),
    (18, sections!(|s, _rng| {
        let sum = |a: u64, b: u64| Tree::Sum(constant(a).into(), constant(b).into());
        tables(s, sum(1, 2), sum(2, 1))
    })),
    (18, sections!(|s, _rng| {
        let twice = Tree::Negated(Tree::Negated(Tree::Identity.into()).into());
        tables(s, Tree::Identity, twice)
    })),
    (18, sections!(|s, _rng| tables(s, list_of(&[1, 2]), list_of(&[1, 2, 0])))),
    // Trees that differ in a word: a constant, a scalar, a rotation, a polynomial, an expression of a list, its base.
    (18, sections!(|s, _rng| tables(s, constant(1), constant(2)))),
    (18, sections!(|s, _rng| tables(s, Tree::Scaled(Tree::Identity.into(), 3), Tree::Scaled(Tree::Identity.into(), 4)))),
    (18, sections!(|s, _rng| tables(s, Tree::Polynomial(0, 0), Tree::Polynomial(0, 1)))),
    (18, sections!(|s, _rng| { let last = s.polys() - 1; tables(s, Tree::Polynomial(0, 0), Tree::Polynomial(last, 0)) && last > 0 })),
    (18, sections!(|s, _rng| tables(s, list_of(&[1, 2, 3]), list_of(&[1, 2, 4])))),
    (18, sections!(|s, _rng| {
        let by = |base: u64| Tree::List(vec![constant(1), constant(2)], constant(base).into());
        tables(s, by(1), by(2))
    })),
    // The second pair's table, and the third member's.
    (18, sections!(|s, _rng| group(s, &[&[constants(1, 1), constants(2, 2)], &[constants(1, 1), constants(2, 3)]]))),
    (18, sections!(|s, _rng| group(s, &[&[constants(1, 1)], &[constants(1, 1)], &[constants(1, 2)]]))),
    // 18 beside 10, 11 and 15.
    (18, sections!(|s, _rng| { s.degree = 0; s.constraint(&of_degree(1025)); tables(s, constant(1), constant(2)) })),
    (18, sections!(|s, _rng| { s.cycle(&[(0, 0)]); tables(s, constant(1), constant(2)) })),
    (18, sections!(|s, _rng| group(s, &[&[constants(1, 1)], &[constants(9, 2)]]))),
    // 10
    (10, sections!(|s, rng| { s.degree = rng.range(1, 5) as u64; let d = s.degree; s.constraint(&of_degree(d)); room(s) })),
    (10, sections!(|s, _rng| { s.degree = 0; s.constraint(&of_degree(1025)); room(s) })),
    (10, sections!(|s, _rng| { s.degree = 0; s.lookup(&[(of_degree(1024), Tree::Constant(0))]); room(s) })),
    (10, sections!(|s, _rng| {
        s.degree = 0;
        s.lookup(&[(Tree::Constant(0), of_degree(16)), (of_degree(1008), Tree::Constant(0))]);
        room(s)
    })),
    (10, sections!(|s, _rng| { s.degree = 33; s.constraint(&of_degree(33)); room(s) })),
    // Degrees that only a group's members have together.
    (10, sections!(|s, _rng| {
        s.degree = 0;
        group(s, &[&[(of_degree(512), constant(0))], &[(of_degree(512), constant(0))]])
    })),
    (10, sections!(|s, _rng| group(s, &[&[(of_degree(TOP), constant(0))], &[(of_degree(TOP), constant(0))]]))),
    // 2^64 and 2^66: as u64 both are 0.
    (10, tree!(Tree::Product(of_degree(TOP).into(), of_degree(TOP).into()))),
    (10, tree!(Tree::List(vec![Tree::Constant(0); 9], of_degree(TOP).into()))),
    // 11
    (11, sections!(|s, _rng| { s.bodies[LENGTHS].push(0); true })),
    (11, sections!(|s, rng| { let p = rng.pick(&[s.polys(), MAX, 1 << 60]); s.cycle(&[(p, 1)]); true })),
    (11, sections!(|s, rng| { let row = rng.pick(&[0, 1 << s.k, MAX, TOP + 1]); s.cycle(&[(0, row)]); true })),
    (11, sections!(|s, _rng| { s.cycle(&[(0, 1), (0, 1)]); true })),
    (11, sections!(|s, _rng| { s.cycle(&[(0, 1), (0, 2), (0, 1)]); s.k > 1 })),
    // 12
    (12, |b, rng| { b.log.instance.push(rng.word()); true }),
    (12, |b, _| b.log.instance.pop().is_some()),
    (12, |b, rng| { b.log.witness.push(rng.word()); true }),
    (12, |b, _| b.log.witness.pop().is_some()),
    (12, |b, rng| { b.log.challenges.push(rng.word()); true }),
    (12, |b, _| b.log.challenges.pop().is_some()),
    (12, |b, _| { b.log.witness.clear(); true }),
    // 13
    (13, |b, rng| {
        let at = rng.below(b.log.instance.len().max(1));
        b.log.instance.get_mut(at).map(|w| *w = big(rng)).is_some()
    }),
    (13, |b, rng| spoil(&mut b.log.witness, rng)),
    (13, |b, rng| spoil(&mut b.log.challenges, rng)),
    // 14
    (14, |b, _| { b.short[0] = 1; true }),
    (14, |b, rng| { b.short[1] = rng.range(1, 4); true }),
    (14, |b, _| { b.short = [usize::MAX; 2]; true }),
    // 15
    (15, sections!(|s, _rng| { s.lookup(&[(Tree::Constant(1), Tree::Constant(2))]); room(s) })),
    (15, sections!(|s, _rng| { s.lookup(&[(Tree::Identity, Tree::Lagrange(1))]); room(s) && s.k > 1 })),
    (15, sections!(|s, _rng| { s.lookup_before(&[(Tree::Identity, constant(5))]); room(s) })),
    // An input of the first, of the second and of the last member of a group.
    (15, sections!(|s, _rng| group(s, &[&[constants(1, 2)], &[constants(2, 2)]]))),
    (15, sections!(|s, _rng| group(s, &[&[constants(2, 2)], &[constants(1, 2)]]))),
    (15, sections!(|s, _rng| group(s, &[&[constants(2, 2)], &[constants(2, 2)], &[constants(1, 2)]]))),
    // 15 beside a zero denominator: of an earlier lookup, of a later one, of the same, of a factor.
    (15, zero!(|b, gamma, _rng| lookups(b, Some(table_at(0, gamma)), Some(UNLISTED)))),
    (15, zero!(|b, gamma, _rng| lookups(b, Some(UNLISTED), Some(table_at(-1, gamma))))),
    (15, zero!(|b, gamma, _rng| lookups(b, None, Some((zero_at(0, gamma), nowhere_zero(gamma)))))),
    (15, zero!(|b, _gamma, rng| zero_factor(b, &[1], 1, rng) && lookups(b, None, Some(UNLISTED)))),
    // 17: γ + table on row 0, the first in the order, and at the last place, where the count is 0.
    (17, zero!(|b, gamma, _rng| lookups(b, None, Some(table_at(0, gamma))))),
    (17, zero!(|b, gamma, _rng| lookups(b, None, Some(table_at(-1, gamma))))),
    // γ + input at either end, γ + table at the other; both on every row; of a lookup of width 2.
    (17, zero!(|b, gamma, _rng| lookups(b, None, Some((zero_at(0, gamma), zero_at(-1, gamma)))))),
    (17, zero!(|b, gamma, _rng| lookups(b, None, Some((zero_at(-1, gamma), zero_at(0, gamma)))))),
    (17, zero!(|b, gamma, _rng| lookups(b, None, Some((Tree::Constant(neg(gamma)), Tree::Constant(neg(gamma))))))),
    (17, zero!(|b, gamma, _rng| {
        let beta = b.log.challenges[b.log.challenges.len() - 2];
        let first = Tree::Constant(neg(add(gamma, mul(beta, 3))));
        b.log.sections.lookup(&[(first.clone(), first), (Tree::Constant(3), Tree::Constant(3))]);
        room(&b.log.sections)
    })),
    // In the earlier and in the later of two lookups or more.
    (17, zero!(|b, gamma, _rng| lookups(b, Some(table_at(1, gamma)), Some((nowhere_zero(gamma), nowhere_zero(gamma)))))),
    (17, zero!(|b, gamma, _rng| lookups(b, Some((nowhere_zero(gamma), nowhere_zero(gamma))), Some(table_at(1, gamma))))),
    // In a group of two: of the second member's input, and so of the table, which lists it; of the table, where m is 0.
    (17, zero!(|b, gamma, _rng| {
        let listed = zero_at(1, gamma);
        let (first, second) = ((nowhere_zero(gamma), listed.clone()), (listed.clone(), listed));
        group(&mut b.log.sections, &[&[first], &[second]])
    })),
    (17, zero!(|b, gamma, _rng| group(&mut b.log.sections, &[&[table_at(0, gamma)], &[table_at(0, gamma)]]))),
    // A factor: at place 1, at the last place, on a row that stands in no cycle, on one whose label moved.
    (17, zero!(|b, _gamma, rng| zero_factor(b, &[1], 1, rng))),
    (17, zero!(|b, _gamma, rng| { let row = last_row(b.log.sections.k); zero_factor(b, &[row], row, rng) })),
    (17, zero!(|b, _gamma, rng| b.log.sections.k > 1 && zero_factor(b, &[1], 3, rng))),
    (17, zero!(|b, _gamma, rng| b.log.sections.k > 1 && zero_factor(b, &[3, 1], 1, rng))),
    // A lookup and a factor.
    (17, zero!(|b, gamma, rng| zero_factor(b, &[1], 1, rng) && lookups(b, None, Some(table_at(0, gamma))))),
];
