//! Expressions alone: value on every row, degree and queries, by the Rust's
//! `evaluate`, `degree`, `used_query`, beside the library's entry points
//! (crate oracle_entry). Half of the cases are trees as document 01 lays them,
//! half are any node words, which the definition reads as a tree too. `stub` puts the
//! Rust in the library's place, whole or with one fault, to try the comparison itself.
use super::generate::{tree, value, Scope};
use super::given::{f, rows, words, Expr, Poly};
use super::library::{catch_faults, Library, Room, RUNNING};
use super::model::{order, Place, Tree, P, SIGN};
use super::sections::Rng;
use crate::util::{
    arithmetic::{Field, Goldilocks as F},
    expression::{Query, Rotation},
};
use std::{process::exit, ptr, sync::atomic::Ordering};

/// The largest degree that is told.
const MOST: usize = 1025;

/// Node n of any words: a child that is not lower, a node that is not there and
/// a kind that is none read as Constant 0.
fn read(nodes: &[u64], n: u64) -> Tree {
    let word = |j: u64| nodes.get((4 * n + j) as usize).copied().unwrap_or(0);
    let (first, second, value) = (word(1), word(2), word(3));
    let child = |c: u64| Box::new(if c < n { read(nodes, c) } else { Tree::Constant(0) });
    let signed = |w: u64| (w as i64).wrapping_sub(SIGN);
    match word(0) {
        1 => Tree::Constant(value),
        2 => Tree::Identity,
        3 => Tree::Lagrange(signed(value)),
        4 => Tree::EqXY(value),
        5 => Tree::Polynomial(first, signed(value)),
        6 => Tree::Challenge(first),
        7 => Tree::Negated(child(first)),
        8 => Tree::Sum(child(first), child(second)),
        9 => Tree::Product(child(first), child(second)),
        10 => Tree::Scaled(child(first), value),
        11 => {
            let (mut list, mut above, mut item) = (vec![], n, second);
            loop {
                if item >= above {
                    list.push(Tree::Constant(0));
                    break;
                }
                let word = |j: u64| nodes.get((4 * item + j) as usize).copied().unwrap_or(0);
                let first = word(1);
                list.push(if first < item { read(nodes, first) } else { Tree::Constant(0) });
                if word(3) == 0 {
                    break;
                }
                (above, item) = (item, word(2));
            }
            Tree::List(list, child(first))
        }
        _ => Tree::Constant(0),
    }
}

/// The tree as the Rust has it. A rotation that is far becomes one that leads to
/// the same rows, beyond k still, since the Rust walks it.
fn given(t: &Tree, k: usize) -> Expr {
    let child = |t: &Tree| Box::new(given(t, k));
    match t {
        Tree::Constant(c) => Expr::Constant(F::from(*c)),
        Tree::Identity => Expr::identity(),
        Tree::Lagrange(i) => Expr::lagrange(i32::try_from(*i).unwrap_or(i.rem_euclid(1 << 31) as i32)),
        Tree::EqXY(i) => Expr::eq_xy(*i as usize),
        Tree::Polynomial(p, r) => Query::new(*p as usize, Rotation(near(*r, k) as i32)).into(),
        Tree::Challenge(c) => Expr::Challenge(*c as usize),
        Tree::Negated(a) => Expr::Negated(child(a)),
        Tree::Sum(a, b) => Expr::Sum(child(a), child(b)),
        Tree::Product(a, b) => Expr::Product(child(a), child(b)),
        Tree::Scaled(a, s) => Expr::Scaled(child(a), F::from(*s)),
        Tree::List(list, base) => Expr::DistributePowers(list.iter().map(|t| given(t, k)).collect(), child(base)),
    }
}

fn near(r: i64, k: usize) -> i64 {
    let period = (1 << k) - 1;
    let far = (k as i64 + 1) * period;
    if r.abs() <= far {
        r
    } else {
        r % period + r.signum() * far
    }
}

/// The Rust's value on every row; what there is none of is 0.
fn values(k: usize, expression: &Expr, polys: &[Vec<u64>], challenges: &[u64], eq: &[u64]) -> Vec<u64> {
    let poly = |p: usize, b: usize| polys.get(p).map_or(F::ZERO, |p| F::from(p[b]));
    let challenge = |i: usize| challenges.get(i).map_or(F::ZERO, |c| F::from(*c));
    words(&rows(k, expression, &poly, &challenge, &f(eq)))
}

/// The queries that are told, two words each in rising order.
fn queries(expression: &Expr, polys: usize, k: usize) -> Vec<u64> {
    let used = expression.used_query().into_iter().map(|q| (q.poly(), q.rotation().0));
    let mut told: Vec<_> = used.filter(|q| q.0 < polys && q.1.unsigned_abs() as usize <= k).collect();
    told.sort();
    told.iter().flat_map(|q| [q.0 as u64, (q.1 as i64 + SIGN) as u64]).collect()
}

/// Lent words, and where the polynomials stand in them.
pub struct Lent {
    pub k: usize,
    pub nodes: Vec<u64>,
    pub root: u64,
    pub circuit: Vec<u64>,
    pub witness: Vec<u64>,
    pub columns: Vec<u64>,
    pub challenges: Vec<u64>,
    /// Instances, preprocess, start, witnesses, permutations, skipped, rest.
    pub layout: Vec<u64>,
    pub eq: Vec<u64>,
}

struct Case {
    lent: Lent,
    polys: Vec<Vec<u64>>,
    tree: Tree,
    whole: bool,
}

fn any_nodes(rng: &mut Rng, k: usize, polys: usize, challenges: usize) -> Vec<u64> {
    let mut nodes = vec![];
    let n = rng.range(1, 16) as u64;
    for at in 0..n {
        let mut child = |rng: &mut Rng| match rng.below(12) {
            0 => at + rng.below(3) as u64,
            1 => rng.word(),
            _ => rng.below(at.max(1) as usize) as u64,
        };
        let rotation = |rng: &mut Rng| match rng.below(6) {
            0 => rng.word() >> 24,
            1 => rng.word() % (1 << 32),
            _ => (SIGN - k as i64) as u64 + rng.below(2 * k + 1) as u64,
        };
        let kind = if rng.once_in(20) { rng.word() } else { rng.below(14) as u64 };
        let node = match kind {
            1 | 4 => [kind, rng.word(), rng.word(), value(rng, true)],
            3 => [kind, rng.word(), rng.word(), rng.word() >> rng.below(64)],
            5 => [kind, rng.below(polys + 2) as u64, rng.word(), rotation(rng)],
            6 => [kind, rng.below(challenges + 2) as u64, rng.word(), rng.word()],
            10 => [kind, child(rng), rng.word(), value(rng, true)],
            _ => [kind, child(rng), child(rng), rng.below(3) as u64],
        };
        nodes.extend(node);
    }
    nodes
}

fn case(seed: u64, i: u64) -> Case {
    let mut rng = Rng::new(seed.wrapping_mul(1 << 32).wrapping_add(i));
    let rng = &mut rng;
    let k = if rng.once_in(20) { rng.range(6, 10) } else { rng.range(1, 5) };
    let (n, wide) = (1usize << k, rng.once_in(2));
    let columns_of = |rng: &mut Rng, most: usize| -> Vec<Vec<u64>> {
        (0..rng.below(most)).map(|_| (0..n).map(|_| value(rng, wide)).collect()).collect()
    };
    let [instance, preprocess, mut witness, permutation, skipped, rest] =
        [3, 3, 4, 3, 3, 3].map(|most| columns_of(rng, most));
    if rng.once_in(8) {
        witness.resize_with(30, || (0..n).map(|_| value(rng, wide)).collect());
    }
    let before: Vec<u64> = (0..rng.below(40)).map(|_| rng.word()).collect();
    let layout =
        [instance.len(), preprocess.len(), before.len(), witness.len(), permutation.len(), skipped.len(), rest.len()];
    let polys = [&instance[..], &preprocess, &witness, &permutation, &rest].concat();
    let challenges: Vec<u64> = (0..rng.below(4)).map(|_| value(rng, true)).collect();
    let y: Vec<u64> = (0..k).map(|_| value(rng, true)).collect();
    let whole = rng.once_in(2) && !polys.is_empty();
    let (nodes, root) = if whole {
        let scope = Scope { k, polys: polys.len(), challenges: challenges.len() };
        let mut nodes = vec![];
        if rng.once_in(4) {
            tree(rng, scope, 1).write(&mut nodes);
        }
        let (depth, mut t) = (rng.below(6), Tree::Constant(0));
        for size in 0..4 {
            t = tree(rng, scope, depth);
            if size == 3 || t.write(&mut vec![]) >= 3 * depth as u64 {
                break;
            }
        }
        if rng.once_in(4) {
            t = Tree::Product(t.into(), Tree::EqXY(rng.below(2) as u64).into());
        }
        let mut root = t.write(&mut nodes);
        // Squares of squares pass the degree that is told.
        if k < 4 && nodes.len() < 12 && rng.once_in(3) {
            for _ in 0..rng.range(8, 12) {
                nodes.push([9, root, root, 0]);
                root += 1;
            }
        }
        if rng.once_in(4) {
            nodes.push([13, 0, 0, 0]);
        }
        (nodes.concat(), root)
    } else {
        let mut nodes = any_nodes(rng, k, polys.len(), challenges.len());
        let root = if rng.once_in(16) { rng.below(20) as u64 } else { nodes.len() as u64 / 4 - 1 };
        if rng.once_in(6) {
            nodes.extend((0..rng.below(4)).map(|i| i as u64));
        }
        (nodes, root)
    };
    let columns = [&instance[..], &permutation, &skipped, &rest].concat().concat();
    let lent = Lent {
        k,
        root,
        circuit: [before, preprocess.concat()].concat(),
        witness: witness.concat(),
        columns,
        challenges,
        layout: layout.iter().map(|n| *n as u64).collect(),
        eq: words(&Poly::eq_xy(&f(&y)).evals),
        nodes,
    };
    Case { tree: read(&lent.nodes, lent.root), lent, polys, whole }
}

/// A call on fenced words: numbers, slices and last a buffer; the number, and the
/// buffer after.
enum Arg<'a> {
    Number(u64),
    Slice(&'a [u64]),
}
use Arg::*;

fn fenced(library: Library, name: &str, args: &[Arg], out: &[u64], at_end: bool) -> Result<(u64, Vec<u64>), String> {
    let (mut registers, mut rooms) = (vec![], vec![]);
    for arg in args {
        match arg {
            Number(n) => registers.push(*n as usize),
            Slice(words) => {
                let room = Room::with(words, at_end, false);
                registers.extend([room.words as usize, words.len()]);
                rooms.push(room);
            }
        }
    }
    let room = Room::with(out, at_end, true);
    if name != "expression_degree" {
        registers.extend([room.words as usize, out.len()]);
    }
    let number = match library {
        Library::Stub(fault) => stub(name, &registers, fault),
        Library::Linked => library.call(name, &registers),
    };
    for room in &rooms {
        room.after()?;
    }
    Ok((number, room.after()?))
}

pub fn value_args<'a>(l: &'a Lent, k: u64, root: u64, layout: &'a [u64]) -> Vec<Arg<'a>> {
    let slices = [&l.nodes, &l.circuit, &l.witness, &l.columns, &l.challenges].map(|s| Slice(s));
    [Number(k)].into_iter().chain(slices).chain([Slice(layout), Slice(&l.eq), Number(root)]).collect()
}

fn differs(library: Library, c: &Case, i: u64) -> Result<(), String> {
    let l = &c.lent;
    let (k, there) = (l.k, l.root < l.nodes.len() as u64 / 4);
    let rust = given(&c.tree, k);
    let values = values(k, &rust, &c.polys, &l.challenges, &l.eq);
    let degree = if there { rust.degree().min(MOST) as u64 } else { 0 };
    let named = |polys: usize| if there { queries(&rust, polys, k) } else { vec![] };
    // The model beside the Rust, where it has all that is named.
    if c.whole {
        let columns: Vec<&[u64]> = c.polys.iter().map(|p| &p[..]).collect();
        assert_eq!(degree, c.tree.degree().min(MOST as u64), "case {i}: the model's degree");
        let at = Place { k, order: &order(k), polys: &columns, challenges: &l.challenges, y: &[] };
        let has_eq = l.nodes.chunks(4).any(|n| n[0] == 4);
        if !has_eq && l.nodes.len() < 400 {
            (0..1 << k).for_each(|b| assert_eq!(c.tree.value(&at, b), values[b], "case {i}: the model's value"));
        }
    }
    for at_end in [true, false] {
        let same = |what: &str, got: &[u64], due: &[u64]| match (0..due.len().max(got.len()))
            .find(|j| got.get(*j) != due.get(*j))
        {
            Some(j) => Err(format!("{what}, word {j}: {:?}, and {:?} is due", got.get(j), due.get(j))),
            None => Ok(()),
        };
        let (got, _) = fenced(library, "expression_degree", &[Slice(&l.nodes), Number(l.root)], &[], at_end)?;
        same("degree", &[got], &[degree])?;
        // All polynomials, one less, and a buffer that is exact, longer or short.
        for (count, more) in [(c.polys.len() + 2, 0), (c.polys.len().saturating_sub(1), 3), (c.polys.len() + 2, -1)] {
            let due = named(count);
            let before: Vec<u64> = (0..(due.len() as i64 + more).max(0) as u64).map(|j| j ^ 0x5a5a).collect();
            let args = [Slice(&l.nodes), Number(l.root), Number(count as u64), Number(k as u64)];
            let (got, after) = fenced(library, "expression_queries", &args, &before, at_end)?;
            same("how many queries", &[got], &[due.len() as u64 / 2])?;
            let fits = due.len() <= before.len();
            let due = if fits { [&due[..], &before[due.len()..]].concat() } else { before };
            same("queries", &after, &due)?;
        }
        let before: Vec<u64> = (0..values.len() as u64 + i % 3).map(|j| j ^ 0x5a5a).collect();
        let due = if there { [&values[..], &before[values.len()..]].concat() } else { before.clone() };
        let (_, after) =
            fenced(library, "expression_values", &value_args(l, k as u64, l.root, &l.layout), &before, at_end)?;
        same("values", &after, &due)?;
        // What is out of range leaves the buffer.
        let past = l.nodes.len() as u64 / 4;
        let mut large = l.layout.clone();
        large[i as usize % 7] = (1 << 20) + 1;
        let refused = [
            (k as u64, past, &l.layout[..], &before[..]),
            (0, l.root, &l.layout, &before),
            (21, l.root, &l.layout, &before),
            (k as u64, l.root, &l.layout[..6], &before),
            (k as u64, l.root, &large, &before),
            (k as u64, l.root, &l.layout, &before[..values.len() - 1]),
        ];
        let (k, root, layout, out) = refused[i as usize % 6];
        let (_, after) = fenced(library, "expression_values", &value_args(l, k, root, layout), out, at_end)?;
        same("a buffer that must stay", &after, out)?;
        let (got, _) =
            fenced(library, "expression_degree", &[Slice(&l.nodes), Number(past + i % 2 * (1 << 62))], &[], at_end)?;
        same("degree of no node", &[got], &[0])?;
    }
    Ok(())
}

// ---- the Rust in the library's place

pub const FAULTS: [&str; 12] = [
    "none",
    "the degree",
    "a degree past the largest is told as it is",
    "how many queries there are",
    "the first query's rotation",
    "queries that do not fit are written",
    "the value at the last row",
    "a word past the values",
    "a polynomial that is not there is 1",
    "a refusal writes",
    "the word after the nodes is read",
    "the word before the buffer is written",
];

fn stub(name: &str, a: &[usize], fault: u64) -> u64 {
    let slice = |i: usize| unsafe { std::slice::from_raw_parts(a[i] as *const u64, a[i + 1]) };
    let at = (name == "expression_values") as usize;
    let (nodes, n) = (slice(at), a[if at == 1 { 15 } else { 2 }] as u64);
    if fault == 10 {
        drop(unsafe { ptr::read_volatile(nodes.as_ptr().add(nodes.len())) });
    }
    let there = n < nodes.len() as u64 / 4;
    let tree = |k: usize| given(&read(nodes, n), k);
    if name == "expression_degree" {
        let most = if fault == 2 { usize::MAX } else { MOST };
        return (if there { tree(1).degree().min(most) as u64 } else { 0 }) + (fault == 1) as u64;
    }
    let out = unsafe { std::slice::from_raw_parts_mut(a[a.len() - 2] as *mut u64, a[a.len() - 1]) };
    if fault == 11 {
        unsafe { ptr::write_volatile(out.as_mut_ptr().sub(1), 0) };
    }
    if name == "expression_queries" {
        let mut told = if there { queries(&tree(a[4]), a[3], a[4]) } else { vec![] };
        let count = told.len() as u64 / 2;
        told.get_mut(1).into_iter().for_each(|w| *w ^= (fault == 4) as u64);
        if told.len() <= out.len() || fault == 5 {
            out.iter_mut().zip(told).for_each(|(to, w)| *to = w);
        }
        return count + (fault == 3) as u64;
    }
    let (k, layout) = (a[0], slice(11));
    let good = (1..=20).contains(&k) && layout.len() == 7 && layout.iter().all(|w| *w <= 1 << 20);
    if !(good && there && 1 << k <= out.len()) {
        out.iter_mut().take((fault == 9) as usize).for_each(|w| *w ^= 1);
        return 0;
    }
    let rows = 1 << k;
    let [instances, preprocess, start, witnesses, permutations, skipped, rest] =
        [0, 1, 2, 3, 4, 5, 6].map(|i| layout[i] as usize);
    let behind = instances + permutations + skipped;
    let parts = [
        &slice(7)[..instances * rows],
        &slice(3)[start..][..preprocess * rows],
        &slice(5)[..witnesses * rows],
        &slice(7)[instances * rows..][..permutations * rows],
        &slice(7)[behind * rows..][..rest * rows],
    ];
    let mut polys: Vec<Vec<u64>> = parts.concat().chunks(rows).map(|p| p.to_vec()).collect();
    if fault == 8 {
        polys.resize(polys.len() + 2, vec![1; rows]);
    }
    let values = values(k, &tree(k), &polys, slice(9), slice(13));
    out[..rows].copy_from_slice(&values);
    out[rows - 1] ^= (fault == 6) as u64;
    out.iter_mut().skip(rows).take((fault == 7) as usize).for_each(|w| *w ^= 1);
    0
}

/// Ends with 'N compared, M differ'.
pub fn compare(library: Library, seed: u64, count: u64) {
    if let Library::Stub(fault) = library {
        println!("the Rust stands in the library's place; fault: {}", FAULTS[fault as usize]);
    }
    if !library.has("expression_values") {
        println!("skipped: no target/staticlib/liboracle_entry.a (bindings/build oracle_entry)");
        return;
    }
    catch_faults();
    let mut differ = 0;
    let (mut whole, mut most, mut nodes) = (0, 0, 0);
    for i in 0..count {
        RUNNING.store(i, Ordering::Relaxed);
        let c = case(seed, i);
        whole += c.whole as u64;
        most += (c.whole && c.tree.degree() >= MOST as u64) as u64;
        nodes += c.lent.nodes.len() / 4;
        if let Err(what) = differs(library, &c, i) {
            differ += 1;
            if differ <= 5 {
                println!("case {i}: {what}; k = {}, node {} of {:?}", c.lent.k, c.lent.root, c.lent.nodes);
            }
            if library != Library::Linked {
                break;
            }
        }
    }
    println!("{whole} trees, of which {most} of degree {MOST} or more, {} of any words; {nodes} nodes", count - whole);
    println!("{count} compared, {differ} differ");
    exit((differ > 0) as i32);
}
