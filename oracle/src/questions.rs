//! Document 01's circuit words and its questions, with those that document 02 adds, read plainly. Every
//! sum is made at a width where it can't wrap.
use super::model::{Tree, P};
use std::collections::HashSet;

/// Pairs of input and table.
pub type Lookup = Vec<(Tree, Tree)>;

/// What words that pass 1 to 11 say.
#[derive(Clone, Debug)]
pub struct Circuit {
    pub k: usize,
    pub max_degree: Option<u64>,
    pub instances: Vec<u64>,
    pub preprocess: Vec<Vec<u64>>,
    pub rounds: Vec<(u64, u64)>,
    pub constraints: Vec<Tree>,
    pub lookups: Vec<Lookup>,
    pub cycles: Vec<Vec<(u64, u64)>>,
    /// The group number of each lookup.
    pub groups: Vec<u64>,
}

impl Circuit {
    pub fn witnesses(&self) -> u64 {
        self.rounds.iter().map(|r| r.0).sum()
    }
    /// The user's.
    pub fn challenges(&self) -> u64 {
        self.rounds.iter().map(|r| r.1).sum()
    }
    pub fn polys(&self) -> u64 {
        (self.instances.len() + self.preprocess.len()) as u64 + self.witnesses()
    }
    /// The copied columns, each once, by rising number.
    pub fn copied(&self) -> Vec<u64> {
        let mut polys: Vec<u64> = self.cycles.iter().flatten().map(|cell| cell.0).collect();
        polys.sort();
        polys.dedup();
        polys
    }
    /// How many lookups each group has.
    pub fn group_sizes(&self) -> Vec<usize> {
        let groups = self.groups.last().map_or(0, |last| last + 1);
        (0..groups).map(|group| self.groups.iter().filter(|of| **of == group).count()).collect()
    }
    /// The lookups of each group.
    pub fn grouped(&self) -> Vec<&[Lookup]> {
        parted(&self.lookups, &self.group_sizes())
    }
    /// The Rust has a circuit if every group has one lookup.
    pub fn groups_of_one(&self) -> bool {
        self.group_sizes().iter().all(|size| *size == 1)
    }
    /// The degree D.
    pub fn d(&self) -> u64 {
        let users = self.constraints.iter().map(Tree::degree);
        let groups = self.grouped().into_iter().map(group_degree);
        users.chain(groups).chain(self.max_degree).chain([2]).max().unwrap()
    }
    /// The z columns, N.
    pub fn parts(&self) -> u64 {
        (self.copied().len() as u64).div_ceil(self.d() - 1)
    }
    pub fn cuts_are_alike(&self) -> bool {
        let n = self.copied().len();
        n == 0 || {
            let (mine, theirs) = (self.d() as usize - 1, n.div_ceil(self.parts() as usize));
            let cuts = |size: usize| (0..n).step_by(size).collect::<Vec<_>>();
            cuts(mine) == cuts(theirs)
        }
    }
    pub fn column_words(&self) -> usize {
        let of_lookups = 2 * self.lookups.len() + 2 * self.group_sizes().len();
        (self.instances.len() + self.copied().len() + of_lookups + self.parts() as usize) << self.k
    }
    pub fn instance_words(&self) -> usize {
        self.instances.iter().sum::<u64>() as usize
    }
    pub fn witness_words(&self) -> usize {
        (self.witnesses() as usize) << self.k
    }
}

/// Parts of these sizes, one after another.
pub fn parted<'a, T>(mut all: &'a [T], sizes: &[usize]) -> Vec<&'a [T]> {
    let part = |size: &usize| {
        let (part, rest) = all.split_at(*size);
        all = rest;
        part
    };
    sizes.iter().map(part).collect()
}

/// Of a group's constraint: 1, its inputs' and its table's.
fn group_degree(group: &[Lookup]) -> u64 {
    // A list of β's powers has the largest degree in it: β has degree 0.
    let inputs = group.iter().map(|lookup| lookup.iter().map(|p| p.0.degree()).max().unwrap_or(0));
    let table = group[0].iter().map(|p| p.1.degree()).max().unwrap_or(0);
    inputs.chain([table]).fold(1, u64::saturating_add)
}

/// The first group number is 0, each next the same or one more.
fn numbers_good(groups: &[u64]) -> bool {
    groups.first().map_or(true, |first| *first == 0)
        && groups.windows(2).all(|two| two[1] == two[0] || two[0].checked_add(1) == Some(two[1]))
}

/// Each member's table is its group's first member's: of the same width, and the same trees.
fn tables_alike(lookups: &[Lookup], groups: &[u64]) -> bool {
    let table = |i: usize| lookups[i].iter().map(|p| &p.1).collect::<Vec<_>>();
    let first_of = |group: u64| groups.iter().position(|of| *of == group).unwrap();
    (0..lookups.len()).all(|i| table(i) == table(first_of(groups[i])))
}

fn ask(yes: bool, number: u64) -> Result<(), u64> {
    if yes {
        Ok(())
    } else {
        Err(number)
    }
}

/// Words per entry, by section; a preprocess column has 2^k.
const SIZES: [u128; 10] = [1, 0, 2, 4, 1, 1, 2, 1, 2, 1];
/// The most entries a section may have by question 3; pairs and group numbers have no limit there.
const LIMITS: [u64; 10] = [8, 32, 4, 1024, 32, 8, u64::MAX, 1024, 4096, u64::MAX];

/// Questions 1 to 11, with 18 after 9.
pub fn read(w: &[u64]) -> Result<Circuit, u64> {
    ask(w.len() >= 22, 1)?;
    ask((1..=10).contains(&w[0]), 2)?;
    let (k, rows) = (w[0] as usize, 1u64 << w[0]);
    let (start, count) = (|s: usize| w[2 + 2 * s], |s: usize| w[3 + 2 * s]);
    // 3 and 4, contents
    ask(w[1] <= 33 && (0..10).all(|s| count(s) <= LIMITS[s]) && count(2) >= 1, 3)?;
    let size = |s: usize| if s == 1 { rows as u128 } else { SIZES[s] };
    let mut at = 22u128;
    let mut agree = count(9) == count(5);
    for s in 0..10 {
        agree &= start(s) as u128 == at;
        at += count(s) as u128 * size(s);
    }
    ask(agree && at == w.len() as u128, 4)?;
    let body = |s: usize| &w[start(s) as usize..][..(count(s) as u128 * size(s)) as usize];
    let pairs = |s: usize| body(s).chunks(2).map(|c| (c[0], c[1])).collect::<Vec<_>>();
    let total = |values: &mut dyn Iterator<Item = u64>| values.map(|v| v as u128).sum::<u128>();
    // 3 and 4, bodies
    let (rounds, widths, lengths) = (pairs(2), body(5), body(7));
    let witnesses = total(&mut rounds.iter().map(|r| r.0));
    let challenges = total(&mut rounds.iter().map(|r| r.1));
    let cells = total(&mut lengths.iter().copied());
    ask(witnesses <= 32 && challenges <= 16 && widths.iter().all(|w| *w <= 8) && cells <= 4096, 3)?;
    ask(count(6) as u128 == total(&mut widths.iter().copied()) && count(8) as u128 == cells, 4)?;
    // 5
    let last = rounds.len() - 1;
    ask(
        rounds.iter().enumerate().all(|(i, r)| r.0 > 0 && (i == last || r.1 > 0)) && body(0).iter().all(|l| *l < rows),
        5,
    )?;
    // 6
    let nodes: Vec<[u64; 4]> = body(3).chunks(4).map(|n| [n[0], n[1], n[2], n[3]]).collect();
    let scalars = nodes.iter().filter(|n| n[0] == 1 || n[0] == 10).map(|n| n[3]);
    ask(body(1).iter().copied().chain(scalars).all(|v| v < P), 6)?;
    // 7
    let lookup_roots = pairs(6);
    let roots: Vec<u64> = body(4).iter().copied().chain(lookup_roots.iter().flat_map(|p| [p.0, p.1])).collect();
    ask(laid_out(&nodes, &roots), 7)?;
    // 8
    let polys = count(0) + count(1) + witnesses as u64;
    let (low, high) = ((1 << 31) - k as u64, (1 << 31) + k as u64);
    let in_range = |n: &[u64; 4]| match n[0] {
        4 => false,
        5 => n[1] < polys && low <= n[3] && n[3] <= high,
        6 => n[1] < challenges as u64,
        _ => true,
    };
    ask(nodes.iter().all(in_range), 8)?;
    // 9
    ask(widths.iter().all(|w| *w > 0) && count(4) + count(5) + count(7) > 0, 9)?;
    // 18
    let tree = |root: u64| Tree::read(&nodes, root);
    let sizes = |words: &[u64]| words.iter().map(|w| *w as usize).collect::<Vec<_>>();
    let lookups = parted(&lookup_roots, &sizes(widths)).into_iter();
    let lookups: Vec<Lookup> = lookups.map(|l| l.iter().map(|p| (tree(p.0), tree(p.1))).collect()).collect();
    let groups = body(9).to_vec();
    ask(numbers_good(&groups) && tables_alike(&lookups, &groups), 18)?;
    let constraints: Vec<Tree> = body(4).iter().map(|root| tree(*root)).collect();
    // 10
    let max_degree = w[1].checked_sub(1);
    let within = |t: &Tree| t.degree() <= 1024 && max_degree.map_or(true, |max| t.degree() <= max);
    let preprocess = body(1).chunks(rows as usize).map(<[u64]>::to_vec).collect();
    let cycles = parted(&pairs(8), &sizes(lengths)).into_iter().map(<[_]>::to_vec).collect();
    let instances = body(0).to_vec();
    let c = Circuit { k, max_degree, instances, preprocess, rounds, constraints, lookups, cycles, groups };
    ask(c.constraints.iter().all(within) && c.grouped().into_iter().all(|g| group_degree(g) <= 1024), 10)?;
    // 11
    let once = |cycle: &Vec<(u64, u64)>| cycle.iter().collect::<HashSet<_>>().len() == cycle.len();
    let in_range = |cell: &(u64, u64)| cell.0 < polys && 1 <= cell.1 && cell.1 < rows;
    ask(c.cycles.iter().all(|c| !c.is_empty() && c.iter().all(in_range) && once(c)), 11)?;
    Ok(c)
}

/// Question 7.
fn laid_out(nodes: &[[u64; 4]], roots: &[u64]) -> bool {
    let item = |n: u64| nodes[n as usize][0] == 12;
    let mut named = vec![0u64; nodes.len()];
    for (at, [kind, first, second, value]) in (0u64..).zip(nodes.iter().copied()) {
        let mut name = |n: u64, wants_item: bool| {
            let good = n < at && item(n) == wants_item;
            if good {
                named[n as usize] += 1;
            }
            good
        };
        let good = match kind {
            1 | 4 => first == 0 && second == 0,
            2 => first == 0 && second == 0 && value == 0,
            3 => first == 0 && second == 0 && value < 1 << 32,
            5 => second == 0 && value < 1 << 32,
            6 => second == 0 && value == 0,
            7 => name(first, false) && second == 0 && value == 0,
            8 | 9 => name(first, false) && name(second, false) && value == 0,
            10 => name(first, false) && second == 0,
            11 => name(first, false) && name(second, true) && nodes[second as usize][3] == 1 && value == 0,
            12 => name(first, false) && if value == 1 { name(second, true) } else { value == 0 && second == 0 },
            _ => false,
        };
        if !good {
            return false;
        }
    }
    for root in roots {
        if *root >= nodes.len() as u64 || item(*root) {
            return false;
        }
        named[*root as usize] += 1;
    }
    named.iter().all(|n| *n == 1)
}
