//! Circuit words by section, the seeded generator, and expressions laid as nodes.
use super::model::Tree;

/// Sections in the order of the words.
pub const INSTANCES: usize = 0;
pub const PREPROCESS: usize = 1;
pub const ROUNDS: usize = 2;
pub const NODES: usize = 3;
pub const CONSTRAINTS: usize = 4;
pub const WIDTHS: usize = 5;
pub const PAIRS: usize = 6;
pub const LENGTHS: usize = 7;
pub const CELLS: usize = 8;
pub const GROUPS: usize = 9;

/// Words of the table of contents, and how many sections it has.
pub const CONTENTS: usize = 22;
pub const SECTIONS: usize = 10;

/// Circuit words before the table of contents is made. Any words may stand in it.
#[derive(Clone, Debug, Default)]
pub struct Sections {
    pub k: u64,
    /// Word 1: 0, or the maximum degree + 1.
    pub degree: u64,
    pub bodies: [Vec<u64>; SECTIONS],
}

impl Sections {
    pub fn entry(&self, s: usize) -> usize {
        [1, 1 << self.k.min(20), 2, 4, 1, 1, 2, 1, 2, 1][s]
    }
    pub fn count(&self, s: usize) -> u64 {
        (self.bodies[s].len() / self.entry(s)) as u64
    }
    pub fn polys(&self) -> u64 {
        let witnesses: u64 = self.bodies[ROUNDS].chunks(2).map(|r| r[0]).sum();
        self.count(INSTANCES) + self.count(PREPROCESS) + witnesses
    }
    pub fn challenges(&self) -> u64 {
        self.bodies[ROUNDS].chunks(2).map(|r| r[1]).sum()
    }
    pub fn words(&self) -> Vec<u64> {
        let mut words = vec![self.k, self.degree];
        let mut at = CONTENTS as u64;
        for s in 0..SECTIONS {
            words.extend([at, self.count(s)]);
            at += self.bodies[s].len() as u64;
        }
        words.extend(self.bodies.iter().flatten());
        words
    }
    /// Writes a tree after the nodes; answers its node.
    pub fn node(&mut self, tree: &Tree) -> u64 {
        let mut nodes: Vec<[u64; 4]> = self.bodies[NODES].chunks(4).map(|n| n.try_into().unwrap()).collect();
        let root = tree.write(&mut nodes);
        self.bodies[NODES] = nodes.concat();
        root
    }
    pub fn constraint(&mut self, tree: &Tree) {
        let root = self.node(tree);
        self.bodies[CONSTRAINTS].push(root);
    }
    /// A lookup after the others, in a group of its own.
    pub fn lookup(&mut self, pairs: &[(Tree, Tree)]) {
        let group = self.bodies[GROUPS].last().map_or(0, |last| last.wrapping_add(1));
        self.lookup_in(group, pairs);
    }
    /// A lookup after the others, in the group of the last.
    pub fn member(&mut self, pairs: &[(Tree, Tree)]) {
        let group = self.bodies[GROUPS].last().copied().unwrap_or(0);
        self.lookup_in(group, pairs);
    }
    pub fn lookup_in(&mut self, group: u64, pairs: &[(Tree, Tree)]) {
        for (input, table) in pairs {
            let roots = [self.node(input), self.node(table)];
            self.bodies[PAIRS].extend(roots);
        }
        self.bodies[WIDTHS].push(pairs.len() as u64);
        self.bodies[GROUPS].push(group);
    }
    /// A lookup before the others, in a group of its own.
    pub fn lookup_before(&mut self, pairs: &[(Tree, Tree)]) {
        let roots: Vec<u64> = pairs.iter().flat_map(|(input, table)| [self.node(input), self.node(table)]).collect();
        self.bodies[PAIRS].splice(0..0, roots);
        self.bodies[WIDTHS].insert(0, pairs.len() as u64);
        self.bodies[GROUPS].iter_mut().for_each(|group| *group = group.wrapping_add(1));
        self.bodies[GROUPS].insert(0, 0);
    }
    pub fn cycle(&mut self, cells: &[(u64, u64)]) {
        self.bodies[LENGTHS].push(cells.len() as u64);
        self.bodies[CELLS].extend(cells.iter().flat_map(|c| [c.0, c.1]));
    }

    /// Numbers the nodes anew, at random, each still above those it names.
    pub fn shuffle_nodes(&mut self, rng: &mut Rng) {
        let nodes: Vec<[u64; 4]> = self.bodies[NODES].chunks(4).map(|n| n.try_into().unwrap()).collect();
        let names = |n: &[u64; 4]| match n[0] {
            7 | 10 => [true, false],
            8 | 9 | 11 => [true, true],
            12 => [true, n[3] == 1],
            _ => [false, false],
        };
        let mut new = vec![u64::MAX; nodes.len()];
        let mut ready: Vec<usize> = (0..nodes.len()).filter(|n| names(&nodes[*n]) == [false; 2]).collect();
        let mut laid = 0;
        while laid < nodes.len() as u64 {
            let at = ready.swap_remove(rng.below(ready.len()));
            new[at] = laid;
            laid += 1;
            // Each node has one parent at most; it is ready when all it names are laid.
            let is_parent = |n: &&usize| {
                let (node, named) = (&nodes[**n], names(&nodes[**n]));
                let laid_or_not = |i: usize| !named[i] || new[node[1 + i] as usize] != u64::MAX;
                (0..2).any(|i| named[i] && node[1 + i] == at as u64) && laid_or_not(0) && laid_or_not(1)
            };
            let parents: Vec<usize> = (at + 1..nodes.len()).filter(|n| is_parent(&n)).collect();
            ready.extend(parents);
        }
        let mut out = vec![[0; 4]; nodes.len()];
        for (old, node) in nodes.iter().enumerate() {
            let named = names(node);
            let word = |i: usize| if named[i] { new[node[1 + i] as usize] } else { node[1 + i] };
            out[new[old] as usize] = [node[0], word(0), word(1), node[3]];
        }
        self.bodies[NODES] = out.concat();
        for s in [CONSTRAINTS, PAIRS] {
            self.bodies[s].iter_mut().for_each(|root| *root = new[*root as usize]);
        }
    }
}

/// Splitmix64.
pub struct Rng {
    state: u64,
    /// Buffers then hold small words before a call.
    pub narrow: bool,
}

impl Rng {
    pub fn new(seed: u64) -> Rng {
        Rng { state: seed, narrow: false }
    }
    pub fn narrow(seed: u64) -> Rng {
        Rng { state: seed, narrow: true }
    }
    pub fn word(&mut self) -> u64 {
        self.state = self.state.wrapping_add(0x9e3779b97f4a7c15);
        let z = (self.state ^ (self.state >> 30)).wrapping_mul(0xbf58476d1ce4e5b9);
        let z = (z ^ (z >> 27)).wrapping_mul(0x94d049bb133111eb);
        z ^ (z >> 31)
    }
    pub fn below(&mut self, n: usize) -> usize {
        (self.word() % n as u64) as usize
    }
    /// From low to high, both included.
    pub fn range(&mut self, low: usize, high: usize) -> usize {
        low + self.below(high - low + 1)
    }
    /// True once in n.
    pub fn once_in(&mut self, n: usize) -> bool {
        self.below(n) == 0
    }
    pub fn pick<T: Copy>(&mut self, from: &[T]) -> T {
        from[self.below(from.len())]
    }
}
