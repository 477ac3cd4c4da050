//! The same inputs through the Rust and through the library, in one run, on one
//! thread, one side after the other.
use super::super::prover::{lookup_h_poly, lookup_m_poly};
use super::cases::demo;
use super::generate::Log;
use super::given::{self, f, rows, words, Expr, Poly};
use super::laps::Laps;
use super::library::Library;
use super::model::{composed_words, is_denominator, log_zeros, m_column, Columns, Tree, P};
use super::questions::{read, Circuit};
use super::sections::*;
use super::stored::lent_for;
use crate::util::{
    arithmetic::{Field, Goldilocks as F},
    Itertools,
};
use std::{
    collections::BTreeMap,
    hint::black_box,
    time::{Duration, Instant},
};

fn query(p: u64, r: i64) -> Tree {
    Tree::Polynomial(p, r)
}
fn product(a: Tree, b: Tree) -> Tree {
    Tree::Product(a.into(), b.into())
}
fn sum(a: Tree, b: Tree) -> Tree {
    Tree::Sum(a.into(), b.into())
}

/// k = 10, 8 lookups of width 8, 40 copied columns, 32 constraints.
fn full() -> Log {
    let n = 1024;
    let mut rng = Rng::new(7);
    let table: Vec<Vec<u64>> = (0..8).map(|_| (0..n).map(|_| rng.word() % P).collect()).collect();
    let picks: Vec<Vec<usize>> = (0..4).map(|_| (0..n).map(|_| rng.below(n)).collect()).collect();
    let mut s = Sections { k: 10, ..Default::default() };
    s.bodies[INSTANCES] = vec![1023; 8];
    s.bodies[PREPROCESS] = table.concat();
    s.bodies[ROUNDS] = vec![32, 0];
    let witness = (0..32).flat_map(|w| picks[w / 8].iter().map(|r| table[w % 8][*r]).collect::<Vec<_>>()).collect();
    for w in 16..48 {
        let cube = || product(product(query(w, 0), query(w, 0)), query(w, 1));
        s.constraint(&sum(cube(), Tree::Negated(cube().into())));
    }
    for l in 0..8u64 {
        let pair = |i: u64| (query(16 + l % 4 * 8 + i, (l / 4) as i64), query(8 + i, 0));
        s.lookup(&(0..8).map(pair).collect::<Vec<_>>());
    }
    // Rows that picked the same table row are copies.
    for w in 0..32 {
        let mut by_pick = vec![vec![]; n];
        picks[w / 8].iter().enumerate().skip(1).for_each(|(b, pick)| by_pick[*pick].push((16 + w as u64, b as u64)));
        by_pick.iter().filter(|c| c.len() > 1).take(31).for_each(|cycle| s.cycle(cycle));
    }
    (0..8).for_each(|i| s.cycle(&[(i, 1 + i)]));
    let mut word = |_| rng.word() % P;
    Log {
        sections: s,
        instance: (0..8 * 1023).map(&mut word).collect(),
        witness,
        challenges: (0..2).map(&mut word).collect(),
        meets: true,
    }
}

/// The same log with its lookups in one group: they have one table.
fn one_group() -> Log {
    let mut log = full();
    log.sections.bodies[GROUPS].fill(0);
    log
}

/// k = 10, one gate q_l a + q_r b + q_m a b + q_o c + q_c over three copied columns.
fn plain() -> Log {
    let (n, mut rng) = (1024usize, Rng::new(8));
    let mut s = Sections { k: 10, ..Default::default() };
    s.bodies[INSTANCES] = vec![16];
    s.bodies[PREPROCESS] = (0..5 * n).map(|_| rng.word() % P).collect();
    s.bodies[ROUNDS] = vec![3, 0];
    let (a, b, c) = (|| query(6, 0), || query(7, 0), || query(8, 0));
    let linear = sum(product(query(1, 0), a()), product(query(2, 0), b()));
    let gate = sum(sum(linear, product(product(query(3, 0), a()), b())), product(query(4, 0), c()));
    s.constraint(&sum(gate, query(5, 0)));
    (1..1000).for_each(|b| s.cycle(&[(6 + b % 3, b), (6 + (b + 1) % 3, b + 1)]));
    let mut word = |_| rng.word() % P;
    Log {
        sections: s,
        instance: (0..16).map(&mut word).collect(),
        witness: (0..3 * n).map(&mut word).collect(),
        challenges: (0..2).map(&mut word).collect(),
        meets: false,
    }
}

/// k = 4, the demo circuit's make with one lookup and copies.
fn little() -> Log {
    let mut log = demo();
    let (n, s) = (16u64, &mut log.sections);
    s.k = 4;
    s.bodies[PREPROCESS] = (0..3 * n).map(|i| i % n).collect();
    log.witness = (0..2 * n).map(|i| i % n * 3 % n).collect();
    log
}

const RUST: usize = 0;
const OURS: usize = 1;

/// Milliseconds by stage: the Rust's and the library's, one for each repetition.
#[derive(Default)]
struct Times(BTreeMap<&'static str, [Vec<f64>; 2]>);

impl Times {
    fn note(&mut self, side: usize, stage: &'static str, took: Duration) {
        self.0.entry(stage).or_default()[side].push(took.as_nanos() as f64 / 1e6);
    }
    fn time<T>(&mut self, side: usize, stage: &'static str, run: impl FnOnce() -> T) -> T {
        let start = Instant::now();
        let out = black_box(run());
        self.note(side, stage, start.elapsed());
        out
    }
    /// The last time of a stage.
    fn last(&self, side: usize, stage: &str) -> Duration {
        let ms = self.0.get(stage).and_then(|t| t[side].last());
        Duration::from_nanos((ms.unwrap_or(&0.) * 1e6) as u64)
    }
}

fn median(mut of: Vec<f64>) -> Option<f64> {
    of.sort_by(f64::total_cmp);
    of.get(of.len() / 2).copied()
}

/// What runs on both sides in each repetition, one side after the other.
const JOBS: [&str; 6] = ["build", "m alone", "h alone", "user expressions", "eq_xy", "row sum"];

/// What is printed, in order: the stages of a build as the library takes them, the
/// build, and what is called by itself.
const LINES: [&str; 18] = [
    "questions 1 to 14",
    "instance",
    "(copying)",
    "permutation",
    "compressed",
    "m",
    "h",
    "z",
    "compose",
    "build",
    "build without m",
    "m alone",
    "h alone",
    "eq_xy",
    "user expressions",
    "row sum",
    "questions 1 to 11",
    "reading the words",
];

struct Sheet {
    c: Circuit,
    lent: Vec<Vec<u64>>,
    given: given::Log,
    /// The columns that the Rust builds; the model's of a circuit with larger groups. And all that a row sum reads.
    built: Columns,
    columns: Vec<u64>,
    /// m of each lookup by itself.
    counts: Vec<Vec<u64>>,
    composed: Expr,
    polys: Vec<Vec<F>>,
    /// With α.
    challenges: Vec<u64>,
    y: Vec<u64>,
    /// User expressions: constraints, then inputs and tables.
    roots: Vec<u64>,
    nodes: Vec<u64>,
    expressions: Vec<Expr>,
    laps: Option<Laps>,
    fenced_first: bool,
}

fn slice(s: &[u64]) -> [usize; 2] {
    [s.as_ptr() as usize, s.len()]
}

impl Sheet {
    fn of(log: &Log) -> Sheet {
        let mut lent = lent_for(log);
        let c = read(&lent[0]).unwrap();
        lent[5] = composed_words(&c);
        let given = given::Log::of(&lent[0], &lent[1], &lent[2], &lent[3]);
        let zeros = log_zeros(&c, &lent[1], &lent[2], &lent[3]);
        assert!(!zeros.iter().any(is_denominator), "a sheet with a zero denominator: the library answers 17");
        let (built, composed) = if c.groups_of_one() {
            given::build(&given, &mut |_| {}).unwrap()
        } else {
            let model = super::model::columns(&c, &lent[1], &lent[2], &lent[3]).unwrap();
            (model, given::expression(&lent[5], lent[5].len() as u64 / 4 - 1))
        };
        let columns = built.words();
        let counts = built.compressed.chunks(2).map(|pair| m_column(&[&pair[0]], &pair[1]).unwrap()).collect();
        let polys = super::calls::polys(&c, &lent[2], &columns).into_iter().map(f).collect();
        let roots: Vec<u64> = [CONSTRAINTS, PAIRS].iter().flat_map(|s| log.sections.bodies[*s].clone()).collect();
        let nodes = log.sections.bodies[NODES].clone();
        let expressions = roots.iter().map(|r| given::expression(&nodes, *r)).collect();
        let challenges = [&log.challenges[..], &[1 << 20]].concat();
        let y = (1..=c.k as u64).map(|i| 1 << (20 + i)).collect();
        let laps = Laps::of(&c, lent[5].len());
        Sheet {
            c,
            lent,
            given,
            built,
            columns,
            counts,
            composed,
            polys,
            challenges,
            y,
            roots,
            nodes,
            expressions,
            laps,
            fenced_first: false,
        }
    }

    fn rust(&self, job: &'static str, times: &mut Times) -> Vec<Vec<u64>> {
        let pairs =
            || self.built.compressed.chunks(2).map(|p| [Poly::new(f(&p[0])), Poly::new(f(&p[1]))]).collect_vec();
        let challenges = f(&self.challenges);
        let value = |e: &Expr, eq: &[F]| rows(self.c.k, e, &|p, b| self.polys[p][b], &|i| challenges[i], eq);
        match job {
            "build" => {
                let (mut last, mut whole) = (Instant::now(), Duration::ZERO);
                let built = given::build(&self.given, &mut |stage| {
                    let took = last.elapsed();
                    times.note(RUST, stage, took);
                    whole += took;
                    last = Instant::now();
                });
                times.note(RUST, "build", whole);
                times.note(RUST, "build without m", whole - times.last(RUST, "m"));
                // Of larger groups the Rust's build is that of the same lookups in groups of one.
                vec![if self.c.groups_of_one() { built.unwrap().0.words() } else { self.columns.clone() }]
            }
            "m alone" => {
                let pairs = pairs();
                let m = times.time(RUST, job, || pairs.iter().map(|p| lookup_m_poly(p).unwrap()).collect_vec());
                m.iter().map(|m| words(&m.evals)).collect()
            }
            "h alone" => {
                let (pairs, m) = (pairs(), self.counts.iter().map(|m| Poly::new(f(m))).collect_vec());
                let gamma = &self.given.gamma;
                let all = || pairs.iter().zip(&m).map(|(p, m)| lookup_h_poly(p, m, gamma)).collect_vec();
                times.time(RUST, job, all).iter().map(|h| words(&h.evals)).collect()
            }
            "user expressions" => {
                let zeros = vec![F::ZERO; 1 << self.c.k];
                let all = || self.expressions.iter().map(|e| value(e, &zeros)).collect_vec();
                times.time(RUST, job, all).iter().map(|v| words(v)).collect()
            }
            "eq_xy" => {
                let y = f(&self.y);
                vec![words(&times.time(RUST, job, || Poly::eq_xy(&y)).evals)]
            }
            _ => {
                let y = f(&self.y);
                let sum = || value(&self.composed, &Poly::eq_xy(&y).evals).into_iter().sum::<F>();
                vec![vec![times.time(RUST, job, sum).value()]]
            }
        }
    }

    /// None: the library lacks the call.
    fn ours(&mut self, job: &'static str, library: Library, times: &mut Times) -> Option<Vec<Vec<u64>>> {
        let call = match job {
            "m alone" => "lookup_m_poly",
            "h alone" => "lookup_h_poly",
            "user expressions" => "expression_values",
            _ => job.strip_suffix(" sum").map_or(job, |_| "row_sum"),
        };
        if !library.has(call) {
            return None;
        }
        let (k, rows) = ([self.c.k], 1 << self.c.k);
        let outs = |n: usize| vec![vec![0u64; rows]; n];
        let mut run = |calls: Vec<Vec<usize>>| {
            times.time(OURS, job, || calls.iter().for_each(|args| drop(library.call(call, args))))
        };
        let lookups = self.c.lookups.len();
        let compressed =
            |l: usize| [slice(&self.built.compressed[2 * l]), slice(&self.built.compressed[2 * l + 1])].concat();
        match job {
            "build" => {
                let Some(laps) = &mut self.laps else {
                    let mut answer = [0u64; 3];
                    let mut args: Vec<usize> =
                        self.lent.iter_mut().flat_map(|s| [s.as_mut_ptr() as usize, s.len()]).collect();
                    args.extend([answer.as_mut_ptr() as usize, 3]);
                    run(vec![args]);
                    return Some(vec![self.lent[4].clone()]);
                };
                // Without fences and with them, in the same buffers, in turn first.
                self.fenced_first = !self.fenced_first;
                for fenced in [self.fenced_first, !self.fenced_first] {
                    if fenced {
                        let stages = laps.stages(library, &self.lent);
                        let whole: Duration = stages.iter().map(|s| s.1).sum();
                        times.note(OURS, "build, fenced", whole);
                        stages.into_iter().for_each(|(stage, took)| times.note(OURS, stage, took));
                        times.note(OURS, "build without m", whole - times.last(OURS, "m"));
                    } else {
                        times.note(OURS, "build", laps.whole(library, &self.lent));
                    }
                }
                Some(vec![laps.columns().to_vec()])
            }
            "m alone" => {
                let mut out = outs(lookups);
                let to = out.iter_mut().map(|o| [o.as_mut_ptr() as usize, rows]).collect_vec();
                run((0..lookups).map(|l| [&k[..], &compressed(l), &to[l]].concat()).collect());
                Some(out)
            }
            "h alone" => {
                let mut out = outs(lookups);
                let to = out.iter_mut().map(|o| [o.as_mut_ptr() as usize, rows]).collect_vec();
                let gamma = [self.given.gamma.value() as usize];
                let args = |l: usize| [&k[..], &compressed(l), &slice(&self.counts[l]), &gamma, &to[l]].concat();
                run((0..lookups).map(args).collect());
                Some(out)
            }
            "user expressions" => {
                let mut out = outs(self.roots.len());
                let to = out.iter_mut().map(|o| [o.as_mut_ptr() as usize, rows]).collect_vec();
                let (c, start, eq) = (&self.c, self.lent[0][4], vec![0u64; rows]);
                let layout = [c.instances.len() as u64, c.preprocess.len() as u64, start, c.witnesses(), 0, 0, 0];
                let user = &self.challenges[..c.challenges() as usize];
                let lent = [&self.nodes[..], &self.lent[0], &self.lent[2], &self.columns, user, &layout, &eq];
                let lent = lent.map(slice).concat();
                let args = |(root, to): (&u64, &[usize; 2])| [&k[..], &lent, &[*root as usize], to].concat();
                run(self.roots.iter().zip(&to).map(args).collect());
                Some(out)
            }
            "eq_xy" => {
                let mut out = outs(1);
                let to = [out[0].as_mut_ptr() as usize, rows];
                run(vec![[&k[..], &slice(&self.y), &to].concat()]);
                Some(out)
            }
            _ => {
                let mut sum = vec![0u64];
                let to = [sum.as_mut_ptr() as usize, 1];
                let lent = [&self.lent[0][..], &self.lent[2], &self.columns, &self.lent[5], &self.challenges, &self.y];
                run(vec![[&lent.map(slice).concat()[..], &to].concat()]);
                Some(vec![sum])
            }
        }
    }
}

fn sheet(name: &str, log: &Log, library: Library, reps: usize) {
    let mut sheet = Sheet::of(log);
    let mut times = Times::default();
    for rep in 0..reps {
        for job in JOBS.into_iter().filter(|job| !log.sections.bodies[WIDTHS].is_empty() || !job.ends_with("alone")) {
            // Each side is first in every other repetition.
            let (mut theirs, mut mine) = (None, None);
            for side in [rep % 2, 1 - rep % 2] {
                match side {
                    RUST => theirs = Some(sheet.rust(job, &mut times)),
                    _ => mine = sheet.ours(job, library, &mut times),
                }
            }
            assert!(mine.is_none() || mine == theirs, "{job}: the sides differ");
        }
        let lent = &sheet.lent;
        times.time(RUST, "reading the words", || given::Log::of(&lent[0], &lent[1], &lent[2], &lent[3]));
        if library.has("circuit_first_no") {
            let asked = times.time(OURS, "questions 1 to 11", || library.call("circuit_first_no", &slice(&lent[0])));
            assert_eq!(asked, 0);
        }
    }
    let c = &sheet.c;
    println!(
        "{name}: {} groups, {} copied, {} z, {} columns, {} nodes; medians of {reps}",
        c.group_sizes().len(),
        c.copied().len(),
        c.parts(),
        c.column_words() >> c.k,
        sheet.lent[5].len() / 4
    );
    println!("  {:<18} {:>12} {:>12} {:>8} {:>9}", "stage", "Rust ms", "library ms", "ratio", "of bests");
    for stage in LINES {
        let Some(of) = times.0.get(stage) else { continue };
        let ratios = of[OURS].iter().zip(&of[RUST]).map(|(mine, theirs)| mine / theirs).collect();
        let tell = |ms: Option<f64>, digits: usize| ms.map_or("-".into(), |ms| format!("{ms:.digits$}"));
        let [theirs, mine] = [RUST, OURS].map(|side| tell(median(of[side].clone()), 4));
        let best = |side: usize| of[side].iter().copied().min_by(f64::total_cmp);
        let bests = best(OURS).zip(best(RUST)).map(|(mine, theirs)| mine / theirs);
        println!("  {stage:<18} {theirs:>12} {mine:>12} {:>8} {:>9}", tell(median(ratios), 2), tell(bests, 2));
    }
    if !c.groups_of_one() {
        println!(
            "  The Rust has no such group: its build and stages are of the same lookups, each by itself; its row sum is of \
             our composed expression."
        );
    }
    if let Some(of) = times.0.get("build, fenced") {
        println!(
            "  The library's stages, and its build without m, are the times between the first writes to their \
             sections in a build of {:.4} ms whose buffers are fenced.",
            median(of[OURS].clone()).unwrap()
        );
    }
}

pub fn sheets(library: Library) {
    println!(
        "Each repetition runs both sides, in turn first. Times are medians; a ratio is the median of the repetitions'"
    );
    println!("ratios, and, of bests, that of the two shortest times, which other work on the machine disturbs least.");
    sheet("k = 10, 8 lookups of width 8, 40 copied columns, 32 constraints", &full(), library, 61);
    sheet("the same lookups in one group", &one_group(), library, 61);
    sheet("k = 10, plain", &plain(), library, 201);
    sheet("k = 4", &little(), library, 401);
    if library.has("circuit_first_no") {
        let words = super::limits::whole().sections.words();
        let mut times = Times::default();
        for _ in 0..21 {
            assert_eq!(times.time(OURS, "questions", || library.call("circuit_first_no", &slice(&words))), 0);
        }
        let ms = median(times.0["questions"][OURS].clone()).unwrap();
        println!("k = 10, everything at its limit, questions 1 to 11: {ms:.3} ms");
    }
    if library.has("sizes") {
        let words = super::limits::most_nodes().sections.words();
        let mut answer = [0u64; 3];
        let mut times = Times::default();
        for _ in 0..21 {
            let lent = [slice(&words), [answer.as_mut_ptr() as usize, answer.len()]].concat();
            assert_eq!(times.time(OURS, "sizes", || library.call("sizes", &lent)), 0);
        }
        let ms = median(times.0["sizes"][OURS].clone()).unwrap();
        println!("k = 10, the most nodes, sizes: {ms:.3} ms");
    }
}

/// Dependent multiplications and inverses, to set crate field's benchmark beside.
pub fn field() {
    let per = |n: u32, run: &mut dyn FnMut()| {
        let best = (0..5)
            .map(|_| {
                let start = Instant::now();
                run();
                start.elapsed()
            })
            .min()
            .unwrap();
        best.as_nanos() as f64 / n as f64
    };
    let (a, n) = (F::from(0x1234_5678_9abc_def1), 10_000_000);
    let mut x = F::from(3);
    println!(
        "multiplication, u128 product, reduced by 2^64 = 2^32 − 1: {:.2} ns",
        per(n, &mut || (0..n).for_each(|_| x = x * black_box(a)))
    );
    let mut w = x.value();
    println!(
        "multiplication, u128 product % p:                         {:.2} ns",
        per(n, &mut || (0..n).for_each(|_| w = super::model::mul(w, 0x1234_5678_9abc_def1)))
    );
    let mut s = x;
    println!(
        "addition:                                                 {:.2} ns",
        per(n, &mut || (0..n).for_each(|_| s = s + black_box(a)))
    );
    let n = 20_000;
    println!(
        "inverse, a^(p − 2):                                       {:.1} ns",
        per(n, &mut || (0..n).for_each(|_| x = x.invert().unwrap_or(F::ONE) + a))
    );
    black_box((x, w, s));
}
