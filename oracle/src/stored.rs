//! Stored answers: the sample that the replay reads, a handful of small whole
//! circuits, and what cases are made of.
use super::calls::Case;
use super::cases::{
    build_case, build_lent, case, demo, h_alone, refused_build, refused_by, row_sum_case, sizes_case, two_readings,
};
use super::examples::{denominators, sized};
use super::generate::Log;
use super::given::answer;
use super::limits;
use super::model::{is_denominator, log_zeros, Tree, P};
use super::questions::read as read_circuit;
use super::refuse::WAYS;
use super::sections::*;
use std::collections::BTreeSet;

/// Lines that begin with # stand at the head of a file only.
pub fn head(command: &str) -> String {
    format!(
        "# Made by `{command}`: the columns are the given Rust's, those of groups of two lookups or more the model's; the numbers and \
         nodes are those of documents 01 and 02.\n\
         # A block: the call; each lent slice as its length and words; the returned numbers; each buffer after.\n"
    )
}

pub fn read(file: &str) -> Vec<Case> {
    let text = std::fs::read_to_string(file).unwrap_or_else(|e| panic!("{file}: {e}"));
    let text = text.lines().skip_while(|l| l.starts_with('#') || l.is_empty()).collect::<Vec<_>>().join("\n");
    let blocks = text.split("\n\n").filter(|b| !b.is_empty());
    blocks.map(|b| Case::of_text(b).unwrap_or_else(|| panic!("{file}: not a case:\n{b}"))).collect()
}

fn file(command: &str, cases: &[Case]) -> String {
    let blocks: Vec<String> = cases.iter().map(|c| format!("\n{}", c.text())).collect();
    head(command) + &blocks.concat()
}

/// Of these builds, the sizes of the circuits of some: for each number the first and the last, of those accepted every fifth.
fn some_sizes(builds: &[Case]) -> Vec<Case> {
    let numbered = |number: u64| builds.iter().filter(move |b| b.call == "build" && b.returned[0] == number);
    let refused =
        (1..=15).chain([17, 18]).flat_map(|number| numbered(number).next().into_iter().chain(numbered(number).last()));
    refused.chain(numbered(0).step_by(5)).map(sizes_case).collect()
}

/// Every way to be refused, on small circuits; then drawn cases, each short, some of them with a group of two lookups or
/// more; then h alone, and sizes. The replay reads 400,000 bytes.
pub fn sample() -> String {
    // 15 and 17 want room for the columns.
    let most = |case: &Case| if [15, 17].contains(&case.returned[0]) { 2400 } else { 700 };
    let short = |case: &Case, seed: u64| case.text().len() < most(case) || seed > 200;
    let mut cases: Vec<Case> = (0..WAYS.len()).filter_map(|way| refused_by(way, short)).collect();
    let drawn = |call: &'static str, refused: bool, most: usize| {
        let fits = move |c: &Case| c.call == call && (c.returned[0] != 0) == refused && c.text().len() < most;
        (0..).map(|n| case(7, n, true)).filter(fits)
    };
    let larger = |c: &Case| !read_circuit(&c.lent[0]).unwrap().groups_of_one();
    cases.extend(drawn("build", false, 2600).filter(|c| !larger(c)).take(40));
    cases.extend(drawn("build", false, 3600).filter(larger).take(10));
    for number in [15, 17] {
        cases.extend(drawn("build", true, 1500).filter(|c| c.returned[0] == number).take(8));
    }
    cases.extend(drawn("row_sum", false, 1600).filter(|c| !larger(c)).take(32));
    cases.extend(drawn("row_sum", false, 2400).filter(larger).take(8));
    cases.extend(drawn("row_sum", true, 1200).take(30));
    for stage in ["lookup_m_poly", "lookup_h_poly", "eq_xy"] {
        cases.extend(drawn(stage, false, 1200).take(18));
        cases.extend(drawn(stage, true, 1200).take(10));
    }
    cases.extend(h_alone());
    cases.extend(some_sizes(&cases));
    file("oracle/run sample", &cases)
}

/// Circuits by hand, k = 1 to 3, each built and, where it is not refused, summed; one refusal of each number from 1 to 18;
/// worked denominators, built and as h alone; then sizes of these circuits, and of more, groups among them.
pub fn small() -> String {
    let rng = &mut Rng::narrow(3);
    let poly = |p: u64, r: i64| Tree::Polynomial(p, r);
    let minus = |a: Tree, b: Tree| Tree::Sum(a.into(), Tree::Negated(b.into()).into());
    let log = |s: Sections, instance: &[u64], witness: &[u64], challenges: &[u64]| Log {
        sections: s,
        instance: instance.to_vec(),
        witness: witness.to_vec(),
        challenges: challenges.to_vec(),
        meets: true,
    };
    let base = |k: u64, rounds: &[u64]| {
        let mut s = Sections { k, ..Default::default() };
        s.bodies[ROUNDS] = rounds.to_vec();
        s
    };
    let mut logs = vec![];
    // k = 1, one single-cell cycle: z = 0, 1.
    let mut s = base(1, &[1, 0]);
    s.cycle(&[(0, 1)]);
    logs.push(log(s, &[], &[3, 4], &[5, 6]));
    // k = 2, a table row listed twice: table 5 7 7 9, inputs 7 7 5 9, m = 1 0 2 1.
    let mut s = base(2, &[1, 0]);
    s.bodies[PREPROCESS] = vec![5, 7, 7, 9];
    s.lookup(&[(poly(1, 0), poly(0, 0))]);
    logs.push(log(s, &[], &[7, 7, 5, 9], &[10, 100]));
    // k = 2, a cell copied from an instance column, labels 0 6 2 3 and 4 5 1 7.
    let mut s = base(2, &[1, 0]);
    s.bodies[INSTANCES] = vec![1];
    s.cycle(&[(0, 1), (1, 2)]);
    logs.push(log(s, &[8], &[0, 0, 8, 0], &[10, 100]));
    // k = 3, a rotation: p at the next row is twice p but after the last; a list
    // by a challenge, two rounds, a stated degree.
    let mut s = base(3, &[1, 1, 1, 0]);
    let step = minus(poly(0, 1), Tree::Scaled(poly(0, 0).into(), 2));
    let inner = Tree::Sum(Tree::Constant(1).into(), Tree::Negated(Tree::Lagrange(-1).into()).into());
    let gated = Tree::Product(inner.into(), step.into());
    let back = minus(poly(1, -1), Tree::Identity);
    let zero = Tree::Scaled(back.into(), 0);
    s.constraint(&Tree::List(vec![gated, zero, Tree::Constant(0)], Tree::Challenge(0).into()));
    s.degree = 4;
    logs.push(log(s, &[], &[0, 1, 2, 8, 4, 64, 16, 32, 1, 2, 3, 4, 5, 6, 7, 8], &[9, 10, 100]));
    // k = 1, five copied columns with D = 5: the cuts are 4, 1 and 3, 2.
    let mut s = base(1, &[5, 0]);
    s.degree = 6;
    s.cycle(&(0..5).map(|p| (p, 1)).collect::<Vec<_>>());
    logs.push(log(s, &[], &[1, 2, 3, 2, 5, 2, 7, 2, 9, 2], &[10, 100]));
    // A zero denominator: gamma is minus a table value.
    let mut s = base(1, &[1, 0]);
    s.lookup(&[(poly(0, 0), poly(0, 1))]);
    logs.push(log(s, &[], &[5, 7], &[10, P - 7]));
    logs.push(demo());
    logs.push(two_readings());
    let mut cases = vec![];
    for log in &logs {
        cases.push(build_case(log, rng));
        cases.extend(row_sum_case(log, rng));
    }
    for number in (1..=15).chain([17, 18]) {
        let ways = (0..WAYS.len()).filter(|w| WAYS[*w].0 == number);
        let on = if number == 6 || number == 13 { 2 } else { 1 };
        cases.extend(ways.filter_map(|way| refused_build(logs[on].clone(), way, None, rng)).next());
    }
    let mut lent = row_sum_case(&logs[1], rng).unwrap().lent;
    lent[3][3] += 1;
    cases.push(answer("row_sum", lent));
    cases.extend(denominators().into_iter().map(|(_, log)| build_case(&log, rng)));
    // h alone: gamma 1, p − 6, and p − 5, by which a denominator is zero.
    cases.extend(h_alone().into_iter().take(3));
    let grouped = limits::groups().into_iter().map(|(_, log)| log.sections);
    let worked = sized().into_iter().map(|(s, _)| s).chain(grouped);
    let worked: Vec<Case> = worked.map(|s| answer("sizes", vec![s.words()])).collect();
    let mut seen: Vec<Vec<u64>> = worked.iter().map(|w| w.lent[0].clone()).collect();
    let mut sizes = vec![];
    for build in cases.iter().filter(|c| c.call == "build" && ![12, 13, 14, 15].contains(&c.returned[0])) {
        if !seen.contains(&build.lent[0]) {
            seen.push(build.lent[0].clone());
            sizes.push(sizes_case(build));
        }
    }
    cases.extend(sizes.into_iter().chain(worked));
    file("oracle/run small", &cases)
}

/// What an accepted build shows, by name.
pub fn features(case: &Case) -> BTreeSet<String> {
    let mut out = BTreeSet::new();
    if case.call != "build" || ![0, 15, 17].contains(&case.returned[0]) {
        return out;
    }
    let c = read_circuit(&case.lent[0]).unwrap();
    let mut saw = |what: String| drop(out.insert(what));
    saw(format!("k {:>2}", c.k));
    saw(format!("rounds {}", c.rounds.len()));
    saw(format!("user constraints {}", if c.constraints.len() > 4 { "5 or more" } else { "0 to 4" }));
    saw(format!("degree {}", if c.max_degree.is_some() { "stated" } else { "not stated" }));
    if !c.copied().is_empty() {
        saw(format!("cuts {}", if c.cuts_are_alike() { "alike" } else { "not alike" }));
        saw(format!("z columns {}", if c.parts() > 3 { "4 or more".into() } else { c.parts().to_string() }));
    }
    for size in c.group_sizes() {
        saw(format!("group of {}", if size > 3 { "4 or more".into() } else { size.to_string() }));
    }
    for (i, lookup) in c.lookups.iter().enumerate() {
        saw(format!("lookup of width {}", lookup.len()));
        if case.returned[0] == 0 {
            let rows = 1 << c.k;
            let at = (c.instances.len() + c.copied().len() + 2 * i + 1) * rows;
            let table = &case.after[0][at..at + rows];
            if table.iter().collect::<BTreeSet<_>>().len() < rows {
                saw("table row listed twice".into());
            }
        }
    }
    let mut cells = BTreeSet::new();
    for cycle in &c.cycles {
        saw(if cycle.len() == 1 { "single-cell cycle".into() } else { "longer cycle".into() });
        for cell in cycle {
            let (i, p) = (c.instances.len() as u64, c.preprocess.len() as u64);
            let of = if cell.0 < i {
                "an instance"
            } else if cell.0 < i + p {
                "a preprocess"
            } else {
                "a witness"
            };
            saw(format!("cell of {of} column"));
            if !cells.insert(*cell) {
                saw("cycles that meet".into());
            }
        }
    }
    for node in case.lent[0][case.lent[0][8] as usize..case.lent[0][10] as usize].chunks(4) {
        saw(format!("node kind {:>2}", node[0]));
        let sign = if node[3] < 1 << 31 {
            "negative"
        } else if node[3] > 1 << 31 {
            "positive"
        } else {
            "0"
        };
        if node[0] == 3 || node[0] == 5 {
            saw(format!("{} {sign}", if node[0] == 3 { "Lagrange" } else { "rotation" }));
        }
    }
    fn nested(t: &Tree, inside: bool) -> bool {
        match t {
            Tree::List(list, base) => inside || nested(base, true) || list.iter().any(|t| nested(t, true)),
            Tree::Sum(a, b) | Tree::Product(a, b) => nested(a, inside) || nested(b, inside),
            Tree::Negated(a) | Tree::Scaled(a, _) => nested(a, inside),
            _ => false,
        }
    }
    if c.constraints.iter().any(|t| nested(t, false)) {
        saw("list in a list".into());
    }
    for zero in log_zeros(&c, &case.lent[1], &case.lent[2], &case.lent[3]) {
        let what = if is_denominator(&zero) { "denominator" } else { "factor, no denominator" };
        let row = if zero.1 == 0 { "on row 0" } else { "past row 0" };
        saw(format!("a zero {what}: {:?} {row}", zero.0));
    }
    for (i, what) in ["columns", "nodes"].iter().enumerate() {
        let written = if i == 0 { case.returned[1] } else { 4 * case.returned[2] } as usize;
        if case.returned[0] == 0 {
            saw(format!("{what} buffer {}", if case.lent[4 + i].len() == written { "exact" } else { "longer" }));
        }
    }
    out
}

/// The build of a log with exact buffers, for the benchmark.
pub fn lent_for(log: &Log) -> Vec<Vec<u64>> {
    let c = read_circuit(&log.sections.words()).unwrap();
    let nodes = super::model::composed_words(&c).len();
    build_lent(log, vec![0; c.column_words()], vec![0; nodes])
}
