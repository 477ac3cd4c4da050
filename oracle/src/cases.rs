//! Cases drawn from a seed, the fixed ones (the demo circuit, the limits), and the
//! answers to them.
use super::calls::Case;
use super::generate::{self, value, Log};
use super::given::answer;
use super::limits;
use super::model::{columns, composed_words, neg, Tree, P};
use super::questions::{read, Circuit};
use super::refuse::{Broken, WAYS};
use super::sections::*;

/// Words that a buffer holds before the call.
fn unwritten(rng: &mut Rng, n: usize) -> Vec<u64> {
    let wide = rng.once_in(4) && !rng.narrow;
    (0..n).map(|i| if wide { rng.word() } else { 10 + (37 * i as u64 + 11) % 89 }).collect()
}

/// Exact, or longer than needed.
fn length(rng: &mut Rng, needed: usize) -> usize {
    needed + if rng.once_in(2) { 0 } else { rng.range(1, 9) }
}

fn circuit(log: &Log) -> Circuit {
    read(&log.sections.words()).expect("an accepted circuit")
}

pub fn build_lent(log: &Log, columns: Vec<u64>, nodes: Vec<u64>) -> Vec<Vec<u64>> {
    let words = log.sections.words();
    vec![words, log.instance.clone(), log.witness.clone(), log.challenges.clone(), columns, nodes]
}

/// The building call on an accepted log.
pub fn build_case(log: &Log, rng: &mut Rng) -> Case {
    let c = circuit(log);
    let (columns, nodes) = (length(rng, c.column_words()), length(rng, composed_words(&c).len()));
    let (columns, nodes) = (unwritten(rng, columns), unwritten(rng, nodes));
    answer("build", build_lent(log, columns, nodes))
}

/// Is this the number of a question that is put to the circuit words alone?
pub fn of_circuit(number: u64) -> bool {
    (1..=11).contains(&number) || number == 18
}

/// The sizes of a build's circuit: refused as the build is by 1 to 11 or 18, else accepted, with the words that it needs.
pub fn sizes_case(build: &Case) -> Case {
    let case = answer("sizes", vec![build.lent[0].clone()]);
    let [number, columns, nodes, _] = case.returned[..] else { unreachable!() };
    let of_build = build.returned[0];
    assert_eq!(number, if of_circuit(of_build) { of_build } else { 0 }, "the sizes of {build:?}");
    if of_build == 0 {
        assert_eq!([columns, nodes], build.returned[1..3]);
    }
    if number == 0 && ![12, 13].contains(&of_build) {
        let short = build.lent[4].len() < columns as usize || build.lent[5].len() < 4 * nodes as usize;
        assert_eq!(short, of_build == 14, "14 follows from the sizes");
    }
    case
}

/// The cases; after each build the sizes of its circuit.
pub fn with_sizes(cases: impl Iterator<Item = Case>) -> impl Iterator<Item = Case> {
    cases.flat_map(|case| {
        let sizes = (case.call == "build").then(|| sizes_case(&case));
        [Some(case), sizes].into_iter().flatten()
    })
}

/// The row sum of a log that is built: its own columns, or any. None where it is refused, by 15 or 17.
pub fn row_sum_case(log: &Log, rng: &mut Rng) -> Option<Case> {
    let c = circuit(log);
    let built = columns(&c, &log.instance, &log.witness, &log.challenges).ok()?;
    let mut words = built.words();
    let altered = rng.once_in(3);
    if altered {
        let wide = rng.once_in(2);
        words.iter_mut().for_each(|w| *w = if wide || rng.once_in(5) { value(rng, true) } else { *w });
    }
    let wide = rng.once_in(2);
    let challenges = [&log.challenges[..], &[value(rng, wide)]].concat();
    let y = (0..c.k).map(|_| value(rng, wide)).collect();
    let case =
        answer("row_sum", vec![log.sections.words(), log.witness.clone(), words, composed_words(&c), challenges, y]);
    if log.meets && !altered && c.cuts_are_alike() {
        assert_eq!(case.returned, [0, 0], "demand 3");
    }
    Some(case)
}

/// A refusal of the building call by one way of `WAYS`; none where the way does
/// not fit the log. Two faults at once are answered by the model alone.
pub fn refused_build(log: Log, way: usize, second: Option<usize>, rng: &mut Rng) -> Option<Case> {
    let needs = |log: &Log| read(&log.sections.words()).ok().map(|c| [c.column_words(), composed_words(&c).len()]);
    let before = needs(&log)?;
    let mut b = Broken { log, edits: vec![], short: [0; 2] };
    let (number, fault) = WAYS[way];
    if !fault(&mut b, rng) {
        return None;
    }
    if let Some(second) = second {
        WAYS[second].1(&mut b, rng);
    }
    // Faults of later questions change nothing.
    if of_circuit(number) && rng.once_in(3) {
        b.log.witness.pop();
        b.log.challenges.iter_mut().for_each(|c| *c = P);
        b.short = [usize::MAX; 2];
    }
    let needed = needs(&b.log).unwrap_or(before);
    let shorter = |i: usize| needed[i].saturating_sub(b.short[i]);
    if number == 14 && second.is_none() && shorter(0) == needed[0] && shorter(1) == needed[1] {
        return None;
    }
    let lengths =
        if b.short == [0; 2] { [length(rng, needed[0]), length(rng, needed[1])] } else { [shorter(0), shorter(1)] };
    let (columns, nodes) = (unwritten(rng, lengths[0]), unwritten(rng, lengths[1]));
    let mut lent = build_lent(&b.log, columns, nodes);
    lent[0] = b.words();
    let case = answer("build", lent);
    if second.is_none() {
        assert_eq!(case.returned[0], number, "way {way}: {:?}", case);
    }
    Some(case)
}

/// A refusal of the row sum: 1 to 11 or 18 by the circuit words, or 16.
fn refused_row_sum(log: Log, rng: &mut Rng) -> Option<Case> {
    let mut lent = row_sum_case(&log, rng)?.lent;
    let mut number = 16;
    if rng.once_in(3) {
        let way = rng.below(WAYS.len());
        let mut b = Broken { log, edits: vec![], short: [0; 2] };
        number = WAYS[way].0;
        if !of_circuit(number) || !WAYS[way].1(&mut b, rng) {
            return None;
        }
        lent[0] = b.words();
    } else {
        let at = rng.range(1, 5);
        let word = rng.below(lent[at].len().max(1));
        match rng.below(4) {
            0 => lent[at].push(if at == 3 { 0 } else { value(rng, true) }),
            1 => drop(lent[at].pop()?),
            2 => lent[at].clear(),
            _ if at == 3 => {
                let by = rng.pick(&[1, P, 1 << 63]);
                lent[at][word] = lent[at][word].wrapping_add(by);
            }
            _ => *lent[at].get_mut(word)? = rng.pick(&[P, P + 1, u64::MAX]),
        }
        // An empty slice that was empty already is no fault.
        if lent[at].is_empty() && read(&lent[0]).unwrap().column_words() == 0 && at == 2 {
            return None;
        }
    }
    let case = answer("row_sum", lent);
    assert_eq!(case.returned, [number, 0]);
    Some(case)
}

/// h alone, on columns written out: the number, k, input, table, m, γ and the buffer's words. Each zero denominator by
/// itself, with the questions before 17 beside it.
pub fn h_alone() -> Vec<Case> {
    let (input, table, m) = ([7, 7, 5, 9], [5, 7, 7, 9], [1, 0, 2, 1]);
    let of = |number: u64, k: u64, [input, table, m]: [&[u64]; 3], gamma: u64, room: usize| {
        let out = (10..).take(room).collect();
        let lent = vec![vec![k], input.to_vec(), table.to_vec(), m.to_vec(), vec![gamma], out];
        let case = answer("lookup_h_poly", lent);
        assert_eq!(case.returned, [number], "{case:?}");
        case
    };
    let lookup = |number: u64, gamma: u64, room: usize| of(number, 2, [&input, &table, &m], gamma, room);
    vec![
        lookup(0, 1, 4),
        lookup(0, P - 6, 5),
        lookup(17, P - 5, 4),
        lookup(17, P - 7, 6),
        lookup(17, P - 9, 4),
        // Of the input alone and of the table alone, on the first row and on the last; the table's where m is 0.
        of(17, 2, [&[6, 7, 5, 9], &table, &m], P - 6, 4),
        of(17, 2, [&[7, 7, 5, 6], &table, &m], P - 6, 4),
        of(17, 2, [&input, &[6, 7, 7, 9], &[0, 0, 2, 1]], P - 6, 4),
        of(17, 2, [&input, &[5, 7, 7, 6], &[1, 0, 2, 0]], P - 6, 4),
        of(17, 1, [&[0, 1], &[1, 1], &[0, 0]], 0, 2),
        // Earlier questions.
        lookup(14, P - 5, 3),
        lookup(14, P - 5, 0),
        lookup(13, P, 4),
        of(13, 2, [&input, &table, &[1, 0, P, 1]], P - 5, 4),
        of(13, 1, [&[P, 1], &[1, 1], &[0, 0]], 0, 2),
        of(12, 2, [&input, &table, &m[..3]], P - 5, 4),
        of(2, 0, [&input, &table, &m], P - 5, 4),
        of(2, 11, [&input, &table, &m], P - 5, 4),
    ]
}

/// A stage called alone, now and then refused.
fn stage_case(name: &str, rng: &mut Rng, small: bool) -> Case {
    let k = if !small && rng.once_in(20) { rng.range(6, 10) } else { rng.range(1, if small { 3 } else { 5 }) };
    let rows = 1usize << k;
    let wide = rng.once_in(3);
    let column = |rng: &mut Rng| (0..rows).map(|_| value(rng, wide)).collect::<Vec<_>>();
    let table = column(rng);
    let mut input: Vec<u64> = (0..rows).map(|_| rng.pick(&table)).collect();
    if rng.once_in(6) {
        input = column(rng);
    }
    let m = if rng.once_in(2) { (0..rows).map(|_| rng.below(3) as u64).collect() } else { column(rng) };
    let gamma = if rng.once_in(4) { neg(rng.pick(&table)) } else { value(rng, true) };
    let y = (0..k).map(|_| value(rng, wide)).collect();
    let out = length(rng, rows);
    let mut lent = match name {
        "lookup_m_poly" => vec![vec![k as u64], input, table],
        "lookup_h_poly" => vec![vec![k as u64], input, table, m, vec![gamma]],
        _ => vec![vec![k as u64], y],
    };
    lent.push(unwritten(rng, out));
    let last = lent.len() - 1;
    let mut number = None;
    if rng.once_in(4) {
        let at = rng.range(1, last - 1);
        let one = at == 4;
        let word = rng.below(lent[at].len());
        number = Some(rng.pick(&[2, 12, 13, 14]));
        match number {
            Some(2) => lent[0][0] = rng.pick(&[0, 11, 64, u64::MAX, k as u64 + (1 << 32)]),
            Some(12) if !one && rng.once_in(2) => lent[at].push(rng.word()),
            Some(12) if !one => drop(lent[at].pop()),
            Some(14) => lent[last].truncate(rng.pick(&[0, 1, rows - 1])),
            _ => {
                number = Some(13);
                lent[at][word] = rng.pick(&[P, P + 1, u64::MAX]);
            }
        }
    }
    let case = answer(name, lent);
    if let Some(number) = number {
        assert_eq!(case.returned, [number]);
    }
    case
}

/// The case of a seed with a number.
pub fn case(seed: u64, number: u64, small: bool) -> Case {
    let mut rng = Rng::new(seed.wrapping_mul(0x2545f4914f6cdd1d) ^ number.wrapping_mul(0x9e3779b97f4a7c15));
    rng.narrow = small;
    let rng = &mut rng;
    rng.word();
    loop {
        let kind = rng.below(20);
        let refused = (12..=15).contains(&kind);
        let log = || generate::log(&mut Rng::new(seed ^ number.wrapping_mul(0xd1342543de82ef95)), small || refused);
        let case = match kind {
            0..=7 => Some(build_case(&log(), rng)),
            8..=11 => row_sum_case(&log(), rng).or_else(|| Some(build_case(&log(), rng))),
            12..=14 => {
                let way = rng.below(WAYS.len());
                let second = rng.once_in(4).then(|| rng.below(WAYS.len()));
                refused_build(log(), way, second, rng)
            }
            15 => refused_row_sum(log(), rng),
            16 | 17 => Some(stage_case("lookup_m_poly", rng, small)),
            18 => Some(stage_case("lookup_h_poly", rng, small)),
            _ => Some(stage_case("eq_xy", rng, small)),
        };
        if let Some(case) = case {
            return case;
        }
    }
}

/// The demo circuit, k = 3: a selector with a rotation, a lookup of width 2 whose
/// table has rows twice, copies over an instance and two witness columns.
pub fn demo() -> Log {
    let mut s = Sections { k: 3, ..Default::default() };
    let poly = |p: u64, r: i64| Tree::Polynomial(p, r);
    let minus = |a: Tree, b: Tree| Tree::Sum(a.into(), Tree::Negated(b.into()).into());
    s.bodies[INSTANCES] = vec![2];
    s.bodies[PREPROCESS] = [[0, 1, 1, 0, 1, 0, 0, 0], [0, 5, 11, 17, 17, 23, 0, 5], [0, 6, 6, 6, 6, 6, 0, 6]].concat();
    s.bodies[ROUNDS] = vec![2, 0];
    s.constraint(&Tree::Product(poly(1, 0).into(), minus(minus(poly(4, 1), poly(4, 0)), poly(5, 0)).into()));
    s.lookup(&[(poly(4, 0), poly(2, 0)), (poly(5, 0), poly(3, 0))]);
    s.cycle(&[(0, 1), (4, 1)]);
    s.cycle(&[(0, 2), (4, 2)]);
    s.cycle(&[(5, 1), (5, 2), (5, 4)]);
    let witness = [[0, 5, 11, 23, 17, 0, 0, 0], [0, 6, 6, 6, 6, 0, 0, 0]].concat();
    Log { sections: s, instance: vec![5, 11], witness, challenges: vec![1000003, 777], meets: true }
}

/// The group of document 02's brief, k = 2: table 5 7 7 9, inputs 7 7 5 9 and 9 9 7 5, γ = 1. m is 2 0 3 3.
pub fn two_readings() -> Log {
    let mut s = Sections { k: 2, ..Default::default() };
    s.bodies[PREPROCESS] = vec![5, 7, 7, 9];
    s.bodies[ROUNDS] = vec![2, 0];
    (1..3).for_each(|p| s.member(&[(Tree::Polynomial(p, 0), Tree::Polynomial(0, 0))]));
    let witness = vec![7, 7, 5, 9, 9, 9, 7, 5];
    Log { sections: s, instance: vec![], witness, challenges: vec![10, 1], meets: true }
}

/// A refusal by this way, on the first small log that it fits.
pub fn refused_by(way: usize, fits: impl Fn(&Case, u64) -> bool) -> Option<Case> {
    (0..400).find_map(|seed| {
        let rng = &mut Rng::narrow(1000 * way as u64 + seed);
        let log = generate::log(rng, true);
        refused_build(log, way, None, rng).filter(|case| fits(case, seed))
    })
}

/// Logs with their numbers, built, and summed where they are accepted.
fn numbered(logs: Vec<(u64, Log)>) -> impl Iterator<Item = Case> {
    let mut rng = Rng::new(4);
    logs.into_iter().flat_map(move |(number, log)| {
        let rng = &mut rng;
        let accepted = number == 0 || number == 17;
        let case = if accepted {
            build_case(&log, rng)
        } else {
            answer("build", build_lent(&log, unwritten(rng, 40), unwritten(rng, 40)))
        };
        assert_eq!(case.returned[0], number, "{:?}", log.sections);
        let sum = if accepted { row_sum_case(&log, rng) } else { None };
        [Some(case), sum].into_iter().flatten()
    })
}

/// The demo, two readings of one table and the limits; every way to be refused; h alone; last the large circuits.
pub fn fixed() -> impl Iterator<Item = Case> {
    let small = vec![(0, demo()), (0, two_readings())].into_iter().chain(limits::all()).collect();
    let refused = (0..WAYS.len()).map(|way| refused_by(way, |_, _| true).expect("a log for each way"));
    numbered(small).chain(refused).chain(h_alone()).chain(numbered(limits::large()))
}
